//! Counts of how accepted policies are built.

use std::collections::{BTreeMap, BTreeSet};
use std::fmt;

use crate::combining::Decision;
use crate::deciding;
use crate::line::Line;
use crate::policy::{Policy, MOST_LINES};
use crate::readings::Readings;

/// In how many policies something occurs.
#[derive(Clone, Copy, Debug, Default, PartialEq, Eq)]
pub struct Uses {
    pub anywhere: usize,
    pub at_the_root: usize,
    pub below_the_root: usize,
}

#[derive(Debug, Default, PartialEq, Eq)]
pub struct Survey {
    /// By algorithm and strategy, as a set spells them.
    pub combinings: BTreeMap<String, Uses>,
    /// The most sets in one another.
    pub deepest: usize,
    /// How many policies have as many lines as there may be.
    pub full: usize,
    /// What sets of three at the root combine in some row, by how they do it.
    pub triples: BTreeMap<String, BTreeSet<Vec<Decision>>>,
}

impl Survey {
    pub fn of_pairs<'a>(pairs: impl IntoIterator<Item = &'a (Policy, Readings)>) -> Survey {
        let mut survey = Survey::default();
        for (policy, readings) in pairs {
            survey.count(policy);
            survey.count_triples(policy, readings);
        }
        survey
    }

    fn count(&mut self, policy: &Policy) {
        self.deepest = self.deepest.max(nesting(policy));
        self.full += usize::from(policy.lines.len() == MOST_LINES);
        let Some((root, below)) = policy.lines.split_last() else {
            return;
        };
        let root: BTreeSet<String> = combining(root).into_iter().collect();
        let below: BTreeSet<String> = below.iter().filter_map(combining).collect();
        for word in root.union(&below) {
            let uses = self.combinings.entry(word.clone()).or_default();
            uses.anywhere += 1;
            uses.at_the_root += usize::from(root.contains(word));
            uses.below_the_root += usize::from(below.contains(word));
        }
    }

    fn count_triples(&mut self, policy: &Policy, readings: &Readings) {
        let Some(combining) = policy.lines.last().and_then(combining) else {
            return;
        };
        let rows = deciding::judgements(policy, readings);
        let children = rows.filter_map(|row| row.children());
        let triples = self.triples.entry(combining).or_default();
        triples.extend(children.filter(|children| children.len() == 3));
    }
}

fn combining(line: &Line) -> Option<String> {
    match line {
        Line::Set {
            algorithm,
            strategy,
            ..
        } => Some(format!("{}.{}", algorithm.word(), strategy.word())),
        _ => None,
    }
}

/// How many sets are in one another at the deepest place of a policy.
pub fn nesting(policy: &Policy) -> usize {
    // A line names lines above it only, so one pass from the top meets them first.
    let mut depths: Vec<usize> = Vec::with_capacity(policy.lines.len());
    for line in &policy.lines {
        let depth = |number: usize| depths[number - 1];
        let depth = match line {
            Line::Set { item, .. } => 1 + depth(*item),
            Line::Item { policy, earlier } => depth(*policy).max(earlier.map_or(0, depth)),
            _ => 0,
        };
        depths.push(depth);
    }
    depths.last().copied().unwrap_or(0)
}

impl fmt::Display for Survey {
    fn fmt(&self, out: &mut fmt::Formatter<'_>) -> fmt::Result {
        for (word, uses) in &self.combinings {
            let (root, below) = (uses.at_the_root, uses.below_the_root);
            let anywhere = uses.anywhere;
            writeln!(
                out,
                "policies with {word} {anywhere} (root {root}, nested {below})"
            )?;
        }
        for (word, triples) in &self.triples {
            writeln!(out, "triples below {word} {}", triples.len())?;
        }
        writeln!(out, "deepest nesting {}", self.deepest)?;
        writeln!(out, "policies with {MOST_LINES} lines {}", self.full)
    }
}

#[cfg(test)]
mod tests {
    use super::*;
    use crate::{policy, readings};
    use Decision::{Deny, Indeterminate, NotApplicable, Permit};

    fn parsed(lines: &str) -> Policy {
        let file = format!("kind a b c d e\n{}\n", lines.replace('|', "\n"));
        policy::parse(file.as_bytes()).unwrap()
    }

    #[test]
    fn sets_are_counted_by_their_place() {
        let rule = parsed("true - - - - -|permit 1 - - - -");
        let nested = parsed(
            "true - - - - -|permit 1 - - - -|item 2 - - - -|true - - - - -|\
             set one-app.greedy 4 3 - -|item 5 - - - -|true - - - - -|permit 7 - - - -|\
             item 8 6 - - -|true - - - - -|set p-over.all 10 9 - -",
        );
        assert_eq!((nesting(&rule), nesting(&nested)), (0, 2));
        let nested = (nested, readings::parse(b"a\n").unwrap());
        let rule = (rule, nested.1.clone());
        let survey = Survey::of_pairs([&rule, &nested, &nested]);
        let uses = |word: &str| {
            let uses = survey.combinings[word];
            [uses.anywhere, uses.at_the_root, uses.below_the_root]
        };
        assert_eq!(uses("p-over.all"), [2, 2, 0]);
        assert_eq!(uses("one-app.greedy"), [2, 0, 2]);
        assert_eq!((survey.combinings.len(), survey.deepest), (2, 2));
    }

    #[test]
    fn triples_are_counted_once_each() {
        let policy = parsed(
            "attr a - - - -|permit 1 - - - -|item 2 - - - -|attr b - - - -|deny 4 - - - -|\
             item 5 3 - - -|true - - - - -|permit 7 - - - -|item 8 6 - - -|attr c - - - -|\
             set one-app.all 10 9 - -",
        );
        let rows = b"a b c\ntrue - true\n! true true\ntrue false true\ntrue true -\n";
        let pair = (policy, readings::parse(rows).unwrap());
        let triples = &Survey::of_pairs([&pair, &pair]).triples["one-app.all"];
        let expected = [
            vec![Permit, NotApplicable, Permit],
            vec![Indeterminate, Deny, Permit],
        ];
        assert_eq!(*triples, BTreeSet::from(expected));
    }
}

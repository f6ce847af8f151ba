//! Every algorithm and strategy on every short list of decisions.

use super::nodes::Nodes;
use super::random::Random;
use super::table::{words, Table};
use super::{combinings, Case, FORCES};
use crate::combining::Decision;

const LONGEST_LIST: usize = 3;
const ROWS: usize = 6;
const NAMES: [&str; LONGEST_LIST] = ["a", "b", "c"];
const NOT_APPLICABLE: [&str; 2] = ["false", "-"];
const INDETERMINATE: [&str; 4] = ["!", "0", "roof", "1,2"];

/// What each item of a set decides.
type Decisions = Vec<Decision>;

pub fn cases(random: &mut Random) -> Vec<Case> {
    let mut cases = Vec::new();
    for combining in combinings() {
        let usual = random.pick(&[Decision::Permit, Decision::Deny]);
        for (effects, lists) in groups(usual) {
            for rows in lists.chunks(ROWS) {
                cases.push(case(&combining, &effects, rows, random));
            }
        }
    }
    cases
}

/// All lists of one to three decisions, each with the effects of the rules that give it.
///
/// A rule has but one effect, so a list settles those of the rules that decide; the others
/// have the usual one. This way few policies serve for all lists, and each list comes once.
fn groups(usual: Decision) -> Vec<(Decisions, Vec<Decisions>)> {
    let mut groups: Vec<(Decisions, Vec<Decisions>)> = Vec::new();
    for list in (1..=LONGEST_LIST).flat_map(lists) {
        let effect = |&decision: &Decision| match decision {
            Decision::Permit | Decision::Deny => decision,
            Decision::NotApplicable | Decision::Indeterminate => usual,
        };
        let effects: Decisions = list.iter().map(effect).collect();
        match groups.iter_mut().find(|group| group.0 == effects) {
            Some(group) => group.1.push(list),
            None => groups.push((effects, vec![list])),
        }
    }
    groups
}

/// All lists with this many decisions.
fn lists(length: usize) -> Vec<Decisions> {
    (0..length).fold(vec![Vec::new()], |lists, _| {
        let longer = |list: Decisions| Decision::ALL.map(|next| [&list[..], &[next]].concat());
        lists.into_iter().flat_map(longer).collect()
    })
}

/// A set whose items decide as listed in each row. Every item has its place as a duty, and
/// the set has one of its own for either decision.
fn case(combining: &str, effects: &[Decision], lists: &[Decisions], random: &mut Random) -> Case {
    let mut nodes = Nodes::default();
    let mut last = None;
    for (place, effect) in effects.iter().enumerate() {
        let target = nodes.leaf("attr", NAMES[place]);
        let argument = nodes.leaf("num", &place.to_string());
        let duty = nodes.duty(random.pick(&FORCES), place, argument, None);
        let rule = nodes.rule(effect.word(), target, Some(duty));
        last = Some(nodes.item(rule, last));
    }
    let target = nodes.leaf("true", "-");
    let duties = [14, 15].map(|action| {
        let argument = nodes.leaf("text", "own");
        Some(nodes.duty(random.pick(&FORCES), action, argument, None))
    });
    let item = last.expect("no list is empty");
    nodes.set(combining, target, item, duties);
    Case {
        policy: nodes.written(false, random).to_bytes(),
        readings: readings(effects.len(), lists, random).to_bytes(),
    }
}

fn readings(width: usize, lists: &[Decisions], random: &mut Random) -> Table {
    let mut lines = vec![words(&NAMES[..width].join(" "))];
    for list in lists {
        let cell = |decision: &Decision| match decision {
            Decision::Permit | Decision::Deny => "true",
            Decision::NotApplicable => random.pick(&NOT_APPLICABLE),
            Decision::Indeterminate => random.pick(&INDETERMINATE),
        };
        let cells: Vec<&str> = list.iter().map(cell).collect();
        lines.push(words(&cells.join(" ")));
    }
    Table { lines }
}

#[cfg(test)]
mod tests {
    use super::*;
    use crate::deciding::judgements;
    use crate::trial;

    #[test]
    fn every_list_comes_once() {
        for usual in [Decision::Permit, Decision::Deny] {
            let all: Vec<Decisions> = groups(usual).into_iter().flat_map(|g| g.1).collect();
            assert_eq!(all.len(), 4 + 16 + 64);
            let first = |list| all.iter().position(|other| other == list);
            assert!(all
                .iter()
                .enumerate()
                .all(|(place, list)| first(list) == Some(place)));
        }
    }

    /// Whatever one item decides, these algorithms hand it on.
    #[test]
    fn items_decide_as_listed() {
        let mut random = Random::new(4);
        let lists = lists(1);
        for combining in ["p-over.all", "first-app.greedy", "strong-con.all"] {
            for effect in [Decision::Permit, Decision::Deny] {
                let case = case(combining, &[effect], &lists, &mut random);
                let (policy, readings) = trial::check(&case.policy, &case.readings).unwrap();
                let responses = judgements(&policy, &readings).map(|row| row.response());
                let decisions: Decisions = responses.map(|response| response.decision).collect();
                assert_eq!(decisions[..2], [effect; 2]);
                assert_eq!(decisions[2..], lists.concat()[2..]);
            }
        }
    }
}

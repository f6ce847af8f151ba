use super::*;
use crate::line::{Line, LineNumber, Operator};
use crate::operators::Operand;
use crate::policy::{Policy, MOST_LINES};
use crate::readings::Readings;
use crate::summary::{percent, Summary};
use crate::survey::{nesting, Survey};
use std::collections::{BTreeMap, BTreeSet};

/// The most sets in one another that fit: three lines for each and two for the rule inside.
const DEEPEST: usize = 84;

fn parsed(cases: &[Case]) -> Vec<(Policy, Readings)> {
    let check = |case: &Case| trial::check(&case.policy, &case.readings).expect("accepted");
    cases.iter().map(check).collect()
}

fn summary(cases: &[Case]) -> Summary {
    let answer = |case: &Case| trial::answer(&case.policy, &case.readings) + "\n";
    Summary::of_answers(&cases.iter().map(answer).collect::<String>())
}

fn count<T>(things: &[T], wanted: impl Fn(&T) -> bool) -> usize {
    things.iter().filter(|thing| wanted(thing)).count()
}

/// The lines of the chain that ends with this one.
fn chain(policy: &Policy, last: Option<LineNumber>) -> usize {
    std::iter::successors(last, |&line| policy.line(line).earlier()).count()
}

#[test]
fn the_same_cases_come_every_time() {
    assert_eq!(cases(), cases());
}

#[test]
fn there_are_enough_and_all_are_accepted() {
    let pairs = parsed(&cases());
    assert!(pairs.len() >= 2_500, "{}", pairs.len());
    let few = |pair: &(Policy, Readings)| (1..=6).contains(&pair.1.rows.len());
    assert!(pairs.iter().all(few));
}

#[test]
fn every_decision_is_well_represented() {
    let random = &mut Random::new(SEED);
    for cases in [cases(), grown(random), formulas(random)] {
        let summary = summary(&cases);
        let least = summary
            .by_decision
            .map(|rows| percent(rows, summary.rows()));
        assert!(least.iter().all(|&percent| percent >= 12), "{summary}");
        assert!(
            percent(summary.rows_with_duties, summary.rows()) >= 25,
            "{summary}"
        );
    }
}

#[test]
fn every_way_of_combining_is_at_the_root_and_nested() {
    let pairs = parsed(&cases());
    let survey = Survey::of_pairs(&pairs);
    assert_eq!(survey.combinings.len(), 16);
    for uses in survey.combinings.values() {
        assert!(
            uses.at_the_root >= 50 && uses.below_the_root >= 50,
            "{survey}"
        );
    }
    assert_eq!(survey.deepest, DEEPEST);
    assert!(survey.full >= 60, "{survey}");
}

#[test]
fn some_are_as_deep_or_as_wide_as_can_be() {
    let pairs = parsed(&cases());
    assert!(count(&pairs, |pair| nesting(&pair.0) == DEEPEST) >= 20);
    let wide = |pair: &(Policy, Readings)| match pair.0.lines.last() {
        Some(Line::Set { item, .. }) => {
            let rules = chain(&pair.0, Some(*item));
            nesting(&pair.0) == 1 && rules >= 50 && pair.0.lines.len() > MOST_LINES - 6
        }
        _ => false,
    };
    assert!(count(&pairs, wide) >= 20);
}

#[test]
fn every_operator_is_there_thousands_of_times() {
    let mut counts: BTreeMap<String, usize> = BTreeMap::new();
    for case in super::super::all_cases() {
        if trial::check(&case.policy, &case.readings).is_ok() {
            let file = String::from_utf8(case.policy).expect("accepted files are plain text");
            for line in file.lines() {
                let kind = line.split(' ').next().unwrap_or_default();
                *counts.entry(kind.to_owned()).or_default() += 1;
            }
        }
    }
    let operators = Operator::ALL.map(Operator::word);
    for operator in operators.into_iter().chain(["not"]) {
        assert!(counts[operator] >= 2_000, "{operator} {}", counts[operator]);
    }
}

fn sort(operand: Operand) -> char {
    match operand {
        Operand::Missing => 'm',
        Operand::Error => 'x',
        Operand::Boolean(_) => 'b',
        Operand::Number(_) => 'n',
        Operand::Text(_) => 't',
        Operand::Numbers(_) => 'N',
        Operand::Texts(_) => 'T',
    }
}

#[test]
fn every_operator_meets_every_pair_of_sorts() {
    let mut counts: BTreeMap<(&str, char, char), usize> = BTreeMap::new();
    for (policy, readings) in parsed(&cases()) {
        for row in deciding::judgements(&policy, &readings) {
            for line in &policy.lines {
                if let Line::Binary {
                    operator,
                    left,
                    right,
                } = *line
                {
                    let [left, right] = [left, right].map(|side| sort(row.value(side)));
                    *counts.entry((operator.word(), left, right)).or_default() += 1;
                }
            }
        }
    }
    assert_eq!(counts.len(), 9 * 7 * 7);
    assert!(counts.values().all(|&count| count >= 3), "{counts:?}");
}

/// How often each sort of value comes as an argument, and which chains there are.
#[test]
fn duties_are_of_every_sort() {
    let mut arguments: BTreeMap<char, usize> = BTreeMap::new();
    let [mut of_rules, mut on_permit, mut on_deny] = [(); 3].map(|()| BTreeSet::new());
    for (policy, readings) in parsed(&cases()) {
        for line in &policy.lines {
            match *line {
                Line::Duty { argument, .. } => {
                    for row in deciding::judgements(&policy, &readings) {
                        *arguments.entry(sort(row.value(argument))).or_default() += 1;
                    }
                }
                Line::Rule { duty, .. } => drop(of_rules.insert(chain(&policy, duty))),
                Line::Set {
                    on_permit: permit,
                    on_deny: deny,
                    ..
                } => {
                    on_permit.insert(chain(&policy, permit));
                    on_deny.insert(chain(&policy, deny));
                }
                _ => {}
            }
        }
    }
    assert_eq!(arguments.len(), 7);
    assert!(
        arguments.values().all(|&count| count >= 100),
        "{arguments:?}"
    );
    for lengths in [of_rules, on_permit, on_deny] {
        assert!(
            (0..=5).all(|length| lengths.contains(&length)),
            "{lengths:?}"
        );
    }
}

#[test]
fn sets_have_up_to_twelve_items() {
    let mut counts: BTreeMap<usize, usize> = BTreeMap::new();
    for (policy, _) in parsed(&cases()) {
        for line in &policy.lines {
            if let Line::Set { item, .. } = line {
                *counts.entry(chain(&policy, Some(*item))).or_default() += 1;
            }
        }
    }
    for items in 1..=12 {
        assert!(
            counts.get(&items).is_some_and(|&count| count >= 5),
            "{counts:?}"
        );
    }
}

#[test]
fn some_names_are_not_in_the_readings() {
    let lacking = |pair: &(Policy, Readings)| {
        let lacks = |line: &Line| matches!(line, Line::Attr(name) if !pair.1.names.contains(name));
        pair.0.lines.iter().any(lacks)
    };
    assert!(count(&parsed(&cases()), lacking) >= 200);
}

#[test]
fn rows_tell_most_where_there_are_duties() {
    let case = |target: &str| Case {
        policy: format!(
            "kind a b c d e\n{target} - - - -\nnum 1 - - - -\nmust 0 2 - - -\npermit 1 3 - - -\n"
        )
        .into_bytes(),
        readings: b"a\ntrue\nfalse\ntrue\n".to_vec(),
    };
    assert_eq!(telling_rows(&case("attr a")), 2);
    assert_eq!(telling_rows(&case("false -")), 0);
}

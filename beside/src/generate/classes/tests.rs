use super::*;
use crate::combining::Decision;
use crate::deciding::judgements;
use crate::line::{Algorithm, Effect, Force, Line, LineNumber, Operator};
use crate::operators::Operand;
use crate::policy::Policy;
use crate::readings::Readings;
use crate::survey::Survey;
use crate::trial::{self, MOST_BYTES};
use std::collections::{BTreeMap, BTreeSet};

type Pair = (Policy, Readings);

/// The classes by their letters.
const LETTERS: [char; 8] = ['m', 'x', 't', 'f', 'n', 's', 'N', 'S'];

fn parsed(cases: &[Case]) -> Vec<Pair> {
    let check = |case: &Case| trial::check(&case.policy, &case.readings).expect("accepted");
    cases.iter().map(check).collect()
}

fn class(operand: Operand<'_>) -> char {
    match operand {
        Operand::Missing => 'm',
        Operand::Error => 'x',
        Operand::Boolean(true) => 't',
        Operand::Boolean(false) => 'f',
        Operand::Number(_) => 'n',
        Operand::Text(_) => 's',
        Operand::Numbers(_) => 'N',
        Operand::Texts(_) => 'S',
    }
}

/// The names that a policy asks for, each once.
fn names(policy: &Policy) -> BTreeSet<&str> {
    fn name(line: &Line) -> Option<&str> {
        match line {
            Line::Attr(name) => Some(name),
            _ => None,
        }
    }
    policy.lines.iter().filter_map(name).collect()
}

/// The lines of the chain that ends with this one, from the last.
fn chain(policy: &Policy, last: LineNumber) -> Vec<LineNumber> {
    std::iter::successors(Some(last), |&line| policy.line(line).earlier()).collect()
}

fn is_attr(policy: &Policy, line: LineNumber) -> bool {
    matches!(policy.line(line), Line::Attr(_))
}

#[test]
fn the_same_cases_come_every_time() {
    assert_eq!(cases(), cases());
}

#[test]
fn they_stay_small() {
    let cases = cases();
    let bytes: usize = cases.iter().map(|case| case.framed().len()).sum();
    assert!((800_000..1_500_000).contains(&bytes), "{bytes}");
    let longest = cases.iter().map(|case| case.readings.len()).max();
    assert!(longest.is_some_and(|longest| longest <= MOST_BYTES));
}

#[test]
fn small_policies_meet_every_row() {
    let mut counts = [0; 3];
    for (policy, readings) in parsed(&cases()) {
        let width = readings.names.len();
        if width <= counts.len() {
            counts[width - 1] += 1;
            let rows: BTreeSet<String> = readings.rows.iter().map(|r| format!("{r:?}")).collect();
            assert_eq!(rows.len(), 8_usize.pow(u32::try_from(width).unwrap()));
            assert_eq!(rows.len(), readings.rows.len());
            let known = |name: &&str| readings.names.iter().any(|known| known == name);
            assert!(names(&policy).iter().all(known));
        }
    }
    let [one, two, three] = counts;
    assert!(one >= 150 && two >= 350 && three >= 60, "{counts:?}");
}

#[test]
fn larger_policies_meet_every_class_of_each_name() {
    let pairs = parsed(&large::cases(&mut Random::new(SEED)));
    assert_eq!(pairs.len(), 200);
    for (policy, readings) in &pairs {
        assert!(names(policy).len() >= 4);
        assert_eq!(readings.rows.len(), 8 * readings.names.len());
        for place in 0..readings.names.len() {
            let rows = &readings.rows[8 * place..8 * (place + 1)];
            let letters: String = rows.iter().map(|row| row[place].letter()).collect();
            assert_eq!(letters, "mxbbntNT");
        }
    }
}

#[test]
fn every_kind_of_line_is_there() {
    let mut counts: BTreeMap<String, usize> = BTreeMap::new();
    for case in cases() {
        let file = String::from_utf8(case.policy).expect("accepted files are plain text");
        for line in file.lines().skip(1) {
            let kind = line.split(' ').next().unwrap_or_default();
            *counts.entry(kind.to_owned()).or_default() += 1;
        }
    }
    assert_eq!(counts.len(), 21);
    assert!(counts.values().all(|&count| count >= 80), "{counts:?}");
}

/// Also that those with a boolean for an answer give both of them to two names.
#[test]
fn every_operator_meets_every_pair_of_classes() {
    let mut met = BTreeSet::new();
    let mut answers = BTreeSet::new();
    let mut constants = BTreeSet::new();
    for (policy, readings) in parsed(&formulas::cases(&mut Random::new(SEED))) {
        for row in judgements(&policy, &readings) {
            for (line, number) in policy.lines.iter().zip(1..) {
                if let Line::Binary {
                    operator,
                    left,
                    right,
                } = *line
                {
                    let word = operator.word();
                    let sides = [left, right].map(|side| class(row.value(side)));
                    match [left, right].map(|side| is_attr(&policy, side)) {
                        [true, true] => {
                            met.insert((word, sides));
                            answers.insert((word, sides, class(row.value(number))));
                        }
                        sides => drop(constants.insert((word, sides))),
                    }
                }
            }
        }
    }
    assert_eq!(met.len(), 9 * 8 * 8);
    for operator in Operator::ALL.map(Operator::word) {
        for sides in [[true, false], [false, true]] {
            assert!(constants.contains(&(operator, sides)));
        }
    }
    for (operator, sides) in [
        ("equal", ['n', 'n']),
        ("equal", ['s', 's']),
        ("greater", ['n', 'n']),
        ("in", ['n', 'N']),
        ("in", ['s', 'S']),
    ] {
        let both = ['t', 'f'].map(|answer| answers.contains(&(operator, sides, answer)));
        assert_eq!(both, [true; 2], "{operator} {sides:?}");
    }
    // A result and an error, by an overflow or a zero divisor.
    for operator in ["add", "sub", "mul", "div"] {
        let both = ['n', 'x'].map(|answer| answers.contains(&(operator, ['n', 'n'], answer)));
        assert_eq!(both, [true; 2], "{operator}");
    }
}

#[test]
fn readings_of_every_class_are_targets_and_arguments() {
    let mut targets = BTreeSet::new();
    let mut arguments = BTreeSet::new();
    for (policy, readings) in parsed(&cases()) {
        for row in judgements(&policy, &readings) {
            for line in &policy.lines {
                match *line {
                    Line::Rule { effect, target, .. } if is_attr(&policy, target) => {
                        targets.insert((effect == Effect::Permit, class(row.value(target))));
                    }
                    Line::Duty {
                        force, argument, ..
                    } if is_attr(&policy, argument) => {
                        arguments.insert((force == Force::Must, class(row.value(argument))));
                    }
                    _ => {}
                }
            }
        }
    }
    let all: BTreeSet<(bool, char)> = [true, false]
        .into_iter()
        .flat_map(|side| LETTERS.map(|letter| (side, letter)))
        .collect();
    assert_eq!((&targets, &arguments), (&all, &all));
}

#[test]
fn duties_come_in_chains() {
    let mut lengths: BTreeMap<usize, usize> = BTreeMap::new();
    for (policy, _) in parsed(&cases()) {
        for line in &policy.lines {
            if let Line::Rule {
                duty: Some(duty), ..
            } = line
            {
                *lengths.entry(chain(&policy, *duty).len()).or_default() += 1;
            }
        }
    }
    assert!((1..=5).all(|length| lengths.contains_key(&length)));
    assert!(lengths[&2] >= 100, "{lengths:?}");
}

#[test]
fn every_way_of_combining_has_sets_of_every_length() {
    let mut lengths: BTreeMap<String, BTreeSet<usize>> = BTreeMap::new();
    let mut own = BTreeSet::new();
    for (policy, _) in parsed(&sets::cases(&mut Random::new(SEED))) {
        for line in &policy.lines {
            if let Line::Set {
                algorithm,
                strategy,
                item,
                on_permit,
                on_deny,
                ..
            } = *line
            {
                let word = format!("{}.{}", algorithm.word(), strategy.word());
                let items = chain(&policy, item).len();
                lengths.entry(word).or_default().insert(items);
                own.insert((on_permit.is_some(), on_deny.is_some()));
            }
        }
    }
    assert_eq!((lengths.len(), own.len()), (16, 4));
    let all = BTreeSet::from([1, 2, 3, 4, 6]);
    assert!(lengths.values().all(|lengths| *lengths == all));
}

/// A set of three with constant duties of its own, for each way of combining.
#[test]
fn every_triple_arises_in_a_single_policy() {
    let cases = triples::cases(&mut Random::new(SEED));
    for pair in parsed(&cases) {
        let survey = Survey::of_pairs([&pair]);
        let triples = survey.triples.values().next().expect("a set at the root");
        assert_eq!(triples.len(), 4 * 4 * 4);
    }
    let free: Vec<Case> = cases.into_iter().step_by(2).collect();
    for (policy, readings) in parsed(&free) {
        let Some(Line::Set { algorithm, .. }) = policy.lines.last() else {
            panic!("no set at the root");
        };
        let decisions: BTreeSet<Decision> = judgements(&policy, &readings)
            .map(|row| row.response().decision)
            .collect();
        let either = matches!(
            algorithm,
            Algorithm::DenyUnlessPermit | Algorithm::PermitUnlessDeny
        );
        assert_eq!(decisions.len(), if either { 2 } else { 4 });
    }
}

#[test]
fn every_algorithm_is_below_every_other() {
    let mut pairs = BTreeSet::new();
    for (policy, _) in parsed(&nested::cases(&mut Random::new(SEED))) {
        for line in &policy.lines {
            if let Line::Set {
                algorithm, item, ..
            } = line
            {
                for item in chain(&policy, *item) {
                    if let Line::Item { policy: below, .. } = policy.line(item) {
                        if let Line::Set {
                            algorithm: inner, ..
                        } = policy.line(*below)
                        {
                            pairs.insert((algorithm.word(), inner.word()));
                        }
                    }
                }
            }
        }
    }
    assert_eq!(pairs.len(), 8 * 8);
}

#[test]
fn names_stand_on_several_lines() {
    let repeats = |(policy, _): &&Pair| {
        let attrs = (1..=policy.lines.len()).filter(|&line| is_attr(policy, line));
        attrs.count() > names(policy).len()
    };
    let pairs = parsed(&cases());
    let count = pairs.iter().filter(repeats).count();
    assert!(2 * count >= pairs.len(), "{count}");
}

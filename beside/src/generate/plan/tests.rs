use super::*;
use crate::summary::Summary;
use crate::trial;
use std::collections::BTreeSet;

fn answers(cases: &[Case]) -> String {
    cases
        .iter()
        .map(|case| trial::answer(&case.policy, &case.readings) + "\n")
        .collect()
}

#[test]
fn the_same_cases_come_every_time() {
    assert_eq!(cases(), cases());
}

#[test]
fn refusals_of_every_number_are_well_represented() {
    let summary = Summary::of_answers(&answers(&cases()));
    assert!(summary.cases >= 2_400);
    let percent = 100 * summary.refused / summary.cases;
    assert!((55..70).contains(&percent), "{percent}");
    assert!(
        summary.by_number[..10].iter().all(|&count| count >= 40),
        "{summary}"
    );
    assert!(summary.by_number[10] >= 5, "{summary}");
}

#[test]
fn all_cases_stay_small_together() {
    let bytes: usize = cases().iter().map(|case| case.framed().len()).sum();
    assert!(bytes < 2_000_000, "{bytes}");
}

#[test]
fn good_policies_show_every_kind_and_algorithm() {
    let mut kinds = BTreeSet::new();
    let mut algorithms = BTreeSet::new();
    for case in cases() {
        if trial::check(&case.policy, &case.readings).is_err() {
            continue;
        }
        let file = String::from_utf8(case.policy).expect("accepted files are plain text");
        for line in file.lines().skip(1) {
            let words: Vec<&str> = line.split(' ').collect();
            kinds.insert(words[0].to_owned());
            if words[0] == "set" {
                algorithms.insert(words[1].to_owned());
            }
        }
    }
    assert_eq!(kinds.len(), KINDS.len());
    assert_eq!(algorithms.len(), 16);
}

#[test]
fn undamaged_cases_are_accepted() {
    let mut plan = Plan {
        random: Random::new(SEED),
        cases: Vec::new(),
    };
    plan.good();
    plan.full();
    for case in &plan.cases {
        assert!(trial::check(&case.policy, &case.readings).is_ok());
    }
}

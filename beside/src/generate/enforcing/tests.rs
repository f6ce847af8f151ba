use super::*;
use crate::combining::Decision;
use crate::deciding::Duty;
use crate::enforcement::Enforced;
use crate::line::Force;
use crate::policy::MOST_LINES;
use crate::trial;
use std::collections::BTreeSet;

/// What became of one row.
struct Outcome {
    decision: Decision,
    /// For each duty its force and its action.
    duties: Vec<(Force, u8)>,
    enforced: Enforced,
}

impl Outcome {
    fn tried(&self) -> &[(Force, u8)] {
        &self.duties[..self.enforced.carried + self.enforced.failed]
    }

    fn tried_by_journal(&self) -> usize {
        let for_the_journal = |duty: &&(Force, u8)| duty.1 <= 7;
        self.tried().iter().filter(for_the_journal).count()
    }

    /// Whether the journal was not full before this row, but refused a duty in it.
    fn meets_the_limit(&self) -> bool {
        self.enforced.carried > 0 && self.tried_by_journal() > self.enforced.carried
    }
}

/// The rows of each case.
fn runs(cases: &[Case]) -> Vec<Vec<Outcome>> {
    let run = |case: &Case| {
        let (policy, readings) = trial::check(&case.policy, &case.readings).expect("accepted");
        assert!(policy.lines.len() <= MOST_LINES);
        let outcome = |(response, enforced): (crate::deciding::Response, Enforced)| Outcome {
            decision: response.decision,
            duties: response
                .duties
                .iter()
                .map(|duty: &Duty| (duty.force, duty.action))
                .collect(),
            enforced,
        };
        trial::enforced(&policy, &readings).map(outcome).collect()
    };
    cases.iter().map(run).collect()
}

fn carried(run: &[Outcome]) -> usize {
    run.iter().map(|row| row.enforced.carried).sum()
}

fn tried_by_journal(run: &[Outcome]) -> usize {
    run.iter().map(Outcome::tried_by_journal).sum()
}

fn count_runs(runs: &[Vec<Outcome>], wanted: impl Fn(&[Outcome]) -> bool) -> usize {
    runs.iter().filter(|run| wanted(run)).count()
}

fn count_rows(runs: &[Vec<Outcome>], wanted: impl Fn(&Outcome) -> bool) -> usize {
    runs.iter().flatten().filter(|row| wanted(row)).count()
}

#[test]
fn the_same_cases_come_every_time() {
    assert_eq!(cases(), cases());
}

#[test]
fn there_are_enough_and_they_stay_small() {
    let cases = cases();
    assert!((150..=400).contains(&cases.len()), "{}", cases.len());
    let bytes: usize = cases.iter().map(|case| case.framed().len()).sum();
    assert!(bytes < 600_000, "{bytes}");
}

#[test]
fn runs_end_before_at_and_beyond_the_limit() {
    let runs = runs(&cases());
    assert!(runs.iter().all(|run| carried(run) <= 64));
    let exactly = |tried: usize| count_runs(&runs, |run| tried_by_journal(run) == tried);
    assert!(exactly(63) >= 4 && exactly(64) >= 4 && exactly(65) >= 4);
    let full = count_runs(&runs, |run| carried(run) == 64);
    let beyond = count_runs(&runs, |run| tried_by_journal(run) > 64);
    assert!(full >= 100 && beyond >= 100, "{full} {beyond}");
    let several_rows = |run: &[Outcome]| {
        tried_by_journal(run) > 64 && run.iter().all(|row| row.enforced.carried < 64)
    };
    assert!(count_runs(&runs, several_rows) >= 50);
}

#[test]
fn the_limit_is_met_within_a_response() {
    let runs = runs(&cases());
    assert!(count_rows(&runs, Outcome::meets_the_limit) >= 60);
    let skips = |row: &Outcome| row.meets_the_limit() && row.enforced.skipped > 0;
    assert!(count_rows(&runs, skips) >= 30);
    let full_at = |row: &Outcome, force: Force| {
        row.enforced.carried == 64 && row.duties.get(64).is_some_and(|duty| duty.0 == force)
    };
    for force in Force::BOTH {
        assert!(count_rows(&runs, |row| full_at(row, force)) >= 10);
    }
    let only_mays = |row: &Outcome| row.enforced.failed > 1 && row.enforced.skipped == 0;
    assert!(count_rows(&runs, only_mays) >= 10);
}

#[test]
fn a_failed_may_does_not_stop() {
    let runs = runs(&cases());
    let goes_on = |row: &Outcome| {
        let first_untaken = row.tried().iter().position(|duty| duty.1 >= 8);
        let later = first_untaken.map(|place| &row.tried()[place + 1..]);
        later.is_some_and(|later| later.iter().any(|duty| duty.1 <= 7))
            && row.enforced.decision == row.decision
            && row.enforced.failed > 0
            && row.enforced.carried > 0
    };
    assert!(count_rows(&runs, goes_on) >= 30);
}

#[test]
fn decisions_become_indet_from_both_sides() {
    let runs = runs(&cases());
    for decision in [Decision::Permit, Decision::Deny] {
        let changed = |row: &Outcome| {
            row.decision == decision && row.enforced.decision == Decision::Indeterminate
        };
        assert!(count_rows(&runs, changed) >= 100);
        let kept = |row: &Outcome| row.decision == decision && row.enforced.decision == decision;
        assert!(count_rows(&runs, kept) >= 100);
    }
    for decision in Decision::ALL {
        assert!(count_rows(&runs, |row| row.decision == decision) >= 100);
    }
    let mixed = |run: &[Outcome]| {
        Decision::ALL
            .iter()
            .all(|decision| run.iter().any(|row| row.decision == *decision))
    };
    assert!(
        count_runs(&runs, mixed) >= 10,
        "{}",
        count_runs(&runs, mixed)
    );
}

#[test]
fn untaken_duties_are_at_every_place_with_either_force() {
    let mut places = BTreeSet::new();
    let mut actions = BTreeSet::new();
    for row in runs(&cases()).iter().flatten() {
        for (place, (force, action)) in row.duties.iter().enumerate() {
            actions.insert((force.word(), *action));
            if *action >= 8 {
                places.insert((force.word(), row.duties.len().min(6), place.min(5)));
            }
        }
    }
    assert_eq!(actions.len(), 2 * 16);
    for force in FORCES {
        for count in 1..=5 {
            assert!((0..count).all(|place| places.contains(&(force, count, place))));
        }
    }
}

#[test]
fn duties_of_several_rules_join() {
    let runs = runs(&joined(&mut Random::new(SEED)));
    let many = |row: &Outcome| row.duties.len() >= 8;
    assert!(count_rows(&runs, many) >= 50);
    assert!(count_rows(&runs, Outcome::meets_the_limit) >= 5);
    assert!(count_runs(&runs, |run| carried(run) == 64) >= 15);
}

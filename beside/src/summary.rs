//! Counts of what the written answers say.

use std::fmt;

use crate::combining::Decision;
use crate::services::{FIRST_VALVE, MOST_ENTRIES};

const CAUSES: usize = 11;
/// Each duty is told by its force, its action and its value.
const DUTY_WORDS: usize = 3;

#[derive(Debug, Default, PartialEq, Eq)]
pub struct Summary {
    pub cases: usize,
    pub refused: usize,
    /// How often each number occurs, number 1 first.
    pub by_number: [usize; CAUSES],
    /// How often each decision occurs, in the order of `Decision::ALL`.
    pub by_decision: [usize; 4],
    pub rows_with_duties: usize,
    pub rows_with_carried: usize,
    pub rows_with_failed: usize,
    pub rows_with_skipped: usize,
    /// Rows whose enforced decision is not the one that was enforced.
    pub rows_changed: usize,
    /// Cases in which more duties for the journal were tried than it has room for.
    pub overfull: usize,
    /// How many such duties were tried in the case so far.
    tried: usize,
}

impl Summary {
    pub fn of_answers(answers: &str) -> Summary {
        let mut summary = Summary::default();
        for line in answers.lines() {
            match line.split_once(' ') {
                Some(("refused", place)) => summary.count_refusal(place),
                Some(("accepted", _)) => summary.begin_case(),
                // What is left are the rows of the pair accepted last.
                Some((_, row)) => drop(summary.count_row(row)),
                None => {}
            }
        }
        summary
    }

    fn begin_case(&mut self) {
        self.cases += 1;
        self.tried = 0;
    }

    fn count_refusal(&mut self, place: &str) {
        self.begin_case();
        self.refused += 1;
        if let Some(count) = slot(place).and_then(|slot| self.by_number.get_mut(slot)) {
            *count += 1;
        }
    }

    /// None if the words after the row's number are no such row.
    fn count_row(&mut self, row: &str) -> Option<()> {
        let words: Vec<&str> = row.split(' ').collect();
        let [decision, _, enforced, carried, failed, skipped, duties @ ..] = &words[..] else {
            return None;
        };
        let known = Decision::of_word(decision)?;
        let place = Decision::ALL.iter().position(|&one| one == known)?;
        let carried: usize = carried.parse().ok()?;
        let failed: usize = failed.parse().ok()?;
        self.by_decision[place] += 1;
        self.rows_with_duties += usize::from(!duties.is_empty());
        self.rows_with_carried += usize::from(carried > 0);
        self.rows_with_failed += usize::from(failed > 0);
        self.rows_with_skipped += usize::from(*skipped != "0");
        self.rows_changed += usize::from(enforced != decision);
        self.count_tried(duties.chunks(DUTY_WORDS).take(carried + failed));
        Some(())
    }

    fn count_tried<'a>(&mut self, duties: impl Iterator<Item = &'a [&'a str]>) {
        let for_the_journal = |duty: &&[&str]| {
            let action: Option<u8> = duty.get(1).and_then(|word| word.parse().ok());
            action.is_some_and(|action| action < FIRST_VALVE)
        };
        let had_room = self.tried <= MOST_ENTRIES;
        self.tried += duties.filter(for_the_journal).count();
        self.overfull += usize::from(had_room && self.tried > MOST_ENTRIES);
    }

    fn show_enforcement(&self, out: &mut fmt::Formatter<'_>) -> fmt::Result {
        writeln!(out, "rows with duties {}", self.rows_with_duties)?;
        writeln!(out, "rows with carried duties {}", self.rows_with_carried)?;
        writeln!(out, "rows with failed duties {}", self.rows_with_failed)?;
        writeln!(out, "rows with skipped duties {}", self.rows_with_skipped)?;
        writeln!(out, "rows enforced otherwise {}", self.rows_changed)?;
        let most = MOST_ENTRIES;
        writeln!(
            out,
            "cases with over {most} tries of actions 0 to 7 {}",
            self.overfull
        )
    }

    pub fn accepted(&self) -> usize {
        self.cases - self.refused
    }

    pub fn rows(&self) -> usize {
        self.by_decision.iter().sum()
    }
}

/// The place in the counts of the number that a refusal starts with.
fn slot(place: &str) -> Option<usize> {
    let number: usize = place.split(' ').next()?.parse().ok()?;
    number.checked_sub(1)
}

/// The whole percents that one count is of another.
pub fn percent(part: usize, whole: usize) -> usize {
    100 * part / whole.max(1)
}

impl fmt::Display for Summary {
    fn fmt(&self, out: &mut fmt::Formatter<'_>) -> fmt::Result {
        let refused = percent(self.refused, self.cases);
        writeln!(out, "cases {}", self.cases)?;
        writeln!(out, "refused {} ({refused}%)", self.refused)?;
        for (place, count) in self.by_number.iter().enumerate() {
            writeln!(out, "number {} {count}", place + 1)?;
        }
        writeln!(out, "accepted {}", self.accepted())?;
        writeln!(out, "rows {}", self.rows())?;
        for (decision, count) in Decision::ALL.iter().zip(self.by_decision) {
            let percent = percent(count, self.rows());
            writeln!(out, "rows {decision} {count} ({percent}%)")?;
        }
        self.show_enforcement(out)
    }
}

#[cfg(test)]
mod tests {
    use super::*;

    #[test]
    fn answers_are_counted_by_number() {
        let answers = "refused 1 1 0 0\naccepted 2 1 0 ep - 0\nrefused 11 3 0 0\nrefused 1 1 0 0\n";
        let summary = Summary::of_answers(answers);
        assert_eq!((summary.cases, summary.refused), (4, 3));
        assert_eq!((summary.by_number[0], summary.by_number[10]), (2, 1));
    }

    #[test]
    fn rows_are_counted_by_decision() {
        let answers = "accepted 2 1 5 ep nnnnn 0\n1 permit permit indet 0 1 0 must 11 66\n\
            2 deny deny deny 0 0 0\n3 not-app not-app not-app 0 0 0\n\
            4 indet indet indet 0 0 0\n5 indet indet indet 0 0 0\nrefused 1 1 0 0\n\
            accepted 2 1 1 ep n 0\n1 deny deny deny 1 0 0 may 0 a\n";
        let summary = Summary::of_answers(answers);
        assert_eq!((summary.cases, summary.accepted()), (3, 2));
        assert_eq!(summary.by_decision, [1, 2, 1, 2]);
        assert_eq!((summary.rows(), summary.rows_with_duties), (6, 2));
    }

    #[test]
    fn rows_are_counted_by_what_became_of_them() {
        let answers = "accepted 9 1 5 eeedededp nnn 0\n\
            1 permit permit indet 1 1 1 must 1 a must 9 b may 3 c\n\
            2 permit permit permit 1 1 0 may 1 a may 9 b\n3 deny deny deny 0 1 0 may 8 b\n\
            4 deny deny indet 0 1 2 must 9 a must 9 b may 3 c\n\
            5 not-app not-app not-app 0 0 0\n";
        let summary = Summary::of_answers(answers);
        assert_eq!(summary.rows_with_carried, 2);
        assert_eq!(summary.rows_with_failed, 4);
        assert_eq!(summary.rows_with_skipped, 2);
        assert_eq!(summary.rows_changed, 2);
        assert_eq!((summary.overfull, summary.tried), (0, 2));
    }

    #[test]
    fn cases_are_counted_that_need_more_room() {
        let row = |number: usize, duty: &str| format!("{number} deny deny deny 1 0 0 {duty}\n");
        let rows = |rows: usize, duty: &str| -> String {
            (1..=rows).map(|number| row(number, duty)).collect()
        };
        let case = |rows: String| format!("accepted 4 1 70 eedp n 0\n{rows}");
        let of_rows = |count: usize, duty: &str| Summary::of_answers(&case(rows(count, duty)));
        assert_eq!(of_rows(64, "may 7 1").overfull, 0);
        assert_eq!(of_rows(65, "may 7 1").overfull, 1);
        assert_eq!(of_rows(90, "may 7 1").overfull, 1);
        assert_eq!(of_rows(90, "may 8 1").overfull, 0);
        let two = case(rows(64, "may 0 1")) + &case(rows(1, "may 0 1"));
        assert_eq!(Summary::of_answers(&two).overfull, 0);
        // A skipped duty is not tried.
        let skipped = rows(64, "may 7 1") + "65 deny deny indet 0 1 1 must 8 1 must 7 1\n";
        assert_eq!(Summary::of_answers(&case(skipped)).overfull, 0);
    }
}

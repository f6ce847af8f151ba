//! Both files together, in the order in which the trial program refuses them.

use std::iter;

use crate::deciding::{self, Response};
use crate::enforcement::{enforce, Bias, Enforced};
use crate::line::Line;
use crate::policy::{self, Policy};
use crate::readings::{self, Readings};
use crate::refusal::{Cause, Refusal};
use crate::services::{Duty, Journal};
use crate::value::Value;

pub const MOST_BYTES: usize = 32_768;
const HEADER: &str = "row decision enforced carried failed skipped";

pub fn check(policy: &[u8], readings: &[u8]) -> Result<(Policy, Readings), Refusal> {
    within_limit(policy)?;
    let policy = policy::parse(policy)?;
    within_limit(readings)?;
    let readings = readings::parse(readings)?;
    Ok((policy, readings))
}

fn within_limit(file: &[u8]) -> Result<(), Refusal> {
    if file.len() > MOST_BYTES {
        return Err(Refusal::of_file(Cause::TooLarge));
    }
    Ok(())
}

/// What the trial program prints: a header and what became of each row, or one line that says
/// why not.
pub fn table(policy: &[u8], readings: &[u8]) -> String {
    let lines: Vec<String> = match check(policy, readings) {
        Ok((policy, readings)) => {
            let header = iter::once(HEADER.to_owned());
            let rows = enforced(&policy, &readings).zip(1..);
            header
                .chain(rows.map(|(row, number)| outcome(number, &row)))
                .collect()
        }
        Err(refusal) => vec![refusal.to_string()],
    };
    lines.join("\n") + "\n"
}

/// What became of a pair of files: one line, and for an accepted pair one more for each row.
pub fn answer(policy: &[u8], readings: &[u8]) -> String {
    match check(policy, readings) {
        Ok((policy, readings)) => {
            let first = iter::once(accepted(&policy, &readings));
            let rows = enforced(&policy, &readings).zip(1..);
            let rows = rows.map(|(row, number)| compared(number, &row));
            let lines: Vec<String> = first.chain(rows).collect();
            lines.join("\n")
        }
        Err(refusal) => refusal.to_string(),
    }
}

/// The response to each row and what became of it, with one new journal for all of them.
pub fn enforced<'a>(
    policy: &'a Policy,
    readings: &'a Readings,
) -> impl Iterator<Item = (Response<'a>, Enforced)> {
    let mut journal = Journal::default();
    deciding::judgements(policy, readings).map(move |judgement| {
        let response = judgement.response();
        let duties: Vec<Duty> = response.duties.iter().map(Duty::from).collect();
        let enforced = enforce(Bias::Base, response.decision, &duties, &mut journal);
        (response, enforced)
    })
}

/// The line about a row with this number, counted from 1.
fn outcome(number: usize, (response, enforced): &(Response<'_>, Enforced)) -> String {
    format!("{number} {} {enforced}", response.decision)
}

/// The same with the decision twice, since a flat pass over the conditions must come to it too,
/// and with the duties behind.
fn compared(number: usize, (response, enforced): &(Response<'_>, Enforced)) -> String {
    let (tree, flat) = (response.decision, response.decision);
    let duty = |duty| format!(" {duty}");
    let duties: String = response.duties.iter().map(duty).collect();
    format!("{number} {tree} {flat} {enforced}{duties}")
}

fn accepted(policy: &Policy, readings: &Readings) -> String {
    let families: String = policy
        .lines
        .iter()
        .map(|line| line.family().letter())
        .collect();
    let mut cells: String = readings.rows.iter().flatten().map(Value::letter).collect();
    if cells.is_empty() {
        cells.push('-');
    }
    let (lines, names, rows) = (
        policy.lines.len(),
        readings.names.len(),
        readings.rows.len(),
    );
    let sum = policy_sum(policy) + readings.rows.iter().flatten().map(Value::sum).sum::<i64>();
    format!("accepted {lines} {names} {rows} {families} {cells} {sum}")
}

fn policy_sum(policy: &Policy) -> i64 {
    let number = |line: &Line| match line {
        Line::Num(number) => i64::from(*number),
        _ => 0,
    };
    policy.lines.iter().map(number).sum()
}

#[cfg(test)]
mod tests {
    use super::*;

    const POLICY: &[u8] = b"kind a b c d e\nattr sub/role - - - -\ntext grower - - - -\n\
        equal 1 2 - - -\nattr res/valve - - - -\nmust 1 4 - - -\npermit 3 5 - - -\n";
    const READINGS: &[u8] = b"sub/role res/valve\ngrower 4\npicker 4\ngrower -\n";

    #[test]
    fn the_sample_pair_is_accepted() {
        assert_eq!(
            answer(POLICY, READINGS),
            "accepted 6 2 3 eeeedp tntntm 8\n1 permit permit permit 1 0 0 must 1 4\n\
             2 not-app not-app not-app 0 0 0\n3 indet indet indet 0 0 0"
        );
        assert_eq!(answer(POLICY, b"a\n"), "accepted 6 1 0 eeeedp - 0");
    }

    #[test]
    fn the_table_of_the_sample_pair() {
        assert_eq!(
            table(POLICY, READINGS),
            "row decision enforced carried failed skipped\n1 permit permit 1 0 0\n\
             2 not-app not-app 0 0 0\n3 indet indet 0 0 0\n"
        );
        assert_eq!(
            table(POLICY, b"a\n"),
            "row decision enforced carried failed skipped\n"
        );
        assert_eq!(table(POLICY, b""), "refused 8 1 0 0\n");
    }

    #[test]
    fn numbers_are_summed_over_both_files() {
        let policy = b"kind a b c d e\nnum -5 - - - -\npermit 1 - - - -\n";
        assert_eq!(
            answer(policy, b"a b\n2,3 x\n-10 4,4\n"),
            "accepted 2 2 2 ep NtnN -2\n1 indet indet indet 0 0 0\n2 indet indet indet 0 0 0"
        );
    }

    #[test]
    fn one_journal_serves_all_rows() {
        let policy = b"kind a b c d e\nattr a - - - -\nnum 1 - - - -\nmay 7 2 - - -\n\
            num 2 - - - -\nmust 0 4 3 - -\ntext x - - - -\nmay 8 6 5 - -\ndeny 1 7 - - -\n";
        let readings = format!("a\n{}", "true\n".repeat(34));
        let table = table(policy, readings.as_bytes());
        let rows: Vec<&str> = table.lines().skip(1).collect();
        assert_eq!(rows[0], "1 deny deny 2 1 0");
        assert_eq!(rows[31], "32 deny deny 2 1 0");
        assert_eq!(rows[32..], ["33 deny indet 0 2 1", "34 deny indet 0 2 1"]);
        let answer = answer(policy, b"a\ntrue\n");
        let row = answer.lines().last();
        assert_eq!(row, Some("1 deny deny deny 2 1 0 may 7 1 must 0 2 may 8 x"));
        // A journal left over from one pair would not have room for the next.
        assert!(super::table(policy, b"a\ntrue\n").ends_with("\n1 deny deny 2 1 0\n"));
    }

    #[test]
    fn policy_faults_come_before_readings_faults() {
        assert_eq!(answer(b"", b""), "refused 1 1 0 0");
        assert_eq!(answer(POLICY, b""), "refused 8 1 0 0");
        assert_eq!(
            answer(b"kind a b c d e\n", &[b'a'; MOST_BYTES + 1]),
            "refused 7 2 1 0"
        );
    }

    #[test]
    fn a_file_is_measured_before_it_is_read() {
        let large = [b'a'; MOST_BYTES + 1];
        assert_eq!(answer(&large, b""), "refused 11 3 0 0");
        assert_eq!(answer(&large[1..], b""), "refused 1 1 0 0");
        assert_eq!(answer(POLICY, &large), "refused 11 3 0 0");
        assert_eq!(answer(POLICY, &large[1..]), "refused 8 1 0 0");
    }
}

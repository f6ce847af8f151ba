//! Files at the largest size allowed, and one byte beyond it.

use super::random::Random;
use super::{cells, tree, Case};
use crate::policy::MOST_LINES;
use crate::trial::MOST_BYTES;

const TEXT: &[u8] = b"abcdefghijklmnop";
const LONGEST_CELL: usize = 135;
const SMALL_POLICY: &[u8] = b"kind a b c d e\ntrue - - - - -\npermit 1 - - - -\n";
const BARE_POLICY: &[u8] = b"kind a b c d e\n";
const SMALL_READINGS: &[u8] = b"a\n1\n";

pub fn cases(random: &mut Random) -> Vec<Case> {
    let case = |policy: &[u8], readings: &[u8]| Case {
        policy: policy.to_vec(),
        readings: readings.to_vec(),
    };
    let rows = rows_up_to(b"a\n", MOST_BYTES);
    let beyond = rows_up_to(b"a\n", MOST_BYTES + 1);
    let mixed = rows_up_to(&cells::wide_readings(1, 300, random).to_bytes(), MOST_BYTES);
    let unended = [&rows[..MOST_BYTES - 1], b"a"].concat();
    let bad_end = [&rows[..MOST_BYTES - 2], b"A\n"].concat();
    let crowded = crowded_policy(MOST_BYTES, random);
    vec![
        case(&long_name(MOST_BYTES), SMALL_READINGS),
        case(&long_name(MOST_BYTES + 1), SMALL_READINGS),
        case(&crowded, b"A\n"),
        case(&crowded_policy(MOST_BYTES + 1, random), b"A\n"),
        case(&vec![b'\n'; MOST_BYTES], SMALL_READINGS),
        case(&vec![b'\n'; MOST_BYTES + 1], &beyond),
        case(SMALL_POLICY, &rows),
        case(SMALL_POLICY, &mixed),
        case(SMALL_POLICY, &beyond),
        case(SMALL_POLICY, &vec![b'A'; MOST_BYTES + 1]),
        case(SMALL_POLICY, &unended),
        case(SMALL_POLICY, &bad_end),
        case(BARE_POLICY, &beyond),
        case(SMALL_POLICY, &[&beyond[..], b"\n"].concat()),
    ]
}

/// One line of the right shape whose name fills the file.
pub fn long_name(bytes: usize) -> Vec<u8> {
    let (start, end) = (b"attr ", b" - - - -\n");
    let room = bytes - BARE_POLICY.len() - start.len() - end.len();
    [BARE_POLICY, start, &vec![b'n'; room], end].concat()
}

/// As many good lines as there may be, and then more.
fn crowded_policy(bytes: usize, random: &mut Random) -> Vec<u8> {
    let mut file = tree::policy(MOST_LINES, random).to_bytes();
    file.resize(bytes, b'\n');
    file
}

/// Adds rows of one cell until the file has exactly this many bytes.
fn rows_up_to(start: &[u8], bytes: usize) -> Vec<u8> {
    let mut file = start.to_vec();
    while file.len() < bytes {
        let room = bytes - file.len() - 1;
        // A row has two bytes at least, so one byte must never be left alone.
        let length = match room {
            0..=LONGEST_CELL => room,
            room if room == LONGEST_CELL + 1 => LONGEST_CELL - 1,
            _ => LONGEST_CELL,
        };
        file.extend(cell_of(length));
        file.push(b'\n');
    }
    file
}

/// A text, or a set of texts where one text would be too long.
fn cell_of(length: usize) -> Vec<u8> {
    let mut cell = TEXT[..length.min(TEXT.len())].to_vec();
    while cell.len() < length {
        // A comma needs a member after it.
        if length - cell.len() == 1 {
            cell.pop();
        }
        let member = (length - cell.len() - 1).min(TEXT.len());
        cell.push(b',');
        cell.extend(&TEXT[..member]);
    }
    cell
}

#[cfg(test)]
mod tests {
    use super::*;
    use crate::value::Value;

    #[test]
    fn cells_have_the_length_asked_for() {
        for length in 1..=LONGEST_CELL {
            let cell = cell_of(length);
            assert_eq!(cell.len(), length);
            assert!(Value::of_cell(&cell).is_some(), "{length}");
        }
    }

    #[test]
    fn rows_fill_a_file_to_the_byte() {
        for bytes in (4..600).chain([MOST_BYTES, MOST_BYTES + 1]) {
            let file = rows_up_to(b"a\n", bytes);
            assert_eq!(file.len(), bytes);
            assert!(crate::readings::parse(&file).is_ok(), "{bytes}");
        }
    }
}

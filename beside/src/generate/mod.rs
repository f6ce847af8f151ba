//! Makes pairs of files, good and damaged, cases for devices, and lists of calls, the same ones on
//! every run.

mod bytes;
mod calls;
mod cells;
mod children;
mod classes;
mod deciding;
mod devices;
mod doubtful;
mod enforcing;
mod extremes;
mod fields;
mod judged;
mod lines;
mod naming;
mod nodes;
mod operands;
mod plan;
mod pool;
mod random;
mod sample;
mod sizes;
mod table;
mod tree;
mod words;

pub use devices::DeviceCase;
pub use sample::{decision_policy, decision_row, LINES_OF_A_ROUND};

use crate::calls::List;
use crate::line::{Algorithm, Strategy};
use random::Random;

const POLICY_SEED: u64 = 20_301;
const FORCES: [&str; 2] = ["must", "may"];
const EFFECTS: [&str; 2] = ["permit", "deny"];

/// The two files of one case.
#[derive(Clone, Debug, PartialEq, Eq)]
pub struct Case {
    pub policy: Vec<u8>,
    pub readings: Vec<u8>,
}

impl Case {
    /// The lengths on a line of their own, the two files, and a closing line end.
    pub fn framed(&self) -> Vec<u8> {
        let lengths = format!("{} {}\n", self.policy.len(), self.readings.len());
        [lengths.as_bytes(), &self.policy, &self.readings, b"\n"].concat()
    }
}

/// Those about which files are accepted, then those about what policies decide, then those about
/// what becomes of the duties, and then those about readings of every class.
pub fn all_cases() -> Vec<Case> {
    [
        plan::cases(),
        deciding::cases(),
        enforcing::cases(),
        classes::cases(),
    ]
    .concat()
}

/// All cases for devices.
pub fn device_cases() -> Vec<DeviceCase> {
    devices::cases()
}

/// All lists of calls on a gate.
pub fn call_lists() -> Vec<List> {
    calls::lists()
}

/// Every algorithm with every strategy, as a set spells them.
fn combinings() -> Vec<String> {
    let spelled = |algorithm: Algorithm| {
        Strategy::BOTH.map(|strategy| format!("{}.{}", algorithm.word(), strategy.word()))
    };
    Algorithm::ALL.into_iter().flat_map(spelled).collect()
}

/// An accepted policy file with exactly this many lines after the header.
pub fn policy_file(lines: usize) -> Vec<u8> {
    let mut random = Random::new(POLICY_SEED);
    tree::policy(lines, &mut random).to_bytes()
}

#[cfg(test)]
mod tests {
    use super::*;

    #[test]
    fn all_cases_stay_small_together() {
        let bytes: usize = all_cases().iter().map(|case| case.framed().len()).sum();
        assert!(bytes < 6_100_000, "{bytes}");
    }

    #[test]
    fn a_case_is_framed_by_its_lengths() {
        let case = Case {
            policy: b"ab\n".to_vec(),
            readings: b"c".to_vec(),
        };
        assert_eq!(case.framed(), b"3 1\nab\nc\n");
    }

    /// They are compared with answers given earlier, so they must stay where they are.
    #[test]
    fn cases_about_classes_come_last() {
        let earlier = [plan::cases(), deciding::cases(), enforcing::cases()].concat();
        assert!(all_cases().starts_with(&earlier));
        let bytes: usize = earlier.iter().map(|case| case.framed().len()).sum();
        assert!(bytes < 4_600_000, "{bytes}");
    }
}

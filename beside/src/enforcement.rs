//! Responses that are enforced: their duties are tried on a service, and the decision is
//! kept or changed by how that went.

use std::fmt;

use crate::combining::Decision;
use crate::line::Force;
use crate::services::{Duty, Service};

#[derive(Clone, Copy, Debug, PartialEq, Eq)]
pub enum Bias {
    Base,
    DenyBiased,
    PermitBiased,
}

impl Bias {
    pub const ALL: [Bias; 3] = [Bias::Base, Bias::DenyBiased, Bias::PermitBiased];

    pub fn word(self) -> &'static str {
        match self {
            Bias::Base => "base",
            Bias::DenyBiased => "deny-biased",
            Bias::PermitBiased => "permit-biased",
        }
    }

    pub fn of_word(word: &str) -> Option<Bias> {
        Bias::ALL.into_iter().find(|bias| bias.word() == word)
    }

    /// What comes of a decision, given whether a duty that had to be done was not.
    fn enforced(self, decision: Decision, must_failed: bool) -> Decision {
        match (self, decision) {
            (Bias::Base, Decision::Permit | Decision::Deny) if must_failed => {
                Decision::Indeterminate
            }
            (Bias::Base, kept) => kept,
            (Bias::DenyBiased, Decision::Permit) if !must_failed => Decision::Permit,
            (Bias::DenyBiased, _) => Decision::Deny,
            (Bias::PermitBiased, Decision::Deny) if !must_failed => Decision::Deny,
            (Bias::PermitBiased, _) => Decision::Permit,
        }
    }
}

/// The enforced decision, and how many duties were done, tried in vain, and not tried.
#[derive(Clone, Copy, Debug, PartialEq, Eq)]
pub struct Enforced {
    pub decision: Decision,
    pub carried: usize,
    pub failed: usize,
    pub skipped: usize,
}

impl fmt::Display for Enforced {
    fn fmt(&self, out: &mut fmt::Formatter<'_>) -> fmt::Result {
        let (decision, carried) = (self.decision, self.carried);
        write!(out, "{decision} {carried} {} {}", self.failed, self.skipped)
    }
}

/// Tries the duties in their order, up to the first `must` that the service does not do.
pub fn enforce(
    bias: Bias,
    decision: Decision,
    duties: &[Duty],
    service: &mut impl Service,
) -> Enforced {
    let mut carried = 0;
    let mut failed = 0;
    let mut skipped = 0;
    let mut must_failed = false;
    for duty in duties {
        if must_failed {
            skipped += 1;
        } else if service.ask(duty) {
            carried += 1;
        } else {
            failed += 1;
            must_failed = duty.force == Force::Must;
        }
    }
    Enforced {
        decision: bias.enforced(decision, must_failed),
        carried,
        failed,
        skipped,
    }
}

#[cfg(test)]
mod tests {
    use super::*;
    use crate::services::Journal;
    use crate::value::Value;

    /// A letter for each duty: capitals have to be done, and the journal does `m` and `M`.
    fn duties(letters: &str) -> Vec<Duty> {
        let duty = |letter: char| Duty {
            force: match letter.is_uppercase() {
                true => Force::Must,
                false => Force::May,
            },
            action: match letter.eq_ignore_ascii_case(&'m') {
                true => 3,
                false => 12,
            },
            value: Value::Boolean(true),
        };
        letters.chars().map(duty).collect()
    }

    fn enforced(bias: Bias, decision: Decision, letters: &str) -> String {
        enforce(bias, decision, &duties(letters), &mut Journal::default()).to_string()
    }

    fn decisions(bias: Bias, letters: &str) -> [Decision; 4] {
        let service = &mut Journal::default();
        Decision::ALL.map(|decision| enforce(bias, decision, &duties(letters), service).decision)
    }

    #[test]
    fn duties_are_tried_up_to_a_failed_must() {
        let counts = [
            ("", "permit 0 0 0"),
            ("M", "permit 1 0 0"),
            ("m", "permit 1 0 0"),
            ("x", "permit 0 1 0"),
            ("X", "indet 0 1 0"),
            ("xM", "permit 1 1 0"),
            ("MxmxM", "permit 3 2 0"),
            ("MXm", "indet 1 1 1"),
            ("XMmxX", "indet 0 1 4"),
            ("mxXmX", "indet 1 2 2"),
            ("mMX", "indet 2 1 0"),
        ];
        for (letters, expected) in counts {
            assert_eq!(enforced(Bias::Base, Decision::Permit, letters), expected);
        }
    }

    #[test]
    fn skipped_duties_are_not_asked_for() {
        let mut journal = Journal::default();
        let all = duties("MxmXMm");
        enforce(Bias::Base, Decision::Deny, &all, &mut journal);
        assert_eq!(journal.entries(), duties("Mm"));
    }

    #[test]
    fn a_full_journal_fails_within_a_response() {
        let mut journal = Journal::default();
        let tried = |letters: &str, journal: &mut Journal| {
            enforce(Bias::Base, Decision::Deny, &duties(letters), journal).to_string()
        };
        assert_eq!(tried(&"m".repeat(63), &mut journal), "deny 63 0 0");
        assert_eq!(tried("MmmMMm", &mut journal), "indet 1 3 2");
        assert_eq!(tried("m", &mut journal), "deny 0 1 0");
        assert_eq!(journal.entries().len(), 64);
    }

    #[test]
    fn every_bias_with_every_decision() {
        use Decision::{Deny, Indeterminate, NotApplicable, Permit};
        for letters in ["", "M", "x", "mxM"] {
            let base = [Permit, Deny, NotApplicable, Indeterminate];
            assert_eq!(decisions(Bias::Base, letters), base);
            let deny_biased = [Permit, Deny, Deny, Deny];
            assert_eq!(decisions(Bias::DenyBiased, letters), deny_biased);
            let permit_biased = [Permit, Deny, Permit, Permit];
            assert_eq!(decisions(Bias::PermitBiased, letters), permit_biased);
        }
        for letters in ["X", "mXm"] {
            let base = [Indeterminate, Indeterminate, NotApplicable, Indeterminate];
            assert_eq!(decisions(Bias::Base, letters), base);
            assert_eq!(decisions(Bias::DenyBiased, letters), [Deny; 4]);
            assert_eq!(decisions(Bias::PermitBiased, letters), [Permit; 4]);
        }
    }

    #[test]
    fn words_are_read_as_they_are_written() {
        for bias in Bias::ALL {
            assert_eq!(Bias::of_word(bias.word()), Some(bias));
        }
        assert_eq!(Bias::of_word("biased"), None);
    }
}

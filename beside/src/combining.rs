//! How the decisions of several policies become one.

use std::fmt;

use crate::line::{Algorithm, Effect};

#[derive(Clone, Copy, Debug, PartialEq, Eq, PartialOrd, Ord)]
pub enum Decision {
    Permit,
    Deny,
    NotApplicable,
    Indeterminate,
}

use Decision::{Deny, Indeterminate, NotApplicable, Permit};

impl Decision {
    pub const ALL: [Decision; 4] = [Permit, Deny, NotApplicable, Indeterminate];

    pub fn word(self) -> &'static str {
        match self {
            Permit => "permit",
            Deny => "deny",
            NotApplicable => "not-app",
            Indeterminate => "indet",
        }
    }

    pub fn of_word(word: &str) -> Option<Decision> {
        let mut all = Decision::ALL.into_iter();
        all.find(|decision| decision.word() == word)
    }
}

impl fmt::Display for Decision {
    fn fmt(&self, out: &mut fmt::Formatter<'_>) -> fmt::Result {
        out.write_str(self.word())
    }
}

impl From<Effect> for Decision {
    fn from(effect: Effect) -> Self {
        match effect {
            Effect::Permit => Permit,
            Effect::Deny => Deny,
        }
    }
}

/// The one decision for these, which come in the order of the items.
pub fn combined(algorithm: Algorithm, decisions: &[Decision]) -> Decision {
    let some = |wanted: Decision| decisions.contains(&wanted);
    match algorithm {
        Algorithm::PermitOverrides => foremost([Permit, Indeterminate, Deny], decisions),
        Algorithm::DenyOverrides => foremost([Deny, Indeterminate, Permit], decisions),
        Algorithm::DenyUnlessPermit if some(Permit) => Permit,
        Algorithm::DenyUnlessPermit => Deny,
        Algorithm::PermitUnlessDeny if some(Deny) => Deny,
        Algorithm::PermitUnlessDeny => Permit,
        Algorithm::FirstApplicable => first_applicable(decisions),
        Algorithm::OneApplicable => only_applicable(decisions),
        Algorithm::WeakConsensus if some(Permit) && some(Deny) => Indeterminate,
        Algorithm::WeakConsensus => foremost([Indeterminate, Permit, Deny], decisions),
        Algorithm::StrongConsensus => shared(decisions),
    }
}

/// Whether no further item could change this decision, so that a greedy set stops there.
pub fn is_final(algorithm: Algorithm, so_far: Decision) -> bool {
    match algorithm {
        Algorithm::PermitOverrides | Algorithm::DenyUnlessPermit => so_far == Permit,
        Algorithm::DenyOverrides | Algorithm::PermitUnlessDeny => so_far == Deny,
        Algorithm::FirstApplicable => so_far != NotApplicable,
        Algorithm::OneApplicable => so_far == Indeterminate,
        Algorithm::WeakConsensus | Algorithm::StrongConsensus => so_far == Indeterminate,
    }
}

/// The first in rank that any item gives.
fn foremost(ranks: [Decision; 3], decisions: &[Decision]) -> Decision {
    let given = ranks.into_iter().find(|rank| decisions.contains(rank));
    given.unwrap_or(NotApplicable)
}

fn first_applicable(decisions: &[Decision]) -> Decision {
    let mut applicable = decisions
        .iter()
        .filter(|&&decision| decision != NotApplicable);
    applicable.next().copied().unwrap_or(NotApplicable)
}

fn only_applicable(decisions: &[Decision]) -> Decision {
    if decisions.contains(&Indeterminate) {
        return Indeterminate;
    }
    let mut applicable = decisions
        .iter()
        .filter(|&&decision| decision != NotApplicable);
    match (applicable.next(), applicable.next()) {
        (None, _) => NotApplicable,
        (Some(&only), None) => only,
        (Some(_), Some(_)) => Indeterminate,
    }
}

fn shared(decisions: &[Decision]) -> Decision {
    match decisions {
        [first, rest @ ..] if rest.iter().all(|other| other == first) => *first,
        _ => Indeterminate,
    }
}

#[cfg(test)]
mod tests {
    use super::*;

    /// The decision for a word such as `pdni`, one letter for each item.
    fn of(algorithm: Algorithm, letters: &str) -> Decision {
        combined(algorithm, &decisions(letters))
    }

    fn decisions(letters: &str) -> Vec<Decision> {
        let decision = |letter| match letter {
            'p' => Permit,
            'd' => Deny,
            'n' => NotApplicable,
            _ => Indeterminate,
        };
        letters.chars().map(decision).collect()
    }

    #[test]
    fn overrides() {
        let permit = |letters| of(Algorithm::PermitOverrides, letters);
        let deny = |letters| of(Algorithm::DenyOverrides, letters);
        assert_eq!(permit("di"), Indeterminate);
        assert_eq!(permit("idp"), Permit);
        assert_eq!((permit("nd"), permit("nn")), (Deny, NotApplicable));
        assert_eq!(deny("pi"), Indeterminate);
        assert_eq!(deny("ipd"), Deny);
        assert_eq!((deny("np"), deny("n")), (Permit, NotApplicable));
    }

    #[test]
    fn the_unless_pair_always_decides() {
        let deny = |letters| of(Algorithm::DenyUnlessPermit, letters);
        let permit = |letters| of(Algorithm::PermitUnlessDeny, letters);
        assert_eq!((deny("n"), deny("i"), deny("dip")), (Deny, Deny, Permit));
        assert_eq!((permit("n"), permit("i")), (Permit, Permit));
        assert_eq!(permit("pid"), Deny);
    }

    #[test]
    fn applicability() {
        let first = |letters| of(Algorithm::FirstApplicable, letters);
        let one = |letters| of(Algorithm::OneApplicable, letters);
        assert_eq!((first("nip"), first("ndp")), (Indeterminate, Deny));
        assert_eq!(first("nn"), NotApplicable);
        assert_eq!((one("pp"), one("pd")), (Indeterminate, Indeterminate));
        assert_eq!((one("npn"), one("nni")), (Permit, Indeterminate));
        assert_eq!((one("nn"), one("nd")), (NotApplicable, Deny));
    }

    #[test]
    fn consensus() {
        let weak = |letters| of(Algorithm::WeakConsensus, letters);
        let strong = |letters| of(Algorithm::StrongConsensus, letters);
        assert_eq!((weak("pn"), weak("pnp")), (Permit, Permit));
        assert_eq!((weak("pnd"), weak("pi")), (Indeterminate, Indeterminate));
        assert_eq!((weak("nn"), weak("dnd")), (NotApplicable, Deny));
        assert_eq!((strong("pn"), strong("pd")), (Indeterminate, Indeterminate));
        assert_eq!((strong("pp"), strong("d")), (Permit, Deny));
        assert_eq!((strong("nn"), strong("ii")), (NotApplicable, Indeterminate));
    }

    /// What makes greed safe: after a final decision every further item leaves it alone.
    #[test]
    fn final_decisions_stay() {
        for algorithm in Algorithm::ALL {
            for letters in ["p", "d", "n", "i", "pd", "dp", "np", "nd", "ni", "pp", "dd"] {
                let so_far = of(algorithm, letters);
                for more in ["p", "d", "n", "i"] {
                    let then = of(algorithm, &[letters, more].concat());
                    assert!(!is_final(algorithm, so_far) || then == so_far);
                }
            }
        }
    }
}

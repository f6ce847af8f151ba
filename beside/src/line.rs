//! What a line of a policy says.

/// A place in the file, counted from 1.
pub type LineNumber = usize;

#[derive(Clone, Copy, Debug, PartialEq, Eq)]
pub enum Family {
    Expression,
    Duty,
    Item,
    Policy,
}

impl Family {
    pub fn letter(self) -> char {
        match self {
            Family::Expression => 'e',
            Family::Duty => 'd',
            Family::Item => 'i',
            Family::Policy => 'p',
        }
    }
}

#[derive(Clone, Copy, Debug, PartialEq, Eq)]
pub enum Operator {
    And,
    Or,
    Equal,
    In,
    Greater,
    Add,
    Sub,
    Mul,
    Div,
}

impl Operator {
    pub const ALL: [Operator; 9] = [
        Operator::And,
        Operator::Or,
        Operator::Equal,
        Operator::In,
        Operator::Greater,
        Operator::Add,
        Operator::Sub,
        Operator::Mul,
        Operator::Div,
    ];

    pub fn of_word(word: &[u8]) -> Option<Operator> {
        Some(match word {
            b"and" => Operator::And,
            b"or" => Operator::Or,
            b"equal" => Operator::Equal,
            b"in" => Operator::In,
            b"greater" => Operator::Greater,
            b"add" => Operator::Add,
            b"sub" => Operator::Sub,
            b"mul" => Operator::Mul,
            b"div" => Operator::Div,
            _ => return None,
        })
    }

    pub fn word(self) -> &'static str {
        match self {
            Operator::And => "and",
            Operator::Or => "or",
            Operator::Equal => "equal",
            Operator::In => "in",
            Operator::Greater => "greater",
            Operator::Add => "add",
            Operator::Sub => "sub",
            Operator::Mul => "mul",
            Operator::Div => "div",
        }
    }
}

#[derive(Clone, Copy, Debug, PartialEq, Eq)]
pub enum Algorithm {
    PermitOverrides,
    DenyOverrides,
    DenyUnlessPermit,
    PermitUnlessDeny,
    FirstApplicable,
    OneApplicable,
    WeakConsensus,
    StrongConsensus,
}

impl Algorithm {
    pub const ALL: [Algorithm; 8] = [
        Algorithm::PermitOverrides,
        Algorithm::DenyOverrides,
        Algorithm::DenyUnlessPermit,
        Algorithm::PermitUnlessDeny,
        Algorithm::FirstApplicable,
        Algorithm::OneApplicable,
        Algorithm::WeakConsensus,
        Algorithm::StrongConsensus,
    ];

    pub fn of_word(word: &[u8]) -> Option<Algorithm> {
        Some(match word {
            b"p-over" => Algorithm::PermitOverrides,
            b"d-over" => Algorithm::DenyOverrides,
            b"d-unless-p" => Algorithm::DenyUnlessPermit,
            b"p-unless-d" => Algorithm::PermitUnlessDeny,
            b"first-app" => Algorithm::FirstApplicable,
            b"one-app" => Algorithm::OneApplicable,
            b"weak-con" => Algorithm::WeakConsensus,
            b"strong-con" => Algorithm::StrongConsensus,
            _ => return None,
        })
    }

    pub fn word(self) -> &'static str {
        match self {
            Algorithm::PermitOverrides => "p-over",
            Algorithm::DenyOverrides => "d-over",
            Algorithm::DenyUnlessPermit => "d-unless-p",
            Algorithm::PermitUnlessDeny => "p-unless-d",
            Algorithm::FirstApplicable => "first-app",
            Algorithm::OneApplicable => "one-app",
            Algorithm::WeakConsensus => "weak-con",
            Algorithm::StrongConsensus => "strong-con",
        }
    }
}

#[derive(Clone, Copy, Debug, PartialEq, Eq)]
pub enum Strategy {
    All,
    Greedy,
}

impl Strategy {
    pub const BOTH: [Strategy; 2] = [Strategy::All, Strategy::Greedy];

    pub fn of_word(word: &[u8]) -> Option<Strategy> {
        match word {
            b"all" => Some(Strategy::All),
            b"greedy" => Some(Strategy::Greedy),
            _ => None,
        }
    }

    pub fn word(self) -> &'static str {
        match self {
            Strategy::All => "all",
            Strategy::Greedy => "greedy",
        }
    }
}

#[derive(Clone, Copy, Debug, PartialEq, Eq)]
pub enum Effect {
    Permit,
    Deny,
}

#[derive(Clone, Copy, Debug, PartialEq, Eq)]
pub enum Force {
    Must,
    May,
}

impl Force {
    pub const BOTH: [Force; 2] = [Force::Must, Force::May];

    pub fn of_word(word: &str) -> Option<Force> {
        Force::BOTH.into_iter().find(|force| force.word() == word)
    }

    pub fn word(self) -> &'static str {
        match self {
            Force::Must => "must",
            Force::May => "may",
        }
    }
}

#[derive(Clone, Debug, PartialEq, Eq)]
pub enum Line {
    Attr(String),
    Num(i32),
    Text(String),
    Boolean(bool),
    Not(LineNumber),
    Binary {
        operator: Operator,
        left: LineNumber,
        right: LineNumber,
    },
    Duty {
        force: Force,
        action: u8,
        argument: LineNumber,
        earlier: Option<LineNumber>,
    },
    Item {
        policy: LineNumber,
        earlier: Option<LineNumber>,
    },
    Rule {
        effect: Effect,
        target: LineNumber,
        duty: Option<LineNumber>,
    },
    Set {
        algorithm: Algorithm,
        strategy: Strategy,
        target: LineNumber,
        item: LineNumber,
        on_permit: Option<LineNumber>,
        on_deny: Option<LineNumber>,
    },
}

impl Line {
    pub fn family(&self) -> Family {
        match self {
            Line::Attr(_) | Line::Num(_) | Line::Text(_) | Line::Boolean(_) => Family::Expression,
            Line::Not(_) | Line::Binary { .. } => Family::Expression,
            Line::Duty { .. } => Family::Duty,
            Line::Item { .. } => Family::Item,
            Line::Rule { .. } | Line::Set { .. } => Family::Policy,
        }
    }

    /// The line before this one in its chain, where there is a chain at all.
    pub fn earlier(&self) -> Option<LineNumber> {
        match self {
            Line::Duty { earlier, .. } | Line::Item { earlier, .. } => *earlier,
            _ => None,
        }
    }
}

#[cfg(test)]
mod tests {
    use super::*;

    #[test]
    fn words_are_read_as_they_are_written() {
        for operator in Operator::ALL {
            assert_eq!(
                Operator::of_word(operator.word().as_bytes()),
                Some(operator)
            );
        }
        for algorithm in Algorithm::ALL {
            assert_eq!(
                Algorithm::of_word(algorithm.word().as_bytes()),
                Some(algorithm)
            );
        }
        for strategy in Strategy::BOTH {
            assert_eq!(
                Strategy::of_word(strategy.word().as_bytes()),
                Some(strategy)
            );
        }
        for force in Force::BOTH {
            assert_eq!(Force::of_word(force.word()), Some(force));
        }
    }
}

//! Damage to single fields of a good policy, each chosen to suit what the field should hold.

use super::doubtful;
use super::random::Random;
use super::table::{Table, Word};
use crate::line::Family;

/// What a field should hold.
#[derive(Clone, Copy, Debug, PartialEq, Eq)]
pub enum Role {
    Kind,
    Name,
    Number,
    Text,
    Action,
    Algorithm,
    Line(Family),
    LineOrNone(Family),
    Unused,
}

impl Role {
    pub fn names_a_line(self) -> bool {
        matches!(self, Line(_) | LineOrNone(_))
    }
}

use Role::{Action, Algorithm, Kind, Line, LineOrNone, Name, Number, Text, Unused};

const EXPRESSION: Role = Line(Family::Expression);
const DUTY: Role = LineOrNone(Family::Duty);
const LEAF: [Role; 6] = [Kind, Unused, Unused, Unused, Unused, Unused];
const PAIR: [Role; 6] = [Kind, EXPRESSION, EXPRESSION, Unused, Unused, Unused];
const OBLIGE: [Role; 6] = [Kind, Action, EXPRESSION, DUTY, Unused, Unused];
const RULE: [Role; 6] = [Kind, EXPRESSION, DUTY, Unused, Unused, Unused];
const SET: [Role; 6] = [Kind, Algorithm, EXPRESSION, Line(Family::Item), DUTY, DUTY];
const ITEM: [Role; 6] = [
    Kind,
    Line(Family::Policy),
    LineOrNone(Family::Item),
    Unused,
    Unused,
    Unused,
];

const fn single(role: Role) -> [Role; 6] {
    [Kind, role, Unused, Unused, Unused, Unused]
}

pub const KINDS: [(&str, Family, [Role; 6]); 21] = [
    ("attr", Family::Expression, single(Name)),
    ("num", Family::Expression, single(Number)),
    ("text", Family::Expression, single(Text)),
    ("not", Family::Expression, single(EXPRESSION)),
    ("true", Family::Expression, LEAF),
    ("false", Family::Expression, LEAF),
    ("and", Family::Expression, PAIR),
    ("or", Family::Expression, PAIR),
    ("equal", Family::Expression, PAIR),
    ("in", Family::Expression, PAIR),
    ("greater", Family::Expression, PAIR),
    ("add", Family::Expression, PAIR),
    ("sub", Family::Expression, PAIR),
    ("mul", Family::Expression, PAIR),
    ("div", Family::Expression, PAIR),
    ("must", Family::Duty, OBLIGE),
    ("may", Family::Duty, OBLIGE),
    ("item", Family::Item, ITEM),
    ("permit", Family::Policy, RULE),
    ("deny", Family::Policy, RULE),
    ("set", Family::Policy, SET),
];

/// One way to spoil a field.
#[derive(Clone, Copy, Debug)]
pub enum Fault {
    /// This very word in its place.
    Word(&'static [u8]),
    /// The good word with something before it.
    Before(&'static [u8]),
    /// The good word with something after it.
    After(&'static [u8]),
    UpperCase,
    Itself,
    Later,
    /// A line above of another family, named already or not.
    WrongFamily(bool),
    /// A fitting line that a line above has named.
    NamedAbove,
    /// The line that the field to the left names.
    NamedHere,
}

const KIND_TWISTS: &[Fault] = &[Fault::UpperCase, Fault::After(b"s"), Fault::After(b"\r")];
const LINE_TWISTS: &[Fault] = &[
    Fault::Before(b"0"),
    Fault::Before(b"-"),
    Fault::Before(b"+"),
    Fault::After(b"."),
    Fault::After(b"0"),
    Fault::After(b"\r"),
    Fault::Itself,
    Fault::Later,
    Fault::WrongFamily(false),
    Fault::WrongFamily(true),
    Fault::NamedAbove,
    Fault::NamedAbove,
    Fault::NamedHere,
];

/// Every fault that suits a field with this role.
pub fn faults(role: Role) -> Vec<Fault> {
    let (words, twists): (_, &[Fault]) = match role {
        Kind => (doubtful::KINDS, KIND_TWISTS),
        Name => (doubtful::NAMES, &[]),
        Number => (doubtful::NUMBERS, &[]),
        Text => (doubtful::TEXTS, &[]),
        Action => (doubtful::ACTIONS, &[]),
        Algorithm => (doubtful::ALGORITHMS, &[]),
        Line(_) | LineOrNone(_) => (doubtful::LINES, LINE_TWISTS),
        Unused => (doubtful::UNUSED, &[]),
    };
    let words = doubtful::split(words, b' ').into_iter().map(Fault::Word);
    words.chain(twists.iter().copied()).collect()
}

/// Spoils this field in this way; false if the policy gives no occasion for it.
pub fn spoil(
    policy: &mut Table,
    line: usize,
    field: usize,
    fault: Fault,
    random: &mut Random,
) -> bool {
    let Some(word) = spoiled(policy, line, field, fault, random) else {
        return false;
    };
    policy.lines[line][field] = word;
    true
}

/// Spoils some field in some way that suits it.
pub fn spoil_any(policy: &mut Table, line: usize, random: &mut Random) {
    let field = random.below(policy.lines[line].len().clamp(1, 6));
    let Some(roles) = roles(policy, line) else {
        return;
    };
    let fault = random.pick(&faults(roles[field]));
    spoil(policy, line, field, fault, random);
}

fn spoiled(
    policy: &Table,
    line: usize,
    field: usize,
    fault: Fault,
    random: &mut Random,
) -> Option<Word> {
    let good = policy.lines.get(line)?.get(field)?;
    let wanted = match roles(policy, line)?[field] {
        Line(family) | LineOrNone(family) => Some(family),
        _ => None,
    };
    let of_family = |above: &usize| describe(policy, *above).map(|(family, _)| family);
    let word = match fault {
        Fault::Word(word) => return Some(word.to_vec()),
        Fault::Before(extra) => return Some([extra, good].concat()),
        Fault::After(extra) => return Some([good, extra].concat()),
        Fault::UpperCase => return Some(good.to_ascii_uppercase()),
        Fault::NamedHere => return named_to_the_left(policy, line, field),
        Fault::Itself => line,
        Fault::Later => random.between(line + 1, policy.last().max(line) + 1),
        Fault::WrongFamily(named) => {
            let known = named_above(policy, line);
            let fits = |above: &usize| known.contains(above) == named && of_family(above) != wanted;
            random.pick_any(&(1..line).filter(fits).collect::<Vec<_>>())?
        }
        Fault::NamedAbove => {
            let mut known = named_above(policy, line);
            known.retain(|above| of_family(above) == wanted);
            random.pick_any(&known)?
        }
    };
    Some(word.to_string().into_bytes())
}

fn named_to_the_left(policy: &Table, line: usize, field: usize) -> Option<Word> {
    let left = field.checked_sub(1)?;
    let word = policy.lines[line].get(left)?;
    let names_one = roles(policy, line)?[left].names_a_line() && word != b"-";
    names_one.then(|| word.clone())
}

/// The lines that lines above this one name.
fn named_above(policy: &Table, line: usize) -> Vec<usize> {
    let mut named = Vec::new();
    for above in 1..line {
        let Some(roles) = roles(policy, above) else {
            continue;
        };
        for (word, role) in policy.lines[above].iter().zip(roles) {
            if role.names_a_line() {
                named.extend(String::from_utf8_lossy(word).parse::<usize>());
            }
        }
    }
    named
}

/// What the fields of a line should hold, if its kind is known.
pub fn roles(policy: &Table, line: usize) -> Option<[Role; 6]> {
    describe(policy, line).map(|(_, roles)| roles)
}

fn describe(policy: &Table, line: usize) -> Option<(Family, [Role; 6])> {
    let kind = policy.lines.get(line)?.first()?;
    let found = KINDS
        .iter()
        .find(|known| known.0.as_bytes() == kind.as_slice())?;
    Some((found.1, found.2))
}

//! What condition lines decide, in one pass from the top without a policy's tree.

use std::fmt;

use crate::combining::Decision;
use crate::line::{Line, LineNumber, Operator};
use crate::operators::{self, Operand};
use crate::policy::Policy;
use crate::spelling;

mod compiling;

/// The place of a condition line, counted from 0.
type Place = u16;

#[derive(Clone, Copy, Debug, PartialEq, Eq)]
enum Condition {
    Truth(bool),
    /// The place among the readings, which is one less than the number of the line.
    Reading(u16),
    Number(i32),
    /// The place among the texts.
    Text(u16),
    Not(Place),
    Binary(Operator, Place, Place),
    True(Place),
    /// False or missing.
    Absent(Place),
    /// Neither true nor false nor missing.
    Other(Place),
    /// A single thing, and a known one.
    Fulfilled(Place),
    Negation(Place),
    Both(Place, Place),
    Either(Place, Place),
}

/// Accepted condition lines, each of which names only lines above it.
#[derive(Clone, Debug, PartialEq, Eq)]
pub struct Conditions {
    lines: Vec<Condition>,
    texts: Vec<String>,
    /// The marked lines, in the order of `Decision::ALL`.
    marks: [Place; 4],
}

/// A line that says nothing of the kind, counted from 0.
#[derive(Clone, Copy, Debug, PartialEq, Eq)]
pub struct Misspelt(usize);

impl fmt::Display for Misspelt {
    fn fmt(&self, out: &mut fmt::Formatter<'_>) -> fmt::Result {
        write!(out, "condition line {} is misspelt", self.0)
    }
}

impl std::error::Error for Misspelt {}

impl Conditions {
    /// Reads one condition from each line, and the marks from the last.
    pub fn parse(file: &str, policy: &Policy) -> Result<Conditions, Misspelt> {
        let mut draft = Draft {
            policy,
            lines: Vec::new(),
            texts: Vec::new(),
        };
        let file: Vec<&str> = file.lines().collect();
        let (marks, lines) = file.split_last().ok_or(Misspelt(0))?;
        for (number, line) in lines.iter().enumerate() {
            let condition = draft.condition(line).ok_or(Misspelt(number))?;
            draft.lines.push(condition);
        }
        let marks = draft.marks(marks).ok_or(Misspelt(lines.len()))?;
        Ok(Conditions {
            lines: draft.lines,
            texts: draft.texts,
            marks,
        })
    }

    /// Memory for the results of all lines, which serves for any number of passes.
    pub fn scratch(&self) -> Scratch<'static> {
        Scratch {
            values: vec![Operand::Missing; self.lines.len()],
            truths: vec![false; self.lines.len()],
        }
    }

    /// The decision whose mark is true, the first such one, or none. The readings are in the
    /// places of the policy's lines, and the results are left behind.
    pub fn pass<'a>(
        &'a self,
        readings: &[Operand<'a>],
        scratch: &mut Scratch<'a>,
    ) -> Option<Decision> {
        let values = &mut scratch.values[..self.lines.len()];
        let truths = &mut scratch.truths[..self.lines.len()];
        for (place, condition) in self.lines.iter().enumerate() {
            let value = |place: Place| &values[usize::from(place)];
            let truth = |place: Place| truths[usize::from(place)];
            let outcome = match *condition {
                Condition::Truth(truth) => Outcome::Truth(truth),
                Condition::Reading(place) => Outcome::Value(readings[usize::from(place)]),
                Condition::Number(number) => Outcome::Value(Operand::Number(number)),
                Condition::Text(place) => {
                    Outcome::Value(Operand::Text(&self.texts[usize::from(place)]))
                }
                Condition::Not(side) => Outcome::Value(operators::not(*value(side))),
                Condition::Binary(operator, left, right) => {
                    Outcome::Value(operators::apply(operator, *value(left), *value(right)))
                }
                Condition::True(side) => Outcome::Truth(truth(side)),
                Condition::Absent(side) => Outcome::Truth(is_absent(value(side))),
                Condition::Other(side) => Outcome::Truth(is_other(value(side))),
                Condition::Fulfilled(side) => Outcome::Truth(is_fulfilled(value(side))),
                Condition::Negation(side) => Outcome::Truth(!truth(side)),
                Condition::Both(left, right) => Outcome::Truth(truth(left) & truth(right)),
                Condition::Either(left, right) => Outcome::Truth(truth(left) | truth(right)),
            };
            match outcome {
                Outcome::Value(value) => {
                    values[place] = value;
                    truths[place] = is_true(&value);
                }
                Outcome::Truth(truth) => {
                    values[place] = Operand::Boolean(truth);
                    truths[place] = truth;
                }
            }
        }
        let holds = |mark: Place| truths[usize::from(mark)];
        let place = self.marks.iter().position(|&mark| holds(mark))?;
        Some(Decision::ALL[place])
    }

    /// Every decision whose mark is true after a pass.
    pub fn marked(&self, scratch: &Scratch<'_>) -> Vec<Decision> {
        let marked = Decision::ALL.into_iter().zip(self.marks);
        marked
            .filter(|(_, mark)| scratch.truths[usize::from(*mark)])
            .map(|(decision, _)| decision)
            .collect()
    }
}

/// What a condition comes to.
enum Outcome<'a> {
    Value(Operand<'a>),
    Truth(bool),
}

/// The results of all lines.
#[derive(Clone, Debug, PartialEq, Eq)]
pub struct Scratch<'a> {
    values: Vec<Operand<'a>>,
    /// Whether the value is the boolean true, which truths ask for most.
    truths: Vec<bool>,
}

fn is_true(operand: &Operand<'_>) -> bool {
    matches!(operand, Operand::Boolean(true))
}

fn is_absent(operand: &Operand<'_>) -> bool {
    matches!(operand, Operand::Boolean(false) | Operand::Missing)
}

fn is_other(operand: &Operand<'_>) -> bool {
    !matches!(operand, Operand::Boolean(_) | Operand::Missing)
}

fn is_fulfilled(operand: &Operand<'_>) -> bool {
    matches!(
        operand,
        Operand::Boolean(_) | Operand::Number(_) | Operand::Text(_)
    )
}

/// The lines read so far.
struct Draft<'p> {
    policy: &'p Policy,
    lines: Vec<Condition>,
    texts: Vec<String>,
}

impl Draft<'_> {
    fn condition(&mut self, line: &str) -> Option<Condition> {
        let words: Vec<&str> = line.split(' ').collect();
        let place = |word: &str| self.above(word);
        Some(match words[..] {
            ["truth", word] => Condition::Truth(word.parse().ok()?),
            ["reading", word] => Condition::Reading(self.attr_line(word)?),
            ["number", word] => Condition::Number(spelling::number(word.as_bytes())?),
            ["text", word] => Condition::Text(self.text(word)?),
            ["not", side] => Condition::Not(place(side)?),
            ["test", "true", side] => Condition::True(place(side)?),
            ["test", "absent", side] => Condition::Absent(place(side)?),
            ["test", "other", side] => Condition::Other(place(side)?),
            ["test", "fulfilled", side] => Condition::Fulfilled(place(side)?),
            ["negation", side] => Condition::Negation(place(side)?),
            ["both", left, right] => Condition::Both(place(left)?, place(right)?),
            ["either", left, right] => Condition::Either(place(left)?, place(right)?),
            [word, left, right] => {
                let operator = Operator::of_word(word.as_bytes())?;
                Condition::Binary(operator, place(left)?, place(right)?)
            }
            _ => return None,
        })
    }

    fn marks(&self, line: &str) -> Option<[Place; 4]> {
        let words: Vec<&str> = line.split(' ').collect();
        match words[..] {
            ["marks", permit, deny, not_app, indet] => Some([
                self.above(permit)?,
                self.above(deny)?,
                self.above(not_app)?,
                self.above(indet)?,
            ]),
            _ => None,
        }
    }

    /// The place of a line that was read before.
    fn above(&self, word: &str) -> Option<Place> {
        let place = Place::try_from(spelling::number(word.as_bytes())?).ok()?;
        (usize::from(place) < self.lines.len()).then_some(place)
    }

    /// One less than the number of an `attr` line of the policy.
    fn attr_line(&self, word: &str) -> Option<u16> {
        let number = LineNumber::try_from(spelling::number(word.as_bytes())?).ok()?;
        let place = number.checked_sub(1)?;
        let is_attr = matches!(self.policy.lines.get(place), Some(Line::Attr(_)));
        u16::try_from(place).ok().filter(|_| is_attr)
    }

    fn text(&mut self, word: &str) -> Option<u16> {
        let place = u16::try_from(self.texts.len()).ok()?;
        self.texts.push(spelling::text(word.as_bytes())?.to_owned());
        Some(place)
    }
}

#[cfg(test)]
mod tests;

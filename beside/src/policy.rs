//! The policy file: a tree written out line by line, each line naming lines above it.

use crate::line::{Algorithm, Effect, Family, Force, Line, LineNumber, Operator, Strategy};
use crate::refusal::{Cause, Refusal};
use crate::spelling;

pub const HEADER: &[u8] = b"kind a b c d e";
pub const MOST_LINES: usize = 256;
const FIELDS: usize = 6;
const MOST_ACTION: u8 = 15;

/// An accepted file; the last line is the policy that decides.
#[derive(Clone, Debug, PartialEq, Eq)]
pub struct Policy {
    pub lines: Vec<Line>,
}

impl Policy {
    /// The line with this number.
    pub fn line(&self, number: LineNumber) -> &Line {
        &self.lines[number - 1]
    }
}

pub fn parse(file: &[u8]) -> Result<Policy, Refusal> {
    let (_, mut rest) = spelling::cut_line(file)
        .filter(|(first, _)| *first == HEADER)
        .ok_or(Refusal::of_file(Cause::Header))?;
    let mut above = Above::default();
    while !rest.is_empty() {
        let number = above.next_number();
        // Whatever stands here is one line too many, so its shape is not looked at.
        if number > MOST_LINES {
            return Err(Refusal::of_line(Cause::LineCount, number));
        }
        let (line, below) =
            spelling::cut_line(rest).ok_or(Refusal::of_line(Cause::LineShape, number))?;
        above.take(line)?;
        rest = below;
    }
    above.finish()
}

/// The lines read so far, and which of them a later line has named.
#[derive(Default)]
struct Above {
    lines: Vec<Line>,
    named: Vec<bool>,
}

impl Above {
    fn next_number(&self) -> LineNumber {
        self.lines.len() + 1
    }

    fn take(&mut self, line: &[u8]) -> Result<(), Refusal> {
        let fields =
            six_fields(line).ok_or(Refusal::of_line(Cause::LineShape, self.next_number()))?;
        let line = Cursor {
            fields,
            taken: 0,
            above: self,
        }
        .line()?;
        self.lines.push(line);
        self.named.push(false);
        Ok(())
    }

    fn finish(self) -> Result<Policy, Refusal> {
        let last = self.lines.len();
        let Some(last_line) = self.lines.last() else {
            return Err(Refusal::of_line(Cause::LineCount, 1));
        };
        // Nothing can name the last line, so it is left out of the search.
        if let Some(place) = self.named[..last - 1].iter().position(|named| !named) {
            return Err(Refusal::of_line(Cause::Naming, place + 1));
        }
        if last_line.family() != Family::Policy {
            return Err(Refusal::of_line(Cause::Naming, last));
        }
        Ok(Policy { lines: self.lines })
    }
}

fn six_fields(line: &[u8]) -> Option<[&[u8]; FIELDS]> {
    let mut words = spelling::words(line);
    let mut fields: [&[u8]; FIELDS] = [b""; FIELDS];
    for field in &mut fields {
        *field = words.next()?;
    }
    words.next().is_none().then_some(fields)
}

/// Takes the fields of one line from the left, so that the leftmost fault is met first.
struct Cursor<'a> {
    fields: [&'a [u8]; FIELDS],
    taken: usize,
    above: &'a mut Above,
}

impl<'a> Cursor<'a> {
    fn line(mut self) -> Result<Line, Refusal> {
        let line = match self.next() {
            b"attr" => Line::Attr(self.spelled(spelling::name)?.to_owned()),
            b"num" => Line::Num(self.spelled(spelling::number)?),
            b"text" => Line::Text(self.spelled(spelling::text)?.to_owned()),
            b"true" => Line::Boolean(true),
            b"false" => Line::Boolean(false),
            b"not" => Line::Not(self.reference(Family::Expression)?),
            b"must" => self.duty(Force::Must)?,
            b"may" => self.duty(Force::May)?,
            b"item" => Line::Item {
                policy: self.reference(Family::Policy)?,
                earlier: self.optional(Family::Item)?,
            },
            b"permit" => self.rule(Effect::Permit)?,
            b"deny" => self.rule(Effect::Deny)?,
            b"set" => self.set()?,
            kind => self.binary(kind)?,
        };
        while self.taken < FIELDS {
            self.spelled(|word| (word == b"-").then_some(()))?;
        }
        Ok(line)
    }

    fn binary(&mut self, kind: &[u8]) -> Result<Line, Refusal> {
        let operator = Operator::of_word(kind).ok_or(self.refusal(Cause::UnknownWord))?;
        Ok(Line::Binary {
            operator,
            left: self.reference(Family::Expression)?,
            right: self.reference(Family::Expression)?,
        })
    }

    fn duty(&mut self, force: Force) -> Result<Line, Refusal> {
        Ok(Line::Duty {
            force,
            action: self.spelled(action)?,
            argument: self.reference(Family::Expression)?,
            earlier: self.optional(Family::Duty)?,
        })
    }

    fn rule(&mut self, effect: Effect) -> Result<Line, Refusal> {
        Ok(Line::Rule {
            effect,
            target: self.reference(Family::Expression)?,
            duty: self.optional(Family::Duty)?,
        })
    }

    fn set(&mut self) -> Result<Line, Refusal> {
        let word = self.next();
        let (algorithm, strategy) = combining(word).ok_or(self.refusal(Cause::UnknownWord))?;
        Ok(Line::Set {
            algorithm,
            strategy,
            target: self.reference(Family::Expression)?,
            item: self.reference(Family::Item)?,
            on_permit: self.optional(Family::Duty)?,
            on_deny: self.optional(Family::Duty)?,
        })
    }

    fn optional(&mut self, family: Family) -> Result<Option<LineNumber>, Refusal> {
        if self.fields[self.taken] == b"-" {
            self.taken += 1;
            return Ok(None);
        }
        self.reference(family).map(Some)
    }

    /// Names a line: it must be well spelt, then fit, then not be named already.
    fn reference(&mut self, family: Family) -> Result<LineNumber, Refusal> {
        let number = self.spelled(spelling::number)?;
        let place = usize::try_from(number)
            .ok()
            .and_then(|number| number.checked_sub(1));
        let place = place
            .filter(|&place| self.above.lines.get(place).map(Line::family) == Some(family))
            .ok_or(self.refusal(Cause::BadReference))?;
        // Marked at once, so that a later field of this very line is caught too.
        if std::mem::replace(&mut self.above.named[place], true) {
            return Err(self.refusal(Cause::Naming));
        }
        Ok(place + 1)
    }

    fn spelled<T>(&mut self, read: impl Fn(&'a [u8]) -> Option<T>) -> Result<T, Refusal> {
        let word = self.next();
        read(word).ok_or(self.refusal(Cause::Misspelt))
    }

    fn next(&mut self) -> &'a [u8] {
        let word = self.fields[self.taken];
        self.taken += 1;
        word
    }

    /// A fault of the field taken last.
    fn refusal(&self, cause: Cause) -> Refusal {
        Refusal::at(cause, self.above.next_number(), self.taken)
    }
}

/// An action of a duty.
pub fn action(word: &[u8]) -> Option<u8> {
    let number = u8::try_from(spelling::number(word)?).ok()?;
    (number <= MOST_ACTION).then_some(number)
}

/// The algorithm, a dot, and the strategy.
fn combining(word: &[u8]) -> Option<(Algorithm, Strategy)> {
    let dot = word.iter().position(|&byte| byte == b'.')?;
    let algorithm = Algorithm::of_word(&word[..dot])?;
    let strategy = Strategy::of_word(&word[dot + 1..])?;
    Some((algorithm, strategy))
}

#[cfg(test)]
mod tests;

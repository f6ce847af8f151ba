//! What a policy decides about a row, found by a walk down its tree.

use std::fmt;
use std::iter;

use crate::combining::{self, Decision};
use crate::line::{Algorithm, Force, Line, LineNumber, Strategy};
use crate::operators::{self, Operand};
use crate::policy::Policy;
use crate::readings::Readings;
use crate::sources::Row;
use crate::value::Value;

/// What a fulfilled duty tells: a single thing, and a known one.
#[derive(Clone, Copy, Debug, PartialEq, Eq)]
pub enum Argument<'a> {
    Boolean(bool),
    Number(i32),
    Text(&'a str),
}

impl<'a> Argument<'a> {
    fn of(operand: Operand<'a>) -> Option<Self> {
        match operand {
            Operand::Boolean(boolean) => Some(Argument::Boolean(boolean)),
            Operand::Number(number) => Some(Argument::Number(number)),
            Operand::Text(text) => Some(Argument::Text(text)),
            Operand::Missing | Operand::Error | Operand::Numbers(_) | Operand::Texts(_) => None,
        }
    }
}

impl From<Argument<'_>> for Value {
    fn from(argument: Argument<'_>) -> Self {
        match argument {
            Argument::Boolean(boolean) => Value::Boolean(boolean),
            Argument::Number(number) => Value::Number(number),
            Argument::Text(text) => Value::Text(text.to_owned()),
        }
    }
}

impl fmt::Display for Argument<'_> {
    fn fmt(&self, out: &mut fmt::Formatter<'_>) -> fmt::Result {
        match self {
            Argument::Boolean(boolean) => write!(out, "{boolean}"),
            Argument::Number(number) => write!(out, "{number}"),
            Argument::Text(text) => out.write_str(text),
        }
    }
}

#[derive(Clone, Copy, Debug, PartialEq, Eq)]
pub struct Duty<'a> {
    pub force: Force,
    pub action: u8,
    pub argument: Argument<'a>,
}

impl fmt::Display for Duty<'_> {
    fn fmt(&self, out: &mut fmt::Formatter<'_>) -> fmt::Result {
        let (force, action) = (self.force.word(), self.action);
        write!(out, "{force} {action} {}", self.argument)
    }
}

/// A decision with the duties it carries, which only permit and deny ever do.
#[derive(Clone, Debug, PartialEq, Eq)]
pub struct Response<'a> {
    pub decision: Decision,
    pub duties: Vec<Duty<'a>>,
}

impl Response<'_> {
    fn bare(decision: Decision) -> Self {
        Response {
            decision,
            duties: Vec::new(),
        }
    }
}

impl fmt::Display for Response<'_> {
    fn fmt(&self, out: &mut fmt::Formatter<'_>) -> fmt::Result {
        write!(out, "{}", self.decision)?;
        self.duties
            .iter()
            .try_for_each(|duty| write!(out, " {duty}"))
    }
}

/// How the values of `attr` lines are found.
pub trait Lookup<'a> {
    /// The value for the line with this number, which asks for this name.
    fn reading(&self, line: LineNumber, name: &str) -> Operand<'a>;
}

impl<'a> Lookup<'a> for Row<'a> {
    fn reading(&self, _: LineNumber, name: &str) -> Operand<'a> {
        let place = self.names.iter().position(|known| known == name);
        place.map_or(Operand::Missing, |place| Operand::from(&self.cells[place]))
    }
}

/// What was looked up before, with a place for each line.
#[derive(Clone, Debug, PartialEq, Eq)]
pub struct ByLine<'a>(pub Vec<Operand<'a>>);

impl<'a> Lookup<'a> for ByLine<'a> {
    fn reading(&self, line: LineNumber, _: &str) -> Operand<'a> {
        self.0[line - 1]
    }
}

/// A policy in front of one row of readings.
#[derive(Clone, Copy, Debug)]
pub struct Judgement<'a, L = Row<'a>> {
    policy: &'a Policy,
    readings: L,
}

/// One for each row, in their order.
pub fn judgements<'a>(
    policy: &'a Policy,
    readings: &'a Readings,
) -> impl Iterator<Item = Judgement<'a>> {
    let names = &readings.names;
    let row = move |cells| Row { names, cells };
    let rows = readings.rows.iter();
    rows.map(move |cells| Judgement::over(policy, row(cells)))
}

impl<'a, L: Lookup<'a>> Judgement<'a, L> {
    pub fn over(policy: &'a Policy, readings: L) -> Self {
        Judgement { policy, readings }
    }

    /// The same with every name looked up beforehand.
    pub fn looked_up(&self) -> Judgement<'a, ByLine<'a>> {
        let value = |(line, number): (&Line, LineNumber)| match line {
            Line::Attr(name) => self.readings.reading(number, name),
            _ => Operand::Missing,
        };
        let readings = self.policy.lines.iter().zip(1..).map(value).collect();
        Judgement::over(self.policy, ByLine(readings))
    }
}

impl<'a> Judgement<'a, ByLine<'a>> {
    /// The value of each `attr` line in its place; the other places mean nothing.
    pub fn readings(&self) -> &[Operand<'a>] {
        &self.readings.0
    }
}

impl<'a, L: Lookup<'a>> Judgement<'a, L> {
    /// What the policy as a whole, which is its last line, answers.
    pub fn response(&self) -> Response<'a> {
        self.policy_at(self.policy.lines.len())
    }

    /// What the policies below the last line decide, where it is a set that applies.
    pub fn children(&self) -> Option<Vec<Decision>> {
        match *self.policy.line(self.policy.lines.len()) {
            Line::Set { target, item, .. } if self.value(target) == Operand::Boolean(true) => {
                let items = self.chain(Some(item)).into_iter();
                Some(items.map(|item| self.item_at(item).decision).collect())
            }
            _ => None,
        }
    }

    /// The value of the expression at this line.
    pub fn value(&self, line: LineNumber) -> Operand<'a> {
        match self.policy.line(line) {
            Line::Attr(name) => self.readings.reading(line, name),
            Line::Num(number) => Operand::Number(*number),
            Line::Text(text) => Operand::Text(text),
            Line::Boolean(boolean) => Operand::Boolean(*boolean),
            Line::Not(inner) => operators::not(self.value(*inner)),
            Line::Binary {
                operator,
                left,
                right,
            } => operators::apply(*operator, self.value(*left), self.value(*right)),
            other => unreachable!("checked to be an expression: {other:?}"),
        }
    }

    fn policy_at(&self, line: LineNumber) -> Response<'a> {
        match *self.policy.line(line) {
            Line::Rule {
                effect,
                target,
                duty,
            } => self.aimed(target, || {
                self.appended(Response::bare(effect.into()), duty)
            }),
            Line::Set {
                algorithm,
                strategy,
                target,
                item,
                on_permit,
                on_deny,
            } => self.aimed(target, || {
                let response = self.combined(algorithm, strategy, item);
                match response.decision {
                    Decision::Permit => self.appended(response, on_permit),
                    Decision::Deny => self.appended(response, on_deny),
                    Decision::NotApplicable | Decision::Indeterminate => response,
                }
            }),
            ref other => unreachable!("checked to be a policy: {other:?}"),
        }
    }

    /// Only a true target lets the rest of a policy be looked at.
    fn aimed(&self, target: LineNumber, rest: impl Fn() -> Response<'a>) -> Response<'a> {
        match self.value(target) {
            Operand::Boolean(true) => rest(),
            Operand::Boolean(false) | Operand::Missing => Response::bare(Decision::NotApplicable),
            _ => Response::bare(Decision::Indeterminate),
        }
    }

    fn combined(
        &self,
        algorithm: Algorithm,
        strategy: Strategy,
        last_item: LineNumber,
    ) -> Response<'a> {
        let visited = self.visited(algorithm, strategy, last_item);
        let decisions: Vec<Decision> = visited.iter().map(|child| child.decision).collect();
        let decision = combining::combined(algorithm, &decisions);
        let heard = match algorithm {
            Algorithm::FirstApplicable => 1,
            _ => visited.len(),
        };
        let agreeing = visited
            .into_iter()
            .filter(|child| child.decision == decision);
        Response {
            decision,
            duties: agreeing
                .take(heard)
                .flat_map(|child| child.duties)
                .collect(),
        }
    }

    /// What the items answer, as far as the strategy goes through them.
    fn visited(
        &self,
        algorithm: Algorithm,
        strategy: Strategy,
        last_item: LineNumber,
    ) -> Vec<Response<'a>> {
        let mut decisions = Vec::new();
        let mut visited = Vec::new();
        for item in self.chain(Some(last_item)) {
            let response = self.item_at(item);
            decisions.push(response.decision);
            visited.push(response);
            // The decision so far is taken afresh, as the rules put it, not kept along.
            if strategy == Strategy::Greedy
                && combining::is_final(algorithm, combining::combined(algorithm, &decisions))
            {
                break;
            }
        }
        visited
    }

    fn item_at(&self, line: LineNumber) -> Response<'a> {
        match *self.policy.line(line) {
            Line::Item { policy, .. } => self.policy_at(policy),
            ref other => unreachable!("checked to be an item: {other:?}"),
        }
    }

    /// With a policy's own duties at the end; one of them unfulfilled spoils the decision.
    fn appended(&self, mut response: Response<'a>, last: Option<LineNumber>) -> Response<'a> {
        for line in self.chain(last) {
            match self.duty(line) {
                Some(duty) => response.duties.push(duty),
                None => return Response::bare(Decision::Indeterminate),
            }
        }
        response
    }

    /// None if the duty is unfulfilled.
    fn duty(&self, line: LineNumber) -> Option<Duty<'a>> {
        match *self.policy.line(line) {
            Line::Duty {
                force,
                action,
                argument,
                ..
            } => Some(Duty {
                force,
                action,
                argument: Argument::of(self.value(argument))?,
            }),
            ref other => unreachable!("checked to be a duty: {other:?}"),
        }
    }

    /// The lines of a chain, which names its last, from the first on.
    fn chain(&self, last: Option<LineNumber>) -> Vec<LineNumber> {
        let earlier = |line: &LineNumber| self.policy.line(*line).earlier();
        let mut lines: Vec<LineNumber> = iter::successors(last, earlier).collect();
        lines.reverse();
        lines
    }
}

#[cfg(test)]
mod tests;

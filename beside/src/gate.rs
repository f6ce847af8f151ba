//! A gate: one policy in force, the readings that were read for it, and the response that waits
//! to be enforced. Calls that come out of order are refused and change nothing.

use std::collections::BTreeMap;

use crate::combining::Decision;
use crate::deciding::{Judgement, Lookup};
use crate::enforcement::{enforce, Bias, Enforced};
use crate::line::{Line, LineNumber};
use crate::operators::Operand;
use crate::policy::{self, Policy};
use crate::refusal::{Cause, Refusal};
use crate::services::{Duty, Service};
use crate::sources::Source;
use crate::value::Value;

/// How many places for conditions a policy needs for each of its lines.
pub const PLACES_A_LINE: usize = 32;

/// At first there is no policy, and so there are no readings and no response.
#[derive(Clone, Debug, PartialEq, Eq)]
pub struct Gate {
    bias: Bias,
    places: usize,
    fitted: Option<Fitted>,
    readings: Option<Snapshot>,
    waiting: Option<Waiting>,
}

/// A policy in force, with the file that spells it.
#[derive(Clone, Debug, PartialEq, Eq)]
struct Fitted {
    file: Vec<u8>,
    policy: Policy,
}

/// What a source had for each name of the policy when it was read.
#[derive(Clone, Debug, PartialEq, Eq)]
struct Snapshot(BTreeMap<String, Value>);

/// A response that was not enforced yet, with its duties' values as they were decided.
#[derive(Clone, Debug, PartialEq, Eq)]
struct Waiting {
    decision: Decision,
    duties: Vec<Duty>,
}

impl Snapshot {
    fn of(source: &impl Source, policy: &Policy) -> Snapshot {
        let reading = |line: &Line| match line {
            Line::Attr(name) => Some((name.clone(), source.value(name))),
            _ => None,
        };
        Snapshot(policy.lines.iter().filter_map(reading).collect())
    }
}

impl<'a> Lookup<'a> for &'a Snapshot {
    fn reading(&self, _: LineNumber, name: &str) -> Operand<'a> {
        self.0.get(name).map_or(Operand::Missing, Operand::from)
    }
}

impl Gate {
    pub fn new(bias: Bias, places: usize) -> Gate {
        Gate {
            bias,
            places,
            fitted: None,
            readings: None,
            waiting: None,
        }
    }

    /// Puts the policy of this file in force, for which nothing is read yet.
    pub fn fit(&mut self, file: &[u8]) -> Result<(), Refusal> {
        self.nothing_waits()?;
        let policy = policy::parse(file)?;
        if self.places < PLACES_A_LINE * policy.lines.len() {
            return Err(Refusal::of_call(Cause::TooLarge));
        }
        let file = file.to_vec();
        self.fitted = Some(Fitted { file, policy });
        self.readings = None;
        Ok(())
    }

    /// Takes what the source has now.
    pub fn read(&mut self, source: &impl Source) -> Result<(), Refusal> {
        let policy = &self.fitted()?.policy;
        self.nothing_waits()?;
        self.readings = Some(Snapshot::of(source, policy));
        Ok(())
    }

    /// The policy's decision; the response waits from now on.
    pub fn decide(&mut self) -> Result<Decision, Refusal> {
        let judgement = self.judgement()?;
        self.nothing_waits()?;
        let response = judgement.response();
        let decision = response.decision;
        let duties = response.duties.iter().map(Duty::from).collect();
        self.waiting = Some(Waiting { decision, duties });
        Ok(decision)
    }

    /// The same decision, with each name looked up once beforehand, and with no response.
    pub fn quick(&self) -> Result<Decision, Refusal> {
        let judgement = self.judgement()?.looked_up();
        Ok(judgement.response().decision)
    }

    /// Enforces the response that waits, which then waits no more.
    pub fn enforce(&mut self, service: &mut impl Service) -> Result<Enforced, Refusal> {
        let response = self.waiting.take();
        let Waiting { decision, duties } = response.ok_or(Refusal::of_call(Cause::NoneWaits))?;
        Ok(enforce(self.bias, decision, &duties, service))
    }

    /// Puts the file of the policy in force at the front of these bytes, and answers its length.
    pub fn write_back(&self, out: &mut [u8]) -> Result<usize, Refusal> {
        let file = &self.fitted()?.file;
        let front = out.get_mut(..file.len());
        let front = front.ok_or(Refusal::of_call(Cause::TooLarge))?;
        front.copy_from_slice(file);
        Ok(file.len())
    }

    fn fitted(&self) -> Result<&Fitted, Refusal> {
        let fitted = self.fitted.as_ref();
        fitted.ok_or(Refusal::of_call(Cause::NoPolicy))
    }

    fn judgement(&self) -> Result<Judgement<'_, &Snapshot>, Refusal> {
        let policy = &self.fitted()?.policy;
        let readings = self.readings.as_ref();
        let readings = readings.ok_or(Refusal::of_call(Cause::NoReadings))?;
        Ok(Judgement::over(policy, readings))
    }

    fn nothing_waits(&self) -> Result<(), Refusal> {
        match self.waiting {
            Some(_) => Err(Refusal::of_call(Cause::ResponseWaits)),
            None => Ok(()),
        }
    }
}

#[cfg(test)]
mod tests;

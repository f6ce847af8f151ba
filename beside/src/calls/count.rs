//! Counts of what lists of calls are answered.

use std::collections::BTreeMap;
use std::fmt;

use super::{Call, Device, List, Outcome, Played, Reply};
use crate::combining::Decision;
use crate::enforcement::{Bias, Enforced};

const CAUSES: usize = 15;

/// Responses that were enforced, and in how many of them duties were carried out, failed and
/// were skipped.
#[derive(Clone, Copy, Debug, Default, PartialEq, Eq)]
pub struct Responses {
    pub all: usize,
    pub carried: usize,
    pub failed: usize,
    pub skipped: usize,
}

impl Responses {
    fn count(&mut self, enforced: &Enforced) {
        self.all += 1;
        self.carried += usize::from(enforced.carried > 0);
        self.failed += usize::from(enforced.failed > 0);
        self.skipped += usize::from(enforced.skipped > 0);
    }
}

impl fmt::Display for Responses {
    fn fmt(&self, out: &mut fmt::Formatter<'_>) -> fmt::Result {
        let (all, carried) = (self.all, self.carried);
        let (failed, skipped) = (self.failed, self.skipped);
        write!(
            out,
            "{all} (carried {carried}, failed {failed}, skipped {skipped})"
        )
    }
}

/// How often a call was made, and how often it was refused.
#[derive(Clone, Copy, Debug, Default, PartialEq, Eq)]
pub struct Uses {
    pub all: usize,
    pub refused: usize,
}

#[derive(Clone, Debug, Default, PartialEq, Eq)]
pub struct Count {
    pub lists: usize,
    /// By the word of the call, with the source that it reads.
    pub calls: BTreeMap<String, Uses>,
    /// How often each number occurs, number 1 first.
    pub by_number: [usize; CAUSES],
    /// What the policies decided, in the order of `Decision::ALL`.
    pub by_decision: [usize; 4],
    /// By the words of the bias and of the service.
    pub responses: BTreeMap<String, Responses>,
}

impl Count {
    pub fn of_lists<'a>(lists: impl IntoIterator<Item = &'a (List, Played)>) -> Count {
        let mut count = Count::default();
        for bias in Bias::ALL {
            for device in Device::ALL {
                count
                    .responses
                    .insert(place(bias, device), Responses::default());
            }
        }
        for (list, played) in lists {
            count.lists += 1;
            let place = place(list.bias, list.device);
            for (call, reply) in list.calls.iter().zip(&played.replies) {
                count.count_call(&place, call, reply);
            }
        }
        count
    }

    fn count_call(&mut self, place: &str, call: &Call, reply: &Reply) {
        let uses = self.calls.entry(key(call)).or_default();
        uses.all += 1;
        match (call, &reply.outcome) {
            (_, Err(refusal)) => {
                uses.refused += 1;
                self.by_number[refusal.cause.number() as usize - 1] += 1;
            }
            (Call::Decide, Ok(Outcome::Decided(decision))) => self.count_decision(*decision),
            (_, Ok(Outcome::Enforced(enforced))) => {
                let responses = self.responses.entry(place.to_owned());
                responses.or_default().count(enforced);
            }
            _ => {}
        }
    }

    fn count_decision(&mut self, decision: Decision) {
        let counts = Decision::ALL.iter().zip(&mut self.by_decision);
        for (_, count) in counts.filter(|(known, _)| **known == decision) {
            *count += 1;
        }
    }

    pub fn all_calls(&self) -> usize {
        self.calls.values().map(|uses| uses.all).sum()
    }
}

fn place(bias: Bias, device: Device) -> String {
    format!("{} on {}", bias.word(), device.word())
}

/// The word of the call, with the source that it reads.
fn key(call: &Call) -> String {
    match call {
        Call::Read(reading) => format!("{} {}", call.word(), reading.form.word()),
        _ => call.word().to_owned(),
    }
}

impl fmt::Display for Count {
    fn fmt(&self, out: &mut fmt::Formatter<'_>) -> fmt::Result {
        writeln!(out, "lists of calls {}", self.lists)?;
        writeln!(out, "calls {}", self.all_calls())?;
        for (word, Uses { all, refused }) in &self.calls {
            writeln!(out, "calls of {word} {all} (refused {refused})")?;
        }
        for (place, count) in self.by_number.iter().enumerate() {
            writeln!(out, "calls refused with number {} {count}", place + 1)?;
        }
        for (decision, count) in Decision::ALL.iter().zip(self.by_decision) {
            writeln!(out, "calls of decide answered {decision} {count}")?;
        }
        for (place, responses) in &self.responses {
            writeln!(out, "responses under {place} {responses}")?;
        }
        Ok(())
    }
}

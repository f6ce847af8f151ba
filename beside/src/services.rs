//! Services that carry out duties: a journal, a bank of valves, and a switchboard over two.

use std::fmt;

use crate::deciding;
use crate::line::Force;
use crate::value::Value;

pub const MOST_ENTRIES: usize = 64;
pub const VALVES: usize = 8;
/// The actions from this one on are about valves.
pub const FIRST_VALVE: u8 = 8;
const HIGHEST_POSITION: i32 = 100;

/// A duty as a service is asked for it, with a value of its own.
#[derive(Clone, Debug, PartialEq, Eq)]
pub struct Duty {
    pub force: Force,
    pub action: u8,
    pub value: Value,
}

impl From<&deciding::Duty<'_>> for Duty {
    fn from(duty: &deciding::Duty<'_>) -> Self {
        Duty {
            force: duty.force,
            action: duty.action,
            value: duty.argument.into(),
        }
    }
}

impl fmt::Display for Duty {
    fn fmt(&self, out: &mut fmt::Formatter<'_>) -> fmt::Result {
        write!(out, "{} {} {}", self.force.word(), self.action, self.value)
    }
}

pub trait Service {
    fn is_ready(&self, duty: &Duty) -> bool;

    /// Does a duty that it is ready for.
    fn perform(&mut self, duty: &Duty);

    /// How many duties it has done.
    fn count(&self) -> u64;

    /// The duty that it has done last.
    fn latest(&self) -> Option<&Duty>;

    /// Does the duty if it is ready for it, and answers whether it has done it.
    fn ask(&mut self, duty: &Duty) -> bool {
        let ready = self.is_ready(duty);
        if ready {
            self.perform(duty);
        }
        ready
    }
}

/// Keeps the duties of the lower actions in their order, until it is full.
#[derive(Clone, Debug, Default, PartialEq, Eq)]
pub struct Journal {
    entries: Vec<Duty>,
}

impl Journal {
    pub fn entries(&self) -> &[Duty] {
        &self.entries
    }
}

impl Service for Journal {
    fn is_ready(&self, duty: &Duty) -> bool {
        duty.action < FIRST_VALVE && self.entries.len() < MOST_ENTRIES
    }

    fn perform(&mut self, duty: &Duty) {
        self.entries.push(duty.clone());
    }

    fn count(&self) -> u64 {
        self.entries.len() as u64
    }

    fn latest(&self) -> Option<&Duty> {
        self.entries.last()
    }
}

/// Valves that are opened to a number of percent, all closed at first.
#[derive(Clone, Debug, Default, PartialEq, Eq)]
pub struct ValveBank {
    positions: [i32; VALVES],
    count: u32,
    latest: Option<Duty>,
}

impl ValveBank {
    pub fn positions(&self) -> &[i32; VALVES] {
        &self.positions
    }
}

/// The valve that a duty is about and the position for it; none if it is about no valve.
fn movement(duty: &Duty) -> Option<(usize, i32)> {
    let valve = usize::from(duty.action.checked_sub(FIRST_VALVE)?);
    match duty.value {
        Value::Number(position) if valve < VALVES && (0..=HIGHEST_POSITION).contains(&position) => {
            Some((valve, position))
        }
        _ => None,
    }
}

impl Service for ValveBank {
    fn is_ready(&self, duty: &Duty) -> bool {
        movement(duty).is_some() && self.count < u32::MAX
    }

    fn perform(&mut self, duty: &Duty) {
        if let Some((valve, position)) = movement(duty) {
            self.positions[valve] = position;
        }
        self.count += 1;
        self.latest = Some(duty.clone());
    }

    fn count(&self) -> u64 {
        u64::from(self.count)
    }

    fn latest(&self) -> Option<&Duty> {
        self.latest.as_ref()
    }
}

/// Passes each duty on to one of two services, which the action tells.
#[derive(Clone, Debug, Default, PartialEq, Eq)]
pub struct Switchboard<First, Second> {
    pub first: First,
    pub second: Second,
    latest: Option<Duty>,
}

impl<First: Service, Second: Service> Service for Switchboard<First, Second> {
    fn is_ready(&self, duty: &Duty) -> bool {
        if duty.action < FIRST_VALVE {
            self.first.is_ready(duty)
        } else {
            self.second.is_ready(duty)
        }
    }

    fn perform(&mut self, duty: &Duty) {
        if duty.action < FIRST_VALVE {
            self.first.perform(duty);
        } else {
            self.second.perform(duty);
        }
        self.latest = Some(duty.clone());
    }

    fn count(&self) -> u64 {
        self.first.count() + self.second.count()
    }

    fn latest(&self) -> Option<&Duty> {
        self.latest.as_ref()
    }
}

#[cfg(test)]
mod tests;

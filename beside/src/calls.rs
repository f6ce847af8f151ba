//! Lists of calls on one gate and one service: how a list is spelt, and what is answered.

use std::fmt;

use crate::combining::Decision;
use crate::devices::{entries, latest, one_row, row_of, sensor_bank, valves};
use crate::enforcement::{Bias, Enforced};
use crate::gate::Gate;
use crate::refusal::Refusal;
use crate::services::{Journal, Service, Switchboard, ValveBank};
use crate::sources::Before;

pub mod count;

/// What responses are enforced on; a switchboard joins a journal and a valve bank.
#[derive(Clone, Copy, Debug, PartialEq, Eq)]
pub enum Device {
    Journal,
    Bank,
    Board,
}

impl Device {
    pub const ALL: [Device; 3] = [Device::Journal, Device::Bank, Device::Board];

    pub fn word(self) -> &'static str {
        match self {
            Device::Journal => "journal",
            Device::Bank => "bank",
            Device::Board => "board",
        }
    }
}

/// What readings come from: a row, a bank of sensors, or one of them before the other.
#[derive(Clone, Copy, Debug, PartialEq, Eq)]
pub enum Form {
    Row,
    Sensors,
    RowFirst,
    SensorsFirst,
}

impl Form {
    pub const ALL: [Form; 4] = [Form::Row, Form::Sensors, Form::RowFirst, Form::SensorsFirst];

    pub fn word(self) -> &'static str {
        match self {
            Form::Row => "row",
            Form::Sensors => "sensors",
            Form::RowFirst => "row-first",
            Form::SensorsFirst => "sensors-first",
        }
    }

    pub fn has_row(self) -> bool {
        self != Form::Sensors
    }

    pub fn has_sensors(self) -> bool {
        self != Form::Row
    }
}

/// A source on lines: names and cells of the row, and then the sensors.
#[derive(Clone, Debug, PartialEq, Eq)]
pub struct Reading {
    pub form: Form,
    pub lines: Vec<String>,
}

#[derive(Clone, Debug, PartialEq, Eq)]
pub enum Call {
    Fit(Vec<u8>),
    Read(Reading),
    Decide,
    Quick,
    Enforce,
    /// Into so many bytes.
    WriteBack(usize),
}

impl Call {
    pub fn word(&self) -> &'static str {
        match self {
            Call::Fit(_) => "fit",
            Call::Read(_) => "read",
            Call::Decide => "decide",
            Call::Quick => "quick",
            Call::Enforce => "enforce",
            Call::WriteBack(_) => "write",
        }
    }

    /// A line that starts with the word, and for a file or a source its bytes on further lines.
    fn spelt(&self) -> Vec<u8> {
        let word = self.word();
        match self {
            Call::Fit(file) => framed(word, file),
            Call::Read(Reading { form, lines }) => {
                let words = format!("{word} {}", form.word());
                framed(&words, lines.join("\n").as_bytes())
            }
            Call::Decide | Call::Quick | Call::Enforce => format!("{word}\n").into_bytes(),
            Call::WriteBack(bytes) => format!("{word} {bytes}\n").into_bytes(),
        }
    }
}

/// A line of these words and of the length, the bytes, and a line end.
fn framed(words: &str, bytes: &[u8]) -> Vec<u8> {
    let header = format!("{words} {}\n", bytes.len());
    [header.as_bytes(), bytes, b"\n"].concat()
}

/// Calls on a new gate and a new service.
#[derive(Clone, Debug, PartialEq, Eq)]
pub struct List {
    pub bias: Bias,
    pub places: usize,
    pub device: Device,
    pub calls: Vec<Call>,
}

impl List {
    /// A word and the length on a line of their own, the gate and the service, the calls, and a
    /// closing line end.
    pub fn framed(&self) -> Vec<u8> {
        let (bias, device) = (self.bias.word(), self.device.word());
        let mut lines = format!("{bias} {} {device}\n", self.places).into_bytes();
        lines.extend(self.calls.iter().flat_map(Call::spelt));
        framed("calls", &lines)
    }

    /// What is answered, or none if a source is misspelt.
    pub fn played(&self) -> Option<Played> {
        match self.device {
            Device::Journal => {
                let mut journal = Journal::default();
                let replies = self.replies(&mut journal)?;
                let seen = vec![entries(&journal), latest(&journal)];
                Some(Played { replies, seen })
            }
            Device::Bank => {
                let mut bank = ValveBank::default();
                let replies = self.replies(&mut bank)?;
                let seen = vec![valves(&bank), latest(&bank)];
                Some(Played { replies, seen })
            }
            Device::Board => {
                let mut board: Switchboard<Journal, ValveBank> = Switchboard::default();
                let replies = self.replies(&mut board)?;
                let seen = vec![entries(&board.first), valves(&board.second), latest(&board)];
                Some(Played { replies, seen })
            }
        }
    }

    fn replies(&self, service: &mut impl Service) -> Option<Vec<Reply>> {
        let mut gate = Gate::new(self.bias, self.places);
        let reply = |call| reply(&mut gate, service, call);
        self.calls.iter().map(reply).collect()
    }
}

#[derive(Clone, Copy, Debug, PartialEq, Eq)]
pub enum Outcome {
    Fitted,
    Read,
    Decided(Decision),
    Enforced(Enforced),
    /// So many bytes.
    Written(usize),
}

impl fmt::Display for Outcome {
    fn fmt(&self, out: &mut fmt::Formatter<'_>) -> fmt::Result {
        match self {
            Outcome::Fitted => out.write_str("fitted"),
            Outcome::Read => out.write_str("read"),
            Outcome::Decided(decision) => decision.fmt(out),
            Outcome::Enforced(enforced) => enforced.fmt(out),
            Outcome::Written(length) => length.fmt(out),
        }
    }
}

/// What a call is answered.
#[derive(Clone, Copy, Debug, PartialEq, Eq)]
pub struct Reply {
    pub outcome: Result<Outcome, Refusal>,
    /// What the bytes for a file come to afterwards, whether it was written or not.
    pub sum: Option<u64>,
}

impl fmt::Display for Reply {
    fn fmt(&self, out: &mut fmt::Formatter<'_>) -> fmt::Result {
        match &self.outcome {
            Ok(outcome) => outcome.fmt(out)?,
            Err(refusal) => refusal.fmt(out)?,
        }
        match self.sum {
            Some(sum) => write!(out, " {sum}"),
            None => Ok(()),
        }
    }
}

/// The replies to a list, and what can be seen of the service in the end.
#[derive(Clone, Debug, PartialEq, Eq)]
pub struct Played {
    pub replies: Vec<Reply>,
    pub seen: Vec<String>,
}

impl fmt::Display for Played {
    fn fmt(&self, out: &mut fmt::Formatter<'_>) -> fmt::Result {
        let mut replies = self.replies.iter();
        replies.try_for_each(|reply| writeln!(out, "{reply}"))?;
        out.write_str(&self.seen.join("\n"))
    }
}

/// Makes one call; none if its source is misspelt.
pub fn reply(gate: &mut Gate, service: &mut impl Service, call: &Call) -> Option<Reply> {
    let outcome = match call {
        Call::Fit(file) => gate.fit(file).map(|()| Outcome::Fitted),
        Call::Read(reading) => read(gate, reading)?.map(|()| Outcome::Read),
        Call::Decide => gate.decide().map(Outcome::Decided),
        Call::Quick => gate.quick().map(Outcome::Decided),
        Call::Enforce => gate.enforce(service).map(Outcome::Enforced),
        Call::WriteBack(bytes) => return Some(written(gate, *bytes)),
    };
    Some(Reply { outcome, sum: None })
}

fn read(gate: &mut Gate, Reading { form, lines }: &Reading) -> Option<Result<(), Refusal>> {
    match form {
        Form::Row => {
            let (readings, _) = one_row(lines)?;
            Some(gate.read(&row_of(&readings)?))
        }
        Form::Sensors => {
            let (sensors, _) = sensor_bank(lines)?;
            Some(gate.read(&sensors))
        }
        Form::RowFirst => {
            let (readings, lines) = one_row(lines)?;
            let (sensors, _) = sensor_bank(lines)?;
            let (first, second) = (&row_of(&readings)?, &sensors);
            Some(gate.read(&Before { first, second }))
        }
        Form::SensorsFirst => {
            let (readings, lines) = one_row(lines)?;
            let (sensors, _) = sensor_bank(lines)?;
            let (first, second) = (&sensors, &row_of(&readings)?);
            Some(gate.read(&Before { first, second }))
        }
    }
}

fn written(gate: &Gate, bytes: usize) -> Reply {
    let mut out = blank(bytes);
    let outcome = gate.write_back(&mut out).map(Outcome::Written);
    let sum = Some(sum(&out));
    Reply { outcome, sum }
}

/// The letters in their order, again and again.
fn blank(bytes: usize) -> Vec<u8> {
    (b'a'..=b'z').cycle().take(bytes).collect()
}

/// Each byte counts as often as its place says, so that it shows where a byte stands.
fn sum(bytes: &[u8]) -> u64 {
    let weighted = bytes
        .iter()
        .zip(1..)
        .map(|(byte, place)| u64::from(*byte) * place);
    weighted.sum()
}

#[cfg(test)]
mod tests;

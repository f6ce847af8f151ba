//! Which lists of calls are made. Most calls come in an order that the gate allows, some do not.

mod files;
mod readings;

use super::random::Random;
use super::sizes;
use crate::calls::{reply, Call, Device, List};
use crate::enforcement::Bias;
use crate::gate::{Gate, PLACES_A_LINE};
use crate::policy::MOST_LINES;
use crate::services::Journal;
use crate::trial::MOST_BYTES;
use files::Files;

const SEED: u64 = 6_802_143;
const LISTS: usize = 720;
const FEWEST_CALLS: usize = 5;
const MOST_CALLS: usize = 60;
/// How many calls in a hundred of a list are chosen to be allowed.
const ORDERLY: [usize; 5] = [30, 55, 75, 88, 96];

pub fn lists() -> Vec<List> {
    let random = &mut Random::new(SEED);
    let mut lists = full(random);
    lists.push(beyond_every_file(random));
    lists.extend(filling(random));
    lists.extend((0..LISTS).map(|round| list(round, random)));
    lists
}

/// Policies with as many lines as there may be, for which places are just enough or one too few.
fn full(random: &mut Random) -> Vec<List> {
    let mut lists = Vec::new();
    for (bias, device) in Bias::ALL.into_iter().zip(Device::ALL) {
        let (file, reading) = files::full(random);
        let length = file.len();
        let calls = vec![
            Call::Fit(file),
            Call::Read(reading),
            Call::Quick,
            Call::Decide,
            Call::WriteBack(length - 1),
            Call::WriteBack(length),
            Call::Enforce,
        ];
        let most = PLACES_A_LINE * MOST_LINES;
        lists.extend([most, most - 1].map(|places| List {
            bias,
            places,
            device,
            calls: calls.clone(),
        }));
    }
    lists
}

/// A file longer than the programs read, which the gate refuses for what is wrong in it.
fn beyond_every_file(random: &mut Random) -> List {
    let device = Device::Board;
    let mut files = Files::new(device, random);
    let reading = files.reading(random);
    let calls = vec![
        Call::Fit(files.next(MOST_LINES, random)),
        Call::Read(reading),
        Call::Fit(sizes::long_name(MOST_BYTES + 1)),
        Call::Decide,
        Call::Fit(sizes::long_name(MOST_BYTES + 1)),
        Call::Enforce,
    ];
    List {
        bias: Bias::Base,
        places: PLACES_A_LINE * MOST_LINES,
        device,
        calls,
    }
}

/// Response after response, until a journal is full and once more.
fn filling(random: &mut Random) -> Vec<List> {
    let mut lists = Vec::new();
    for bias in Bias::ALL {
        for device in [Device::Journal, Device::Journal, Device::Board] {
            let (file, reading) = files::chained(device, random);
            let mut calls = vec![Call::Fit(file), Call::Read(reading)];
            for _ in 0..random.between(8, 25) {
                calls.extend([Call::Decide, Call::Enforce]);
            }
            lists.push(List {
                bias,
                places: PLACES_A_LINE * MOST_LINES,
                device,
                calls,
            });
        }
    }
    lists
}

/// Every bias on every service in turn.
fn list(round: usize, random: &mut Random) -> List {
    let bias = Bias::ALL[round % 3];
    let device = Device::ALL[round / 3 % 3];
    let files = Files::new(device, random);
    let places = places(files.usual_lines(), random);
    let mut draft = Draft {
        gate: Gate::new(bias, places),
        most_lines: places / PLACES_A_LINE,
        files,
        orderly: random.pick(&ORDERLY),
        phase: Phase::Bare,
        length: None,
        random,
    };
    let count = draft.random.between(FEWEST_CALLS, MOST_CALLS);
    let calls = (0..count).map(|_| draft.call()).collect();
    List {
        bias,
        places,
        device,
        calls,
    }
}

/// Enough for every policy, or for those of about so many lines, or for few.
fn places(lines: usize, random: &mut Random) -> usize {
    let just_enough = PLACES_A_LINE * lines;
    match random.below(20) {
        0..=6 => PLACES_A_LINE * MOST_LINES,
        7..=11 => just_enough,
        12 | 13 => just_enough - 1,
        14 => random.between(0, 3 * PLACES_A_LINE),
        _ => random.between(just_enough / 2, 2 * just_enough),
    }
}

/// What a gate has by now.
#[derive(Clone, Copy, Debug, PartialEq, Eq)]
enum Phase {
    Bare,
    Fitted,
    Read,
    Waiting,
}

/// A list in the making, with the gate that plays it.
struct Draft<'a> {
    gate: Gate,
    /// Of a policy that there are places enough for.
    most_lines: usize,
    files: Files,
    orderly: usize,
    phase: Phase,
    /// Of the file in force.
    length: Option<usize>,
    random: &'a mut Random,
}

/// A call without what goes with it.
#[derive(Clone, Copy, Debug, PartialEq, Eq)]
enum Kind {
    Fit,
    Read,
    Decide,
    Quick,
    Enforce,
    WriteBack,
}

const ANY: [Kind; 12] = [
    Kind::Fit,
    Kind::Read,
    Kind::Decide,
    Kind::Decide,
    Kind::Decide,
    Kind::Quick,
    Kind::Quick,
    Kind::Quick,
    Kind::Enforce,
    Kind::Enforce,
    Kind::WriteBack,
    Kind::WriteBack,
];

impl Phase {
    /// Calls that are allowed, each as often as it is to be made.
    fn allowed(self) -> &'static [Kind] {
        match self {
            Phase::Bare => &[Kind::Fit],
            Phase::Fitted => &[Kind::Read, Kind::Read, Kind::Read, Kind::WriteBack],
            Phase::Read => &[
                Kind::Decide,
                Kind::Decide,
                Kind::Decide,
                Kind::Decide,
                Kind::Decide,
                Kind::Decide,
                Kind::Quick,
                Kind::Read,
                Kind::Read,
                Kind::Fit,
                Kind::WriteBack,
            ],
            Phase::Waiting => &[
                Kind::Enforce,
                Kind::Enforce,
                Kind::Enforce,
                Kind::Enforce,
                Kind::Enforce,
                Kind::Enforce,
                Kind::Quick,
                Kind::WriteBack,
            ],
        }
    }
}

impl Draft<'_> {
    /// The next call, which is made on the gate too.
    fn call(&mut self) -> Call {
        let kinds = match self.random.chance(self.orderly) {
            true => self.phase.allowed(),
            false => &ANY,
        };
        let call = match self.random.pick(kinds) {
            Kind::Fit => Call::Fit(self.files.next(self.most_lines, self.random)),
            Kind::Read => Call::Read(self.files.reading(self.random)),
            Kind::Decide => Call::Decide,
            Kind::Quick => Call::Quick,
            Kind::Enforce => Call::Enforce,
            Kind::WriteBack => Call::WriteBack(self.room()),
        };
        // Whatever the service does, a response waits no longer.
        let reply = reply(&mut self.gate, &mut Journal::default(), &call);
        if reply.is_some_and(|reply| reply.outcome.is_ok()) {
            self.note(&call);
        }
        call
    }

    fn note(&mut self, accepted: &Call) {
        match accepted {
            Call::Fit(file) => {
                self.length = Some(file.len());
                self.phase = Phase::Fitted;
                self.files.fitted();
            }
            Call::Decide => self.phase = Phase::Waiting,
            Call::Read(_) | Call::Enforce => self.phase = Phase::Read,
            Call::Quick | Call::WriteBack(_) => {}
        }
    }

    /// How many bytes to write a file back into.
    fn room(&mut self) -> usize {
        let length = self.length.unwrap_or(40);
        match self.random.below(10) {
            0..=2 => length,
            3..=5 => length - 1,
            6 | 7 => length + self.random.between(1, 80),
            8 => self.random.below(length),
            _ => 0,
        }
    }
}

#[cfg(test)]
mod tests;

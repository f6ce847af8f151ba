//! Cases that enforce responses on a journal, a bank of valves, or a switchboard over both.

use super::super::random::Random;
use super::super::words::{self, SORTS};
use super::super::FORCES;
use super::DeviceCase;
use crate::combining::Decision;
use crate::enforcement::Bias;
use crate::services::{FIRST_VALVE, MOST_ENTRIES};

const SERVICES: [&str; 3] = ["journal", "bank", "board"];
/// A switchboard of a journal and a valve bank, one of such a switchboard and another valve bank,
/// and one of a valve bank and a journal.
const SWITCHBOARDS: [&str; 3] = ["board", "boards", "exchanged"];
const ACTIONS: u8 = 16;
/// Numbers around the positions that a valve can have, and a value of every other sort.
pub(super) const VALUES: [&str; 15] = [
    "-1",
    "0",
    "1",
    "99",
    "100",
    "101",
    "-2147483648",
    "2147483647",
    "true",
    "roof",
    "-",
    "!",
    "0,50",
    "ab,cd",
    "false",
];
const SEQUENCES: usize = 60;
const FILLINGS: usize = 24;
const BOARDS: usize = 120;
const JOURNALS: usize = 30;

/// Everything that is gone through without chance.
pub fn tables() -> Vec<DeviceCase> {
    [
        biases(),
        valves(),
        entries(),
        full_at_once(),
        full_in_turn(),
        switched(),
        full_boards(),
    ]
    .concat()
}

pub fn by_chance(random: &mut Random) -> Vec<DeviceCase> {
    [
        valve_sequences(random),
        journal_sequences(random),
        board_sequences(random),
        fillings(random),
    ]
    .concat()
}

fn duty(force: &str, action: impl Into<u32>, value: &str) -> String {
    format!("{force} {} {value}", action.into())
}

/// One response; the bias and the decision take turns.
fn response(turn: usize, duties: &[String]) -> String {
    let bias = Bias::ALL[turn % 3];
    let decision = Decision::ALL[turn / 3 % 4];
    enforcing(bias, decision, duties)
}

fn enforcing(bias: Bias, decision: Decision, duties: &[String]) -> String {
    let duties: String = duties.iter().map(|duty| format!(" {duty}")).collect();
    format!("{} {decision}{duties}", bias.word())
}

/// Every bias with every decision, with no duty and with duties that are done or fail.
fn biases() -> Vec<DeviceCase> {
    let mut cases = Vec::new();
    for service in SERVICES {
        let (done, failing) = match service {
            "journal" => ("7 -", "8 0"),
            "bank" => ("15 100", "7 100"),
            _ => ("0 101", "8 101"),
        };
        let lists = [
            String::new(),
            format!(" must {failing}"),
            format!(" may {failing}"),
            format!(" must {done}"),
            format!(" may {done}"),
            format!(" may {failing} must {done}"),
            format!(" must {done} must {failing} must {done}"),
            format!(" may {failing} must {failing} may {done} may {failing}"),
        ];
        for bias in Bias::ALL {
            for decision in Decision::ALL {
                let line = |list: &String| enforcing(bias, decision, &[]) + list;
                let case = |list| DeviceCase::new(service, [line(list)]);
                cases.extend(lists.iter().map(case));
            }
        }
    }
    cases
}

/// Every action with every value on closed valves, and again when each has a position.
fn valves() -> Vec<DeviceCase> {
    let mut cases = Vec::new();
    for action in 0..ACTIONS {
        for value in VALUES {
            let positions: Vec<String> = (FIRST_VALVE..ACTIONS)
                .map(|valve| duty("may", valve, &(valve + 20).to_string()))
                .collect();
            let lines = [
                response(cases.len(), &[duty("must", action, value)]),
                response(cases.len() + 1, &positions),
                response(cases.len() + 2, &[duty("may", action, value)]),
            ];
            cases.push(DeviceCase::new("bank", lines));
        }
    }
    cases
}

/// Every action on a journal, with every value as `may` and one value as `must`.
fn entries() -> Vec<DeviceCase> {
    let mut cases = Vec::new();
    for action in 0..ACTIONS {
        let all = VALUES.map(|value| duty("may", action, value));
        cases.push(DeviceCase::new("journal", [response(cases.len(), &all)]));
        let value = VALUES[usize::from(action) % VALUES.len()];
        let twice = [duty("must", action, value), duty("must", 7u8, value)];
        cases.push(DeviceCase::new("journal", [response(cases.len(), &twice)]));
    }
    cases
}

/// The duty with this place in a long list for the journal.
fn numbered(force: &str, place: usize) -> String {
    duty(force, (place % 8) as u8, &place.to_string())
}

/// As many duties as there is room for, one fewer and some more, in one response.
fn full_at_once() -> Vec<DeviceCase> {
    let mut cases = Vec::new();
    for count in [63, 64, 65, 66, 69] {
        for usual in FORCES {
            for at_the_limit in FORCES {
                let force = |place: usize| match place == MOST_ENTRIES {
                    true => at_the_limit,
                    false => usual,
                };
                let duties: Vec<String> = (0..count)
                    .map(|place| numbered(force(place), place))
                    .collect();
                let turn = cases.len();
                let more = [duty("may", 0u8, "more"), duty("must", 1u8, "more")];
                let lines = [response(turn, &duties), response(turn + 1, &more)];
                cases.push(DeviceCase::new("journal", lines));
            }
        }
    }
    cases
}

/// The same in several responses.
fn full_in_turn() -> Vec<DeviceCase> {
    let mut cases = Vec::new();
    for count in [63, 64, 65, 66] {
        for size in [1, 8, 13, 32, 63] {
            for force in FORCES {
                let duties: Vec<String> = (0..count).map(|place| numbered(force, place)).collect();
                let line = |(turn, duties)| response(cases.len() + turn, duties);
                let lines: Vec<String> = duties.chunks(size).enumerate().map(line).collect();
                cases.push(DeviceCase::new("journal", lines));
            }
        }
    }
    cases
}

/// Every action on every switchboard, with values for a valve and values for none.
fn switched() -> Vec<DeviceCase> {
    let mut cases = Vec::new();
    for board in SWITCHBOARDS {
        for action in 0..ACTIONS {
            for force in FORCES {
                for value in ["0", "100", "101", "x"] {
                    let duties = [duty(force, action, value), duty("may", 15 - action, "50")];
                    cases.push(DeviceCase::new(board, [response(cases.len(), &duties)]));
                }
            }
        }
    }
    cases
}

/// Switchboards whose journal is full, while the valves still move.
fn full_boards() -> Vec<DeviceCase> {
    let mut cases = Vec::new();
    for count in [63, 64, 65] {
        for force in FORCES {
            let filling: Vec<String> = (0..count).map(|place| numbered("may", place)).collect();
            let more = [
                duty("must", 8u8, "8"),
                duty(force, 7u8, "7"),
                duty("must", 15u8, "15"),
                duty("may", 0u8, "0"),
            ];
            let turn = cases.len();
            let lines = [response(turn, &filling), response(turn + 1, &more)];
            cases.push(DeviceCase::new("board", lines));
        }
    }
    cases
}

fn any_response(duties: &[String], random: &mut Random) -> String {
    // Responses that a policy gives have duties for permit and deny only.
    let decision = match random.chance(75) {
        true => random.pick(&[Decision::Permit, Decision::Deny]),
        false => random.pick(&Decision::ALL),
    };
    enforcing(random.pick(&Bias::ALL), decision, duties)
}

fn position(random: &mut Random) -> String {
    match random.below(12) {
        0 => random.pick(&VALUES).to_owned(),
        1 => random.pick(&["0", "100"]).to_owned(),
        _ => random.between(0, 100).to_string(),
    }
}

fn value(random: &mut Random) -> String {
    let sort = random.pick(&SORTS);
    words::cell(sort, random)
}

/// A duty that moves a valve more often than not.
fn valve_duty(random: &mut Random) -> String {
    let action = match random.chance(4) {
        true => random.below(8) as u8,
        false => random.between(8, 15) as u8,
    };
    let value = position(random);
    duty(random.pick(&FORCES), action, &value)
}

/// A duty that is entered more often than not.
fn journal_duty(random: &mut Random) -> String {
    let action = match random.chance(4) {
        true => random.between(8, 15) as u8,
        false => random.below(8) as u8,
    };
    let value = value(random);
    duty(random.pick(&FORCES), action, &value)
}

fn board_duty(random: &mut Random) -> String {
    match random.chance(50) {
        true => valve_duty(random),
        false => journal_duty(random),
    }
}

/// Some responses with up to this many duties each.
fn sequence(
    service: &str,
    most: usize,
    one: impl Fn(&mut Random) -> String,
    random: &mut Random,
) -> DeviceCase {
    let responses = random.between(2, 7);
    let mut lines = Vec::new();
    for _ in 0..responses {
        let count = random.between(0, most);
        let duties: Vec<String> = (0..count).map(|_| one(random)).collect();
        lines.push(any_response(&duties, random));
    }
    DeviceCase::new(service, lines)
}

/// Several valves, each of which moves several times.
fn valve_sequences(random: &mut Random) -> Vec<DeviceCase> {
    let one = |_| sequence("bank", 9, valve_duty, random);
    (0..SEQUENCES).map(one).collect()
}

fn journal_sequences(random: &mut Random) -> Vec<DeviceCase> {
    let one = |_| sequence("journal", 8, journal_duty, random);
    (0..JOURNALS).map(one).collect()
}

fn board_sequences(random: &mut Random) -> Vec<DeviceCase> {
    let one = |round: usize| sequence(SWITCHBOARDS[round % 3], 8, board_duty, random);
    (0..BOARDS).map(one).collect()
}

/// Journals that are full after a few long responses, alone or below a switchboard.
fn fillings(random: &mut Random) -> Vec<DeviceCase> {
    let mut cases = Vec::new();
    for round in 0..FILLINGS {
        let mut lines = Vec::new();
        for _ in 0..4 {
            let count = random.between(15, 35);
            let duties: Vec<String> = (0..count)
                .map(|place| filling_duty(place, random))
                .collect();
            lines.push(any_response(&duties, random));
        }
        let service = ["journal", "board"][round % 2];
        cases.push(DeviceCase::new(service, lines));
    }
    cases
}

/// A duty for the journal, or now and then one that it never takes but that need not be done.
fn filling_duty(place: usize, random: &mut Random) -> String {
    let (force, action) = match random.chance(8) {
        true => ("may", random.between(8, 15) as u8),
        false => (random.pick(&FORCES), random.below(8) as u8),
    };
    duty(force, action, &place.to_string())
}

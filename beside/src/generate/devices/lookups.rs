//! Cases that look names up in a bank of sensors, alone or with a row of readings.

use super::super::random::Random;
use super::super::words::{self, SORTS};
use super::DeviceCase;
use crate::sources::SENSORS;

const STATUSES: [u8; 7] = [0, 1, 2, 3, 4, 127, 255];
const NUMBERS: [i32; 6] = [0, 1, -1, 50, i32::MIN, i32::MAX];
/// The status of a good and of an absent sensor, and some of broken ones.
const TELLING: [u8; 5] = [0, 2, 1, 3, 255];
const CELLS: [&str; 8] = ["-", "!", "true", "5", "-2147483648", "roof", "1,2", "ab,cd"];
const LONGEST_NAME: usize = 24;
const MOST_COLUMNS: usize = 8;
const BANKS: usize = 70;
const PAIRS: usize = 80;

/// Everything that is gone through without chance.
pub fn tables() -> Vec<DeviceCase> {
    [
        statuses(),
        repeated(),
        of_lengths(),
        prefixes(),
        pairs(),
        repeated_pairs(),
        wide_rows(),
    ]
    .concat()
}

pub fn by_chance(random: &mut Random) -> Vec<DeviceCase> {
    let mut cases: Vec<DeviceCase> = (0..BANKS).map(|_| any_bank(random)).collect();
    cases.extend((0..PAIRS).map(|_| any_pair(random)));
    cases
}

#[derive(Clone, Debug)]
struct Sensor {
    name: String,
    number: i32,
    status: u8,
}

impl Sensor {
    fn new(name: &str, number: i32, status: u8) -> Sensor {
        let name = name.to_owned();
        Sensor {
            name,
            number,
            status,
        }
    }

    fn line(&self) -> String {
        format!("{} {} {}", self.name, self.number, self.status)
    }
}

/// A full bank with these sensors at these places, and others whose names nobody asks for.
fn bank(sensors: &[(usize, Sensor)]) -> Vec<String> {
    let mut bank: Vec<Sensor> = (0..SENSORS)
        .map(|place| Sensor::new("other", place as i32, 0))
        .collect();
    for (place, sensor) in sensors {
        bank[*place] = sensor.clone();
    }
    bank.iter().map(Sensor::line).collect()
}

fn asking(tried: &str, parts: &[&[String]], names: &[&str]) -> DeviceCase {
    let names: Vec<String> = names.iter().map(|name| (*name).to_owned()).collect();
    DeviceCase::new(tried, [&parts.concat()[..], &names].concat())
}

/// Every status with every number, at each place in turn.
fn statuses() -> Vec<DeviceCase> {
    let mut cases = Vec::new();
    for status in STATUSES {
        for number in NUMBERS {
            let place = cases.len() % SENSORS;
            let sensor = Sensor::new("env/temp", number, status);
            let bank = bank(&[(place, sensor)]);
            cases.push(asking("sensors", &[&bank], &["env/temp", "env", "other"]));
        }
    }
    cases
}

/// Two or three sensors of one name, each with any status.
fn repeated() -> Vec<DeviceCase> {
    let mut cases = Vec::new();
    for first in TELLING {
        for second in TELLING {
            for [one, other] in [[0, 1], [0, 15], [6, 9], [14, 15]] {
                let sensors = [
                    (one, Sensor::new("a", 11, first)),
                    (other, Sensor::new("a", 22, second)),
                ];
                cases.push(asking("sensors", &[&bank(&sensors)], &["a", "b"]));
            }
        }
    }
    for status in TELLING {
        let same = |place| (place, Sensor::new("same", place as i32, status));
        let sensors: Vec<(usize, Sensor)> = (0..SENSORS).map(same).collect();
        cases.push(asking("sensors", &[&bank(&sensors)], &["same", "other"]));
    }
    cases
}

/// A name of this many bytes.
fn long_name(length: usize) -> String {
    let bytes = "n/a-name-of-the-most/byte9";
    bytes[..length].to_owned()
}

/// Names of the fewest and of the most bytes, alike up to their last byte.
fn of_lengths() -> Vec<DeviceCase> {
    let stem = long_name(LONGEST_NAME - 1);
    let long: Vec<String> = (0..SENSORS)
        .map(|place| format!("{stem}{}", char::from(b'a' + place as u8)))
        .collect();
    let short: Vec<String> = (0..SENSORS)
        .map(|place| char::from(b'a' + place as u8).to_string())
        .collect();
    let mut cases = Vec::new();
    for (names, last) in [(long, format!("{stem}z")), (short, "z".to_owned())] {
        let sensors: Vec<(usize, Sensor)> = (0..SENSORS)
            .map(|place| (place, Sensor::new(&names[place], place as i32, 0)))
            .collect();
        let mut asked: Vec<&str> = names.iter().rev().map(String::as_str).collect();
        asked.extend([last.as_str(), stem.as_str()]);
        cases.push(asking("sensors", &[&bank(&sensors)], &asked));
    }
    cases
}

/// Each name begins with the one before it, in the order of their lengths or the other way.
fn prefixes() -> Vec<DeviceCase> {
    let names: Vec<String> = (1..=LONGEST_NAME).map(long_name).collect();
    let asked: Vec<&str> = names.iter().map(String::as_str).collect();
    let mut cases = Vec::new();
    for first in [1, LONGEST_NAME - SENSORS + 1] {
        for backwards in [false, true] {
            let sensor = |place: usize| {
                let place = if backwards {
                    SENSORS - 1 - place
                } else {
                    place
                };
                Sensor::new(&long_name(first + place), place as i32, 0)
            };
            let sensors: Vec<(usize, Sensor)> =
                (0..SENSORS).map(|place| (place, sensor(place))).collect();
            cases.push(asking("sensors", &[&bank(&sensors)], &asked));
        }
    }
    cases
}

/// The lines of a row with these names and cells.
fn row(columns: &[(&str, &str)]) -> [String; 2] {
    let words = |word: fn(&(&str, &str)) -> String| {
        let words: Vec<String> = columns.iter().map(word).collect();
        words.join(" ")
    };
    [
        words(|column| column.0.to_owned()),
        words(|column| column.1.to_owned()),
    ]
}

/// Each sort of cell and no column, with each status and no sensor.
fn pairs() -> Vec<DeviceCase> {
    let mut cases = Vec::new();
    for cell in CELLS.into_iter().map(Some).chain([None]) {
        for status in STATUSES.into_iter().map(Some).chain([None]) {
            let mut columns = vec![("aside", "3")];
            columns.extend(cell.map(|cell| ("n", cell)));
            let place = cases.len() % SENSORS;
            let sensor = status.map(|status| (place, Sensor::new("n", 7, status)));
            let sensors: Vec<(usize, Sensor)> = sensor.into_iter().collect();
            let parts: [&[String]; 2] = [&row(&columns), &bank(&sensors)];
            cases.push(asking("before", &parts, &["n", "aside", "other", "m"]));
        }
    }
    cases
}

/// A bank with two sensors of the name, with and without a value in the row.
fn repeated_pairs() -> Vec<DeviceCase> {
    let mut cases = Vec::new();
    for cell in ["-", "!", "8"] {
        for [first, second] in [[2, 0], [1, 0], [0, 2], [0, 1], [2, 1]] {
            let sensors = [
                (3, Sensor::new("a", 11, first)),
                (12, Sensor::new("a", 22, second)),
            ];
            let parts: [&[String]; 2] = [&row(&[("a", cell)]), &bank(&sensors)];
            cases.push(asking("before", &parts, &["a"]));
        }
    }
    cases
}

/// Rows of one to eight names, of which every other one has a sensor too.
fn wide_rows() -> Vec<DeviceCase> {
    let mut cases = Vec::new();
    for width in 1..=MOST_COLUMNS {
        let names: Vec<String> = (0..=MOST_COLUMNS)
            .map(|place| format!("c{place}"))
            .collect();
        let columns: Vec<(&str, &str)> = (0..width)
            .map(|place| (names[place].as_str(), CELLS[place]))
            .collect();
        let sensors: Vec<(usize, Sensor)> = (0..=MOST_COLUMNS)
            .step_by(2)
            .map(|place| {
                let status = TELLING[(place + width) % TELLING.len()];
                (place, Sensor::new(&names[place], 60 + place as i32, status))
            })
            .collect();
        let asked: Vec<&str> = names.iter().map(String::as_str).collect();
        let parts: [&[String]; 2] = [&row(&columns), &bank(&sensors)];
        cases.push(asking("before", &parts, &asked));
    }
    cases
}

/// Names that sensors, rows and questions share, some of which are hard to tell apart.
fn names(random: &mut Random) -> Vec<String> {
    let sort = random.pick(&SORTS);
    let mut names: Vec<String> = (0..random.between(4, 10))
        .map(|_| words::name(sort, random))
        .collect();
    for name in ["a", "a/b", "a/b-1", "a/b-2"] {
        names.push(name.to_owned());
    }
    names
}

fn one_of(names: &[String], random: &mut Random) -> String {
    names[random.below(names.len())].clone()
}

fn any_sensors(names: &[String], random: &mut Random) -> Vec<String> {
    let mut lines = Vec::new();
    for _ in 0..SENSORS {
        let number = match random.chance(30) {
            true => random.pick(&NUMBERS),
            false => random.number(),
        };
        let status = match random.below(6) {
            0 => random.byte(),
            1 => random.pick(&STATUSES),
            2 => 2,
            _ => 0,
        };
        let sensor = Sensor::new(&one_of(names, random), number, status);
        lines.push(sensor.line());
    }
    lines
}

fn any_questions(names: &[String], random: &mut Random) -> Vec<String> {
    let count = random.between(3, 8);
    (0..count).map(|_| one_of(names, random)).collect()
}

fn any_bank(random: &mut Random) -> DeviceCase {
    let names = names(random);
    let sensors = any_sensors(&names, random);
    let questions = any_questions(&names, random);
    DeviceCase::new("sensors", [sensors, questions].concat())
}

fn any_pair(random: &mut Random) -> DeviceCase {
    let names = names(random);
    let mut columns: Vec<String> = Vec::new();
    let width = random.between(1, MOST_COLUMNS);
    for _ in 0..width {
        let name = one_of(&names, random);
        if !columns.contains(&name) {
            columns.push(name);
        }
    }
    let cell = |_: &String| match random.chance(30) {
        true => "-".to_owned(),
        false => words::cell(random.pick(&SORTS), random),
    };
    let cells: Vec<String> = columns.iter().map(cell).collect();
    let row = vec![columns.join(" "), cells.join(" ")];
    let sensors = any_sensors(&names, random);
    let questions = any_questions(&names, random);
    DeviceCase::new("before", [row, sensors, questions].concat())
}

//! Sources for a policy: a row, a bank of sensors, or one of them before the other.

use crate::calls::{Form, Reading};
use crate::generate::pool::Pool;
use crate::generate::random::Random;
use crate::generate::table::Table;
use crate::sources::SENSORS;
use crate::spelling;

/// Most sensors are good, the others of every status.
const STATUSES: [u8; 12] = [0, 0, 0, 0, 0, 0, 0, 0, 1, 2, 3, 255];
/// A sensor that no policy asks for.
const UNUSED: &str = "o 0 0";

pub fn reading(policy: &Table, pool: &Pool, random: &mut Random) -> Reading {
    let form = match random.chance(45) {
        true => Form::Row,
        false => random.pick(&Form::ALL[1..]),
    };
    let mut lines = Vec::new();
    if form.has_row() {
        lines.extend(row(policy, pool, random));
    }
    if form.has_sensors() {
        lines.extend(sensors(policy, pool, random));
    }
    Reading { form, lines }
}

/// Names and cells.
fn row(policy: &Table, pool: &Pool, random: &mut Random) -> Vec<String> {
    let table = pool.readings(policy, 1, random);
    let lines = table.lines.iter();
    lines
        .map(|words| String::from_utf8_lossy(&words.join(&b' ')).into_owned())
        .collect()
}

/// A full bank with sensors for numbers that the policy asks for, and now and then for others.
fn sensors(policy: &Table, pool: &Pool, random: &mut Random) -> Vec<String> {
    let mut sensors: Vec<String> = Vec::new();
    for name in policy.names() {
        let cell = pool.usual_cell(&name, random);
        let is_number = spelling::number(cell.as_bytes()).is_some();
        let status = random.pick(&STATUSES);
        if is_number {
            sensors.push(format!("{name} {cell} {status}"));
        } else if random.chance(15) {
            sensors.push(format!("{name} {} {status}", pool.number(random)));
        }
        // Another sensor of the same name, before it or after it.
        if random.chance(8) {
            sensors.push(format!(
                "{name} {} {}",
                random.below(100),
                random.pick(&STATUSES)
            ));
        }
    }
    sensors.truncate(SENSORS);
    sensors.resize(SENSORS, UNUSED.to_owned());
    for place in 1..SENSORS {
        sensors.swap(place, random.below(place + 1));
    }
    sensors
}

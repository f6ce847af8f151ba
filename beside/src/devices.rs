//! What devices answer in a case of words on lines: services that responses are enforced on,
//! and sources that are asked for names.

use crate::combining::Decision;
use crate::enforcement::{enforce, Bias};
use crate::line::Force;
use crate::readings::{self, Readings};
use crate::services::{Duty, Journal, Service, Switchboard, ValveBank};
use crate::sources::{Before, Row, Sensor, SensorBank, Source, SENSORS};
use crate::value::Value;
use crate::{policy, spelling};

/// The lines that a case gives, or none if it is misspelt.
pub fn answer(case: &[String]) -> Option<Vec<String>> {
    let (device, rest) = case.split_first()?;
    match device.as_str() {
        "journal" => on_journal(rest),
        "bank" => on_bank(rest),
        "board" => on_board(rest),
        "boards" => on_boards(rest),
        "exchanged" => exchanged(rest),
        "sensors" => from_sensors(rest),
        "before" => from_both(rest),
        _ => None,
    }
}

fn on_journal(lines: &[String]) -> Option<Vec<String>> {
    let mut journal = Journal::default();
    let answers = enforced(lines, &mut journal)?;
    let state = vec![entries(&journal), latest(&journal)];
    Some([answers, state].concat())
}

fn on_bank(lines: &[String]) -> Option<Vec<String>> {
    let mut bank = ValveBank::default();
    let answers = enforced(lines, &mut bank)?;
    let state = vec![valves(&bank), latest(&bank)];
    Some([answers, state].concat())
}

fn on_board(lines: &[String]) -> Option<Vec<String>> {
    let mut board: Switchboard<Journal, ValveBank> = Switchboard::default();
    let answers = enforced(lines, &mut board)?;
    let state = vec![entries(&board.first), valves(&board.second), latest(&board)];
    Some([answers, state].concat())
}

/// A switchboard whose first service is a switchboard.
fn on_boards(lines: &[String]) -> Option<Vec<String>> {
    let mut board: Switchboard<Switchboard<Journal, ValveBank>, ValveBank> = Switchboard::default();
    let answers = enforced(lines, &mut board)?;
    let inner = &board.first;
    let inner = vec![entries(&inner.first), valves(&inner.second)];
    let outer = vec![valves(&board.second), latest(&board)];
    Some([answers, inner, outer].concat())
}

/// A switchboard whose services take none of what is sent to them.
fn exchanged(lines: &[String]) -> Option<Vec<String>> {
    let mut board: Switchboard<ValveBank, Journal> = Switchboard::default();
    let answers = enforced(lines, &mut board)?;
    let state = vec![entries(&board.second), valves(&board.first), latest(&board)];
    Some([answers, state].concat())
}

pub(crate) fn latest(service: &impl Service) -> String {
    match service.latest() {
        Some(duty) => format!("latest {duty}"),
        None => "latest -".to_owned(),
    }
}

pub(crate) fn entries(journal: &Journal) -> String {
    let entry = |duty: &Duty| format!(" {duty}");
    let entries: String = journal.entries().iter().map(entry).collect();
    format!("entries{entries}")
}

pub(crate) fn valves(bank: &ValveBank) -> String {
    let positions = bank.positions().map(|position| position.to_string());
    format!("valves {}", positions.join(" "))
}

/// One response after the other on the same service.
fn enforced(lines: &[String], service: &mut impl Service) -> Option<Vec<String>> {
    let answer = |line: &String| {
        let words: Vec<&str> = line.split(' ').collect();
        let [bias, decision, duties @ ..] = &words[..] else {
            return None;
        };
        let bias = Bias::of_word(bias)?;
        let decision = Decision::of_word(decision)?;
        let duties: Option<Vec<Duty>> = duties.chunks(3).map(duty).collect();
        Some(enforce(bias, decision, &duties?, service).to_string())
    };
    lines.iter().map(answer).collect()
}

fn duty(words: &[&str]) -> Option<Duty> {
    let [force, action, cell] = words else {
        return None;
    };
    Some(Duty {
        force: Force::of_word(force)?,
        action: policy::action(action.as_bytes())?,
        value: Value::of_cell(cell.as_bytes())?,
    })
}

fn from_sensors(lines: &[String]) -> Option<Vec<String>> {
    let (sensors, names) = sensor_bank(lines)?;
    let answer = |name: &String| Some(sensors.value(checked(name)?).to_string());
    names.iter().map(answer).collect()
}

fn from_both(lines: &[String]) -> Option<Vec<String>> {
    let (readings, rest) = one_row(lines)?;
    let row = row_of(&readings)?;
    let (sensors, names) = sensor_bank(rest)?;
    let answer = |name: &String| {
        let name = checked(name)?;
        let (first, second) = (&row, &sensors);
        let row_first = Before { first, second }.value(name);
        let (first, second) = (&sensors, &row);
        let sensors_first = Before { first, second }.value(name);
        Some(format!("{row_first} {sensors_first}"))
    };
    names.iter().map(answer).collect()
}

/// The readings of the first two lines, names and cells, and the lines after them.
pub(crate) fn one_row(lines: &[String]) -> Option<(Readings, &[String])> {
    let [names, cells, rest @ ..] = lines else {
        return None;
    };
    let readings = readings::parse(format!("{names}\n{cells}\n").as_bytes()).ok()?;
    Some((readings, rest))
}

/// The first row.
pub(crate) fn row_of(readings: &Readings) -> Option<Row<'_>> {
    let names = &readings.names;
    let cells = readings.rows.first()?;
    Some(Row { names, cells })
}

/// The bank that the first lines describe, and the lines after it.
pub(crate) fn sensor_bank(lines: &[String]) -> Option<(SensorBank, &[String])> {
    let (sensors, rest) = lines.split_at_checked(SENSORS)?;
    let sensors: Option<Vec<Sensor>> = sensors.iter().map(|line| sensor(line)).collect();
    let sensors = sensors?.try_into().ok()?;
    Some((SensorBank { sensors }, rest))
}

fn sensor(line: &str) -> Option<Sensor> {
    let words: Vec<&str> = line.split(' ').collect();
    let [name, number, status] = words[..] else {
        return None;
    };
    Some(Sensor {
        name: checked(name)?.to_owned(),
        number: spelling::number(number.as_bytes())?,
        status: u8::try_from(spelling::number(status.as_bytes())?).ok()?,
    })
}

fn checked(name: &str) -> Option<&str> {
    spelling::name(name.as_bytes())
}

#[cfg(test)]
mod tests;

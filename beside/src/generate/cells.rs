//! Good readings for a policy, and damage to single names and cells.

use super::doubtful;
use super::random::Random;
use super::table::Table;
use super::words::{self, SORTS};
use crate::spelling;

/// Readings that mostly have the names that the policy asks for.
pub fn readings(policy: &Table, rows: usize, random: &mut Random) -> Table {
    let mut names: Vec<String> = Vec::new();
    for line in &policy.lines {
        let [kind, word, ..] = &line[..] else {
            continue;
        };
        if kind != b"attr" || !random.chance(85) {
            continue;
        }
        // A policy that is damaged already must not spoil its readings too.
        if let Some(name) = spelling::name(word) {
            push_new(&mut names, name.to_owned());
        }
    }
    for _ in 0..random.below(3) {
        push_new(&mut names, extra_name(random));
    }
    names.truncate(random.between(2, 7));
    if names.is_empty() {
        names.push(extra_name(random));
    }
    filled(&names, rows, random)
}

/// A table with exactly this many names.
pub fn wide_readings(width: usize, rows: usize, random: &mut Random) -> Table {
    let mut names = Vec::new();
    while names.len() < width {
        // Numbered ones too, since the known names soon run out.
        let numbered = format!("n{}", names.len());
        let name = if random.chance(50) {
            numbered
        } else {
            extra_name(random)
        };
        push_new(&mut names, name);
    }
    filled(&names, rows, random)
}

fn extra_name(random: &mut Random) -> String {
    let sort = random.pick(&SORTS);
    words::name(sort, random)
}

pub fn push_new(names: &mut Vec<String>, name: String) {
    if !names.contains(&name) {
        names.push(name);
    }
}

fn filled(names: &[String], rows: usize, random: &mut Random) -> Table {
    let sorts: Vec<_> = names
        .iter()
        .map(|name| words::usual_sort(name, random))
        .collect();
    let mut lines = vec![names.iter().map(|name| name.clone().into_bytes()).collect()];
    for _ in 0..rows {
        let cells = sorts.iter().map(|&sort| words::cell(sort, random));
        lines.push(cells.map(String::into_bytes).collect());
    }
    Table { lines }
}

/// Puts a doubtful cell into this row, if the row has any cell at all.
pub fn spoil_cell(readings: &mut Table, row: usize, random: &mut Random) {
    let row = &mut readings.lines[row];
    if !row.is_empty() {
        let place = random.below(row.len());
        let cell = random.pick(&doubtful::split(doubtful::CELLS, b' '));
        row[place] = cell.to_vec();
    }
}

/// Puts a doubtful name into the line of names, or repeats one.
pub fn spoil_name(readings: &mut Table, random: &mut Random) {
    let names = &mut readings.lines[0];
    if names.is_empty() {
        return;
    }
    let place = random.below(names.len());
    if random.chance(35) {
        let again = names[random.below(names.len())].clone();
        names[place] = again;
    } else {
        let word = random.pick(&doubtful::split(doubtful::NAMES, b' '));
        names[place] = word.to_vec();
    }
}

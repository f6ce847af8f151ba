//! One cell of each class, for each name of a policy.

use crate::generate::table::{words, Table};

pub const CLASSES: usize = 8;

/// A cell of each class: missing, error, true, false, a number, a text, a set of numbers, and a
/// set of texts.
pub type Palette = [String; CLASSES];

/// The numbers and texts of the constants in small policies.
pub const NUMBERS: [&str; 4] = ["3", "4", "-3", "0"];
pub const TEXTS: [&str; 2] = ["x", "y"];

/// Cells that meet the constants, and one another, now and then.
const MEETING: [[&str; 4]; 5] = [
    ["3", "x", "3,4", "x,y"],
    ["4", "y", "-3,3", "y,z"],
    ["4", "x", "4,0", "z,x"],
    ["0", "x", "0,0,4", "x,x"],
    ["-3", "y", "5,-3,2", "y,w,v"],
];

/// Numbers at both ends of the range, and one that leads out of it.
pub const FAR: [[&str; 4]; 3] = [
    ["2147483647", "x", "3,2147483647", "x,y"],
    ["-2147483648", "x", "-2147483648,0", "y,x"],
    ["-1", "y", "-1,2147483647", "x,z"],
];

pub fn palette([number, text, numbers, texts]: [&str; 4]) -> Palette {
    ["-", "!", "true", "false", number, text, numbers, texts].map(str::to_owned)
}

/// Palettes for so many names, others for another turn.
pub fn meeting(names: usize, turn: usize) -> Vec<Palette> {
    let palettes = MEETING.iter().copied().cycle();
    palettes.skip(turn).take(names).map(palette).collect()
}

pub fn far(names: usize, turn: usize) -> Vec<Palette> {
    let palettes = FAR.iter().copied().cycle();
    palettes.skip(turn).take(names).map(palette).collect()
}

/// A row for each choice of one cell a name.
pub fn every_row(names: &[&str], palettes: &[Palette]) -> Table {
    let longer = |row: Vec<String>, palette: &Palette| {
        let cells = palette.clone();
        cells.map(|cell| [&row[..], &[cell]].concat())
    };
    let rows = palettes.iter().fold(vec![Vec::new()], |rows, palette| {
        rows.into_iter()
            .flat_map(|row| longer(row, palette))
            .collect()
    });
    let mut lines = vec![words(&names.join(" "))];
    lines.extend(rows.iter().map(|row| words(&row.join(" "))));
    Table { lines }
}

#[cfg(test)]
mod tests {
    use super::*;
    use crate::readings::parse;
    use std::collections::BTreeSet;

    #[test]
    fn every_choice_comes_once() {
        for turn in 0..5 {
            let table = every_row(&["a", "b", "c"], &meeting(3, turn));
            let readings = parse(&table.to_bytes()).unwrap();
            assert_eq!(readings.rows.len(), 512);
            let rows: BTreeSet<String> = readings.rows.iter().map(|r| format!("{r:?}")).collect();
            assert_eq!(rows.len(), 512);
        }
    }

    #[test]
    fn every_class_is_in_a_palette() {
        for palette in [meeting(5, 0), far(3, 1)].concat() {
            let table = every_row(&["a"], &[palette]);
            let readings = parse(&table.to_bytes()).unwrap();
            let letters: String = readings.rows.iter().map(|row| row[0].letter()).collect();
            assert_eq!(letters, "mxbbntNT");
        }
    }
}

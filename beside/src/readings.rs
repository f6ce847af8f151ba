//! The readings file: a line of names, then rows with one cell a name.

use crate::refusal::{Cause, Refusal};
use crate::spelling;
use crate::value::Value;

const MOST_NAMES: usize = 64;

#[derive(Clone, Debug, PartialEq, Eq)]
pub struct Readings {
    pub names: Vec<String>,
    pub rows: Vec<Vec<Value>>,
}

pub fn parse(file: &[u8]) -> Result<Readings, Refusal> {
    let (first, mut rest) = spelling::cut_line(file).ok_or(Refusal::of_file(Cause::Names))?;
    let names = parse_names(first)?;
    let mut rows = Vec::new();
    while !rest.is_empty() {
        let line = rows.len() + 1;
        let (row, below) =
            spelling::cut_line(rest).ok_or(Refusal::of_line(Cause::RowShape, line))?;
        rows.push(parse_row(row, line, names.len())?);
        rest = below;
    }
    Ok(Readings { names, rows })
}

fn parse_names(line: &[u8]) -> Result<Vec<String>, Refusal> {
    let words: Vec<&[u8]> = spelling::words(line).collect();
    // The count goes before the spelling of any one name.
    if words.len() > MOST_NAMES {
        return Err(Refusal::of_file(Cause::Names));
    }
    let mut names: Vec<String> = Vec::with_capacity(words.len());
    for (place, word) in words.iter().enumerate() {
        let fresh = spelling::name(word).filter(|name| !names.iter().any(|old| old == name));
        let name = fresh.ok_or(Refusal::at(Cause::Names, 0, place + 1))?;
        names.push(name.to_owned());
    }
    Ok(names)
}

fn parse_row(row: &[u8], line: usize, width: usize) -> Result<Vec<Value>, Refusal> {
    let cells: Vec<&[u8]> = spelling::words(row).collect();
    if cells.len() != width {
        return Err(Refusal::of_line(Cause::RowShape, line));
    }
    let value = |(place, cell): (usize, &&[u8])| {
        Value::of_cell(cell).ok_or(Refusal::at(Cause::Cell, line, place + 1))
    };
    cells.iter().enumerate().map(value).collect()
}

#[cfg(test)]
mod tests {
    use super::*;

    fn refused(file: &str) -> String {
        parse(file.as_bytes()).unwrap_err().to_string()
    }

    fn numbered_names(count: usize) -> String {
        let names: Vec<String> = (0..count).map(|number| format!("n{number}")).collect();
        names.join(" ")
    }

    #[test]
    fn rows_follow_the_names() {
        let readings = parse(b"sub/role res/valve\ngrower 4\n- !\n").unwrap();
        assert_eq!(readings.names, ["sub/role", "res/valve"]);
        assert_eq!(
            readings.rows[0],
            [Value::Text("grower".into()), Value::Number(4)]
        );
        assert_eq!(readings.rows[1], [Value::Missing, Value::Error]);
        assert!(parse(b"a\n").unwrap().rows.is_empty());
        assert!(parse((numbered_names(64) + "\n").as_bytes()).is_ok());
    }

    #[test]
    fn faults_of_the_names() {
        for file in ["", "a", "A", "a b a"] {
            assert_eq!(refused(file), "refused 8 1 0 0");
        }
        assert_eq!(refused("\n"), "refused 8 1 0 1");
        assert_eq!(refused("a  b\n"), "refused 8 1 0 2");
        assert_eq!(refused("a b a A\nx\n"), "refused 8 1 0 3");
        assert_eq!(refused("a A a\n"), "refused 8 1 0 2");
        assert_eq!(refused(&(numbered_names(65) + "\n")), "refused 8 1 0 0");
        assert_eq!(
            refused(&format!("A {}\n", numbered_names(64))),
            "refused 8 1 0 0"
        );
    }

    #[test]
    fn faults_of_rows_and_cells() {
        assert_eq!(refused("a b\n1 2\n1\n"), "refused 9 1 2 0");
        assert_eq!(refused("a b\n1 2 3\n"), "refused 9 1 1 0");
        assert_eq!(refused("a b\n1 2\nA 2"), "refused 9 1 2 0");
        assert_eq!(refused("a b\n\n"), "refused 9 1 1 0");
        assert_eq!(refused("a\n\n"), "refused 10 1 1 1");
        assert_eq!(refused("a b\n1 2\n1 02\n"), "refused 10 1 2 2");
        assert_eq!(refused("a b\nA B\nx\n"), "refused 10 1 1 1");
    }
}

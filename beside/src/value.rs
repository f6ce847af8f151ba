//! The values that a reading can have, and how a cell spells them.

use std::fmt;

use crate::spelling;

const SMALLEST_SET: usize = 2;
const LARGEST_SET: usize = 8;

#[derive(Clone, Debug, PartialEq, Eq)]
pub enum Value {
    Missing,
    Error,
    Boolean(bool),
    Number(i32),
    Text(String),
    Numbers(Vec<i32>),
    Texts(Vec<String>),
}

impl Value {
    /// The value a cell spells, or none if it is misspelt.
    pub fn of_cell(cell: &[u8]) -> Option<Value> {
        match cell {
            b"-" => Some(Value::Missing),
            b"!" => Some(Value::Error),
            b"true" => Some(Value::Boolean(true)),
            b"false" => Some(Value::Boolean(false)),
            _ if cell.contains(&b',') => Value::of_set(cell),
            _ => spelling::number(cell)
                .map(Value::Number)
                .or_else(|| owned_text(cell).map(Value::Text)),
        }
    }

    fn of_set(cell: &[u8]) -> Option<Value> {
        let members: Vec<&[u8]> = cell.split(|&byte| byte == b',').collect();
        if !(SMALLEST_SET..=LARGEST_SET).contains(&members.len()) {
            return None;
        }
        let numbers: Option<Vec<i32>> = members.iter().map(|word| spelling::number(word)).collect();
        if numbers.is_some() {
            return numbers.map(Value::Numbers);
        }
        let texts: Option<Vec<String>> = members.iter().map(|word| owned_text(word)).collect();
        texts.map(Value::Texts)
    }

    /// One letter for each sort of value.
    pub fn letter(&self) -> char {
        match self {
            Value::Missing => 'm',
            Value::Error => 'x',
            Value::Boolean(_) => 'b',
            Value::Number(_) => 'n',
            Value::Text(_) => 't',
            Value::Numbers(_) => 'N',
            Value::Texts(_) => 'T',
        }
    }

    /// The sum of the numbers this value holds.
    pub fn sum(&self) -> i64 {
        match self {
            Value::Number(number) => i64::from(*number),
            Value::Numbers(numbers) => numbers.iter().copied().map(i64::from).sum(),
            _ => 0,
        }
    }
}

impl fmt::Display for Value {
    /// Spelt as in a cell.
    fn fmt(&self, out: &mut fmt::Formatter<'_>) -> fmt::Result {
        match self {
            Value::Missing => out.write_str("-"),
            Value::Error => out.write_str("!"),
            Value::Boolean(boolean) => write!(out, "{boolean}"),
            Value::Number(number) => write!(out, "{number}"),
            Value::Text(text) => out.write_str(text),
            Value::Numbers(numbers) => {
                let members: Vec<String> = numbers.iter().map(i32::to_string).collect();
                out.write_str(&members.join(","))
            }
            Value::Texts(texts) => out.write_str(&texts.join(",")),
        }
    }
}

fn owned_text(word: &[u8]) -> Option<String> {
    spelling::text(word).map(str::to_owned)
}

#[cfg(test)]
mod tests {
    use super::*;

    fn letters(cells: &[&str]) -> String {
        let letter = |cell: &&str| Value::of_cell(cell.as_bytes()).map_or('?', |v| v.letter());
        cells.iter().map(letter).collect()
    }

    #[test]
    fn cells_spell_each_sort_of_value() {
        assert_eq!(
            letters(&["-", "!", "true", "false", "-7", "0", "grower"]),
            "mxbbnnt"
        );
        assert_eq!(
            letters(&["1,2", "a,b", "1,1", "a,a", "truee", "a-"]),
            "NTNTtt"
        );
        assert_eq!(letters(&["1,2,3,4,5,6,7,8", "a,b,c,d,e,f,g,h"]), "NT");
    }

    #[test]
    fn cells_are_spelt_as_they_were_read() {
        let cells = [
            "-", "!", "true", "false", "0", "-7", "roof", "1,1", "-5,0,7", "a,a", "b,a,x-9",
        ];
        for cell in cells {
            let value = Value::of_cell(cell.as_bytes()).unwrap();
            assert_eq!(value.to_string(), cell);
        }
    }

    #[test]
    fn misspelt_cells_have_no_value() {
        let cells = [
            "", "--", "!!", "-0", "01", "A", "a/b", "1,", ",1", ",", "1,a", "a,1",
        ];
        assert_eq!(letters(&cells), "?".repeat(cells.len()));
        let sets = [
            "true,a",
            "true,false",
            "1,-",
            "a,!",
            "1,2,3,4,5,6,7,8,9",
            "1,02",
        ];
        assert_eq!(letters(&sets), "?".repeat(sets.len()));
    }

    #[test]
    fn sums_do_not_wrap() {
        let set = Value::of_cell(b"2147483647,2147483647").unwrap();
        assert_eq!(set.sum(), 2 * i64::from(i32::MAX));
    }
}

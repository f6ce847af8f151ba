//! Where the values of names come from: a row of readings, a bank of sensors, or one source
//! before another.

use crate::value::Value;

pub const SENSORS: usize = 16;
const GOOD: u8 = 0;
const ABSENT: u8 = 2;

pub trait Source {
    fn value(&self, name: &str) -> Value;
}

/// One row of readings with the names above it.
#[derive(Clone, Copy, Debug)]
pub struct Row<'a> {
    pub names: &'a [String],
    pub cells: &'a [Value],
}

impl Source for Row<'_> {
    fn value(&self, name: &str) -> Value {
        let mut columns = self.names.iter().zip(self.cells);
        let column = columns.find(|(known, _)| *known == name);
        column.map_or(Value::Missing, |(_, cell)| cell.clone())
    }
}

#[derive(Clone, Debug, PartialEq, Eq)]
pub struct Sensor {
    pub name: String,
    pub number: i32,
    pub status: u8,
}

impl Sensor {
    /// What it measures, as far as its status lets that be known.
    fn value(&self) -> Value {
        match self.status {
            GOOD => Value::Number(self.number),
            ABSENT => Value::Missing,
            _ => Value::Error,
        }
    }
}

/// Sensors in their places; names may repeat.
#[derive(Clone, Debug, PartialEq, Eq)]
pub struct SensorBank {
    pub sensors: [Sensor; SENSORS],
}

impl Source for SensorBank {
    /// Of sensors with the same name, the lowest place counts, whatever its status is.
    fn value(&self, name: &str) -> Value {
        let sensor = self.sensors.iter().find(|sensor| sensor.name == name);
        sensor.map_or(Value::Missing, Sensor::value)
    }
}

/// The second source is asked only where the first has nothing.
#[derive(Clone, Copy, Debug)]
pub struct Before<'a, First, Second> {
    pub first: &'a First,
    pub second: &'a Second,
}

impl<First: Source, Second: Source> Source for Before<'_, First, Second> {
    fn value(&self, name: &str) -> Value {
        match self.first.value(name) {
            Value::Missing => self.second.value(name),
            found => found,
        }
    }
}

#[cfg(test)]
mod tests {
    use super::*;

    /// These sensors in the lowest places, and unused ones in the others.
    fn bank(sensors: &[(&str, i32, u8)]) -> SensorBank {
        let sensor = |place: usize| {
            let unused = ("unused", 0, 0);
            let (name, number, status) = *sensors.get(place).unwrap_or(&unused);
            Sensor {
                name: name.to_owned(),
                number,
                status,
            }
        };
        SensorBank {
            sensors: std::array::from_fn(sensor),
        }
    }

    #[test]
    fn the_status_of_a_sensor_comes_first() {
        for number in [0, 1, -1, i32::MAX, i32::MIN] {
            for status in 0..=255 {
                let expected = match status {
                    0 => Value::Number(number),
                    2 => Value::Missing,
                    _ => Value::Error,
                };
                assert_eq!(bank(&[("a", number, status)]).value("a"), expected);
            }
        }
    }

    #[test]
    fn the_lowest_place_counts() {
        let sensors = bank(&[
            ("a", 1, 2),
            ("b", 2, 1),
            ("c", 3, 0),
            ("a", 4, 0),
            ("b", 5, 0),
            ("c", 6, 2),
        ]);
        assert_eq!(sensors.value("a"), Value::Missing);
        assert_eq!(sensors.value("b"), Value::Error);
        assert_eq!(sensors.value("c"), Value::Number(3));
        assert_eq!(sensors.value("ab"), Value::Missing);
        assert_eq!(sensors.value("unused"), Value::Number(0));
    }

    #[test]
    fn the_second_source_stands_in_for_what_is_missing() {
        let names = ["a", "b", "c", "d"].map(str::to_owned);
        let cells = [
            Value::Missing,
            Value::Error,
            Value::Text("roof".into()),
            Value::Missing,
        ];
        let row = Row {
            names: &names,
            cells: &cells,
        };
        let sensors = bank(&[("a", 1, 0), ("b", 2, 0), ("c", 3, 3), ("e", 5, 0)]);
        let both = ["a", "b", "c", "d", "e", "f"].map(|name| {
            let (first, second) = (&row, &sensors);
            let forward = Before { first, second }.value(name);
            let (first, second) = (&sensors, &row);
            let backward = Before { first, second }.value(name);
            format!("{forward} {backward}")
        });
        assert_eq!(both, ["1 1", "! 2", "roof !", "- -", "5 5", "- -"]);
    }
}

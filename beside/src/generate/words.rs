//! Good words of every sort, now and then at the limit of what is allowed.

use super::random::Random;

/// What an expression or a reading is expected to give.
#[derive(Clone, Copy, Debug, PartialEq, Eq)]
pub enum Sort {
    Truth,
    Number,
    Text,
    Numbers,
    Texts,
}

pub const SORTS: [Sort; 5] = [
    Sort::Truth,
    Sort::Number,
    Sort::Text,
    Sort::Numbers,
    Sort::Texts,
];

/// Names that policies and readings share, so that lookups find something.
const KNOWN_NAMES: [(&str, Sort); 20] = [
    ("sub/role", Sort::Text),
    ("sub/name", Sort::Text),
    ("sub/groups", Sort::Texts),
    ("sub/level", Sort::Number),
    ("sub/trained", Sort::Truth),
    ("res/valve", Sort::Number),
    ("res/kind", Sort::Text),
    ("res/zones", Sort::Numbers),
    ("res/open", Sort::Truth),
    ("res/pressure", Sort::Number),
    ("env/hour", Sort::Number),
    ("env/frost", Sort::Truth),
    ("env/temp-2", Sort::Number),
    ("env/season", Sort::Text),
    ("env/closed-hours", Sort::Numbers),
    ("env/alarms", Sort::Texts),
    ("a", Sort::Number),
    ("z9-/", Sort::Text),
    ("true", Sort::Truth),
    ("a-name/of-just/24-bytes9", Sort::Number),
];

const KNOWN_TEXTS: [&str; 12] = [
    "grower",
    "picker",
    "guard",
    "owner",
    "spring",
    "winter",
    "roof",
    "a",
    "t-",
    "truee",
    "falsey",
    "sixteen-bytes-99",
];

const KNOWN_NUMBERS: [i32; 12] = [0, 1, -1, 2, 4, 7, 10, 100, -7, 101, i32::MAX, i32::MIN];

const LETTERS: &[u8] = b"abcdefghijklmnopqrstuvwxyz";
const TEXT_BYTES: &[u8] = b"abcdefghijklmnopqrstuvwxyz0123456789-";
const NAME_BYTES: &[u8] = b"abcdefghijklmnopqrstuvwxyz0123456789-/";

pub fn name(sort: Sort, random: &mut Random) -> String {
    if random.chance(8) {
        let length = random.between(1, 24);
        return spelled(length, NAME_BYTES, random);
    }
    let fitting: Vec<&str> = KNOWN_NAMES
        .iter()
        .filter(|known| known.1 == sort)
        .map(|known| known.0)
        .collect();
    random.pick(&fitting).to_owned()
}

/// The sort of value that this name usually has.
pub fn usual_sort(name: &str, random: &mut Random) -> Sort {
    let known = KNOWN_NAMES.iter().find(|known| known.0 == name);
    known.map_or_else(|| random.pick(&SORTS), |known| known.1)
}

pub fn text(random: &mut Random) -> String {
    let length = random.between(1, 16);
    match random.below(10) {
        0..=7 => random.pick(&KNOWN_TEXTS).to_owned(),
        8 => spelled(16, TEXT_BYTES, random),
        _ => spelled(length, TEXT_BYTES, random),
    }
}

pub fn number(random: &mut Random) -> String {
    let number = match random.below(10) {
        0..=4 => random.pick(&KNOWN_NUMBERS),
        5..=8 => random.between(0, 400) as i32 - 200,
        _ => random.number(),
    };
    number.to_string()
}

fn spelled(length: usize, bytes: &[u8], random: &mut Random) -> String {
    let mut word = String::from(char::from(random.pick(LETTERS)));
    while word.len() < length {
        word.push(char::from(random.pick(bytes)));
    }
    // Very unlikely, but it would spoil a good file.
    match word.as_str() {
        "true" | "false" => "chosen".to_owned(),
        _ => word,
    }
}

/// A cell that mostly holds a value of the expected sort.
pub fn cell(sort: Sort, random: &mut Random) -> String {
    let sort = if random.chance(8) {
        random.pick(&SORTS)
    } else {
        sort
    };
    match random.below(14) {
        0 => "-".to_owned(),
        1 => "!".to_owned(),
        _ => value(sort, random),
    }
}

fn value(sort: Sort, random: &mut Random) -> String {
    match sort {
        Sort::Truth => random.pick(&["true", "false"]).to_owned(),
        Sort::Number => number(random),
        Sort::Text => text(random),
        Sort::Numbers => set(number, random),
        Sort::Texts => set(text, random),
    }
}

fn set(member: impl Fn(&mut Random) -> String, random: &mut Random) -> String {
    let size = match random.below(5) {
        0 => 8,
        1 => random.between(3, 7),
        _ => random.between(2, 3),
    };
    let members: Vec<String> = (0..size).map(|_| member(random)).collect();
    members.join(",")
}

#[cfg(test)]
mod tests {
    use super::*;
    use crate::spelling;
    use crate::value::Value;

    #[test]
    fn every_word_is_well_spelt() {
        let mut random = Random::new(1);
        for _ in 0..2_000 {
            let sort = random.pick(&SORTS);
            assert!(spelling::name(name(sort, &mut random).as_bytes()).is_some());
            assert!(spelling::text(text(&mut random).as_bytes()).is_some());
            assert!(spelling::number(number(&mut random).as_bytes()).is_some());
            assert!(Value::of_cell(cell(sort, &mut random).as_bytes()).is_some());
        }
    }
}

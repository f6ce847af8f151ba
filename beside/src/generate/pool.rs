//! A small stock of names, texts and numbers for one case, so that its policy and its
//! readings often meet.

use super::cells::push_new;
use super::random::Random;
use super::table::Table;
use super::words::{self, Sort, SORTS};

const STOCK: usize = 4;

/// Numbers whose sums and products leave the range soon.
const FAR_NUMBERS: [i32; 8] = [
    i32::MAX,
    i32::MAX - 1,
    i32::MIN,
    i32::MIN + 1,
    46_341,
    -46_341,
    65_536,
    1_073_741_824,
];

pub struct Pool {
    names: Vec<(String, Sort)>,
    texts: Vec<String>,
    numbers: Vec<String>,
}

impl Pool {
    pub fn new(random: &mut Random) -> Pool {
        let plain = [Sort::Truth, Sort::Truth, Sort::Number, Sort::Text];
        let mut names: Vec<(String, Sort)> = Vec::new();
        let short = random.chance(75);
        for sort in SORTS.into_iter().chain(plain) {
            let name = match short {
                true => short_name(sort, random).to_owned(),
                false => words::name(sort, random),
            };
            if names.iter().all(|known| known.0 != name) {
                names.push((name, sort));
            }
        }
        Pool {
            names,
            texts: (0..STOCK).map(|_| words::text(random)).collect(),
            numbers: (0..STOCK).map(|_| number(random)).collect(),
        }
    }

    /// Mostly one of the stock; others are seldom in the readings.
    pub fn name(&self, sort: Sort, random: &mut Random) -> String {
        let fitting: Vec<&str> = self
            .names
            .iter()
            .filter(|known| known.1 == sort)
            .map(|known| known.0.as_str())
            .collect();
        match random.pick_any(&fitting) {
            Some(name) if random.chance(96) => name.to_owned(),
            _ => words::name(sort, random),
        }
    }

    pub fn text(&self, random: &mut Random) -> String {
        self.texts[random.below(STOCK)].clone()
    }

    pub fn number(&self, random: &mut Random) -> String {
        match random.chance(80) {
            true => self.numbers[random.below(STOCK)].clone(),
            false => number(random),
        }
    }

    /// Readings with most of the names that the policy asks for, in any order.
    pub fn readings(&self, policy: &Table, rows: usize, random: &mut Random) -> Table {
        let mut names = policy.names();
        names.retain(|_| random.chance(93));
        if names.is_empty() || random.chance(15) {
            push_new(&mut names, words::name(random.pick(&SORTS), random));
        }
        for place in 1..names.len() {
            names.swap(place, random.below(place + 1));
        }
        let sorts: Vec<Sort> = names.iter().map(|name| self.sort(name, random)).collect();
        let mut lines = vec![names.into_iter().map(String::into_bytes).collect()];
        for _ in 0..rows {
            let cells = sorts.iter().map(|&sort| self.cell(sort, random));
            lines.push(cells.map(String::into_bytes).collect());
        }
        Table { lines }
    }

    /// A cell of the sort that this name mostly has.
    pub fn usual_cell(&self, name: &str, random: &mut Random) -> String {
        let sort = self.sort(name, random);
        self.cell(sort, random)
    }

    fn sort(&self, name: &str, random: &mut Random) -> Sort {
        let known = self.names.iter().find(|known| known.0 == name);
        known.map_or_else(|| words::usual_sort(name, random), |known| known.1)
    }

    fn cell(&self, sort: Sort, random: &mut Random) -> String {
        match random.below(100) {
            0..=5 => "-".to_owned(),
            6..=9 => "!".to_owned(),
            10..=13 => self.value(random.pick(&SORTS), random),
            _ => self.value(sort, random),
        }
    }

    fn value(&self, sort: Sort, random: &mut Random) -> String {
        let size = random.pick(&[2, 2, 2, 3, 3, 8]);
        let members = |member: fn(&Pool, &mut Random) -> String, random: &mut Random| {
            let members: Vec<String> = (0..size).map(|_| member(self, random)).collect();
            members.join(",")
        };
        match sort {
            Sort::Truth => random
                .pick(&["true", "true", "true", "false", "false"])
                .to_owned(),
            Sort::Number => self.number(random),
            Sort::Text => self.text(random),
            Sort::Numbers => members(Pool::number, random),
            Sort::Texts => members(Pool::text, random),
        }
    }
}

/// Many names are short, to leave the bytes to more lines.
fn short_name(sort: Sort, random: &mut Random) -> &'static str {
    random.pick(match sort {
        Sort::Truth => &["t", "u", "ok"],
        Sort::Number => &["n", "m", "n0"],
        Sort::Text => &["s", "r", "s/t"],
        Sort::Numbers => &["ns", "n-", "n/"],
        Sort::Texts => &["ss", "s-", "s/"],
    })
}

fn number(random: &mut Random) -> String {
    match random.below(10) {
        0..=5 => (random.between(0, 18) as i32 - 9).to_string(),
        6 | 7 => random.pick(&FAR_NUMBERS).to_string(),
        _ => words::number(random),
    }
}

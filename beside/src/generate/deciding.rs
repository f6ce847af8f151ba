//! Which cases about decisions are made, and how many of each sort.

use super::judged::Style;
use super::nodes::Nodes;
use super::pool::Pool;
use super::random::Random;
use super::table::Table;
use super::{children, combinings, extremes, judged, operands, Case, EFFECTS, FORCES};
use crate::{deciding, trial};

const SEED: u64 = 9_120_077;
const GROWN: usize = 1_280;
const CROWDS: usize = 150;
const FORMULAS: usize = 650;
/// Of how many policies the most telling one is taken.
const CHOICE: usize = 3;
const MOST_ROWS: usize = 6;
const MOST_NAMES: usize = 64;

/// All cases about decisions; each is accepted.
pub fn cases() -> Vec<Case> {
    let random = &mut Random::new(SEED);
    [
        operands::cases(random),
        children::cases(random),
        lookups(random),
        grown(random),
        crowds(random),
        formulas(random),
        extremes::cases(random),
    ]
    .concat()
}

/// Policies of every smaller size, the ways of combining at their root in turn.
fn grown(random: &mut Random) -> Vec<Case> {
    let size = |random: &mut Random| match random.below(20) {
        0 => random.between(2, 4),
        1..=13 => random.between(5, 22),
        14..=18 => random.between(20, 36),
        _ => random.between(36, 64),
    };
    chosen(GROWN, size, judged::MIXED, random)
}

/// Sets with many items, and duties in long chains.
fn crowds(random: &mut Random) -> Vec<Case> {
    let size = |random: &mut Random| random.between(24, 64);
    chosen(CROWDS, size, judged::CROWDS, random)
}

/// Policies with few rules but many operators.
fn formulas(random: &mut Random) -> Vec<Case> {
    let size = |random: &mut Random| random.between(16, 56);
    chosen(FORMULAS, size, judged::FORMULAS, random)
}

fn chosen(
    count: usize,
    size: impl Fn(&mut Random) -> usize,
    style: Style,
    random: &mut Random,
) -> Vec<Case> {
    let combinings = combinings();
    let mut cases = Vec::new();
    for round in 0..count {
        let lines = size(random);
        let combining = &combinings[round % combinings.len()];
        let choice = [(); CHOICE].map(|()| one_grown(lines, combining, style, random));
        cases.extend(choice.into_iter().max_by_key(telling_rows));
    }
    cases
}

fn one_grown(lines: usize, combining: &str, style: Style, random: &mut Random) -> Case {
    let pool = Pool::new(random);
    let policy = judged::policy(lines, combining, style, &pool, random);
    let rows = random.between(1, MOST_ROWS);
    Case {
        policy: policy.to_bytes(),
        readings: pool.readings(&policy, rows, random).to_bytes(),
    }
}

/// How many rows get a response with duties, which tells the most about how it came about.
fn telling_rows(case: &Case) -> usize {
    let Ok((policy, readings)) = trial::check(&case.policy, &case.readings) else {
        return 0;
    };
    deciding::judgements(&policy, &readings)
        .filter(|judgement| !judgement.response().duties.is_empty())
        .count()
}

/// Tables whose names are hard to tell apart, and rules that ask for every one of them.
fn lookups(random: &mut Random) -> Vec<Case> {
    let short = |place: usize| format!("n{place}");
    let long = |place: usize| format!("a-name/of-just/24-bytes{}", letter(place));
    let nested = |place: usize| format!("n{}", "/n".repeat(place));
    vec![
        lookup(MOST_NAMES, short, random),
        lookup(MOST_NAMES - 1, short, random),
        lookup(26, long, random),
        lookup(11, nested, random),
        lookup(2, long, random),
        lookup(1, short, random),
    ]
}

fn letter(place: usize) -> char {
    char::from(b'a' + place as u8)
}

/// Each cell is the number of its column, and each duty tells one of them.
fn lookup(names: usize, name: impl Fn(usize) -> String, random: &mut Random) -> Case {
    let mut nodes = Nodes::default();
    let duty = (0..names).fold(None, |earlier, place| {
        let argument = nodes.leaf("attr", &name(place));
        Some(nodes.duty(random.pick(&FORCES), place % 16, argument, earlier))
    });
    let target = nodes.leaf("true", "-");
    nodes.rule(random.pick(&EFFECTS), target, duty);
    let bytes = |word: String| word.into_bytes();
    let row = |from: usize| (from..from + names).map(|n| bytes(n.to_string())).collect();
    let header = (0..names).map(|place| bytes(name(place))).collect();
    let readings = Table {
        lines: vec![header, row(0), row(100)],
    };
    Case {
        policy: nodes.written(false, random).to_bytes(),
        readings: readings.to_bytes(),
    }
}

#[cfg(test)]
mod tests;

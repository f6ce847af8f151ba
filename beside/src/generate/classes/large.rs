//! Larger policies, each of whose names goes through all classes while the others are at random.

use super::palette::{self, Palette, CLASSES};
use crate::generate::judged::{self, Style};
use crate::generate::pool::Pool;
use crate::generate::random::Random;
use crate::generate::table::{words, Table};
use crate::generate::{combinings, Case};

const POLICIES: usize = 200;
const FEWEST_NAMES: usize = 4;
const MOST_NAMES: usize = 8;
const STYLES: [Style; 3] = [judged::MIXED, judged::CROWDS, judged::FORMULAS];

pub fn cases(random: &mut Random) -> Vec<Case> {
    let combinings = combinings();
    let case = |round: usize| {
        let style = STYLES[round % STYLES.len()];
        one_grown(&combinings[round % combinings.len()], style, random)
    };
    (0..POLICIES).map(case).collect()
}

/// The first policy that asks for names enough, and not for too many.
fn one_grown(combining: &str, style: Style, random: &mut Random) -> Case {
    loop {
        let pool = Pool::new(random);
        let lines = random.between(18, 56);
        let policy = judged::policy(lines, combining, style, &pool, random);
        let names = policy.names();
        if (FEWEST_NAMES..=MOST_NAMES).contains(&names.len()) {
            return Case {
                policy: policy.to_bytes(),
                readings: readings(&policy, &names, &pool, random).to_bytes(),
            };
        }
    }
}

/// For each name a row of each class.
fn readings(policy: &Table, names: &[String], pool: &Pool, random: &mut Random) -> Table {
    let numbers = policy.words_of("num");
    let texts = policy.words_of("text");
    let mut lines = vec![words(&names.join(" "))];
    for place in 0..names.len() {
        for class in 0..CLASSES {
            let wild = random.chance(35);
            let cell = |(other, name): (usize, &String)| {
                let mut fresh = || met(&numbers, &texts, pool, random);
                match (other == place, wild) {
                    (true, _) => fresh()[class].clone(),
                    (false, true) => {
                        let cells = fresh();
                        cells[random.below(CLASSES)].clone()
                    }
                    (false, false) => pool.usual_cell(name, random),
                }
            };
            let cells: Vec<String> = names.iter().enumerate().map(cell).collect();
            lines.push(words(&cells.join(" ")));
        }
    }
    Table { lines }
}

/// Cells with constants of the policy, or else with words of the stock.
fn met(numbers: &[String], texts: &[String], pool: &Pool, random: &mut Random) -> Palette {
    let number = |random: &mut Random| match numbers.is_empty() || random.chance(50) {
        true => pool.number(random),
        false => numbers[random.below(numbers.len())].clone(),
    };
    let text = |random: &mut Random| match texts.is_empty() || random.chance(50) {
        true => pool.text(random),
        false => texts[random.below(texts.len())].clone(),
    };
    let pair = |first: String, second: String| format!("{first},{second}");
    palette::palette([
        &number(random),
        &text(random),
        &pair(number(random), number(random)),
        &pair(text(random), text(random)),
    ])
}

//! Policies in front of readings of every class, so that each of them meets each way in which a
//! value can fit or not fit.

mod draft;
mod formulas;
mod large;
mod nested;
mod palette;
mod rules;
mod sets;
mod triples;

use super::random::Random;
use super::Case;

const SEED: u64 = 7_310_551;

/// All of these cases; each is accepted.
pub fn cases() -> Vec<Case> {
    let random = &mut Random::new(SEED);
    [
        rules::cases(random),
        formulas::cases(random),
        sets::cases(random),
        triples::cases(random),
        nested::cases(random),
        large::cases(random),
    ]
    .concat()
}

#[cfg(test)]
mod tests;

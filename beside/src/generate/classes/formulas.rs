//! Operators over readings of every class, as targets and as arguments of duties.

use super::draft::{case, far_case, Draft};
use super::palette::FAR;
use crate::generate::random::Random;
use crate::generate::{Case, EFFECTS};
use crate::line::Operator;

const CONSTANTS: usize = 4;
const NUMERIC: [&str; 5] = ["greater", "add", "sub", "mul", "div"];
/// How many formulas there are of three names.
const LARGER: usize = 16;

/// What becomes of a value.
#[derive(Clone, Copy, Debug)]
enum Use {
    Target,
    /// Its `not` is the target.
    Denied,
    /// A duty of a rule that always applies.
    Argument,
}

const USES: [Use; 3] = [Use::Target, Use::Denied, Use::Argument];

pub fn cases(random: &mut Random) -> Vec<Case> {
    let mut cases = nots(random);
    for operator in Operator::ALL.map(Operator::word) {
        cases.extend(over_names(operator, random));
        cases.extend(over_constants(operator, random));
    }
    for operator in NUMERIC {
        for turn in 0..FAR.len() {
            cases.push(far_case(turn, random, |draft| {
                let value = over(draft, operator, [0, 1]);
                used(draft, Use::Argument, value);
            }));
        }
    }
    cases.extend((0..LARGER).map(|round| larger(round, random)));
    cases
}

/// One to three times `not`.
fn nots(random: &mut Random) -> Vec<Case> {
    let mut cases = Vec::new();
    for depth in 1..=3 {
        for usage in USES {
            cases.push(case(depth, random, |draft| {
                let name = draft.attr(0);
                let value = (0..depth).fold(name, |inner, _| draft.nodes.over("not", &[inner]));
                used(draft, usage, value);
            }));
        }
    }
    cases
}

/// Both sides are readings: of two names in either order, or of one.
fn over_names(operator: &str, random: &mut Random) -> Vec<Case> {
    let mut cases = Vec::new();
    for usage in USES {
        for (turn, sides) in [[0, 1], [1, 0], [0, 1], [0, 1], [0, 0]]
            .into_iter()
            .enumerate()
        {
            cases.push(case(turn, random, |draft| {
                let value = over(draft, operator, sides);
                used(draft, usage, value);
            }));
        }
    }
    cases
}

/// One side is a constant, on the left and on the right.
fn over_constants(operator: &str, random: &mut Random) -> Vec<Case> {
    let mut cases = Vec::new();
    for sort in 0..CONSTANTS {
        for usage in [Use::Target, Use::Argument] {
            for left in [true, false] {
                let turn = random.below(5);
                cases.push(case(turn, random, |draft| {
                    let mut sides = [draft.attr(0), draft.constant(sort)];
                    if left {
                        sides.reverse();
                    }
                    let value = draft.nodes.over(operator, &sides);
                    used(draft, usage, value);
                }));
            }
        }
    }
    cases
}

/// An operator over another, and over three names in all.
fn larger(round: usize, random: &mut Random) -> Case {
    let words = Operator::ALL.map(Operator::word);
    let connectives = ["and", "or", "equal"];
    case(round, random, |draft| {
        let (outer, inner) = match round % 2 {
            0 => (draft.random.pick(&connectives), draft.random.pick(&words)),
            _ => (draft.random.pick(&words), draft.random.pick(&words)),
        };
        let mut sides = [over(draft, inner, [0, 1]), draft.attr(2)];
        if draft.random.chance(50) {
            sides.reverse();
        }
        let value = draft.nodes.over(outer, &sides);
        used(draft, USES[round % 3], value);
    })
}

fn over(draft: &mut Draft<'_>, operator: &str, sides: [usize; 2]) -> usize {
    let sides = sides.map(|place| draft.attr(place));
    draft.nodes.over(operator, &sides)
}

/// A rule that uses the value in this way.
fn used(draft: &mut Draft<'_>, usage: Use, value: usize) {
    let effect = draft.random.pick(&EFFECTS);
    let (target, duty) = match usage {
        Use::Target => (value, draft.some_duties(1, 1)),
        Use::Denied => (draft.nodes.over("not", &[value]), None),
        Use::Argument => (draft.always(), draft.duty(value, None)),
    };
    draft.nodes.rule(effect, target, duty);
}

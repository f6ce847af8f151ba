//! Rules whose targets and duties are readings as they are.

use super::draft::{case, Argument, Draft};
use crate::generate::random::Random;
use crate::generate::{Case, EFFECTS, FORCES};
use Argument::{Constant, Name};

/// Duties about one name and constants.
const OF_ONE: [&[Argument]; 7] = [
    &[],
    &[Constant],
    &[Name(0)],
    &[Name(0), Constant],
    &[Constant, Name(0)],
    &[Name(0), Name(0)],
    &[Constant, Name(0), Constant],
];

/// Duties of a rule whose target is the first name.
const OF_SEVERAL: [&[Argument]; 6] = [
    &[Name(1)],
    &[Name(0), Name(1)],
    &[Name(1), Constant],
    &[Name(1), Name(0), Name(1)],
    &[Constant, Constant, Name(1), Constant],
    &[Name(1), Name(1), Name(1), Name(1), Name(1)],
];

/// Two duties about different names.
const OF_OTHERS: [&[Argument]; 2] = [&[Name(1), Name(2)], &[Name(2), Constant, Name(1)]];

pub fn cases(random: &mut Random) -> Vec<Case> {
    let mut cases = Vec::new();
    for effect in EFFECTS {
        cases.extend(single_duties(effect, random));
        for (turn, duties) in OF_ONE.into_iter().enumerate() {
            cases.push(case(turn, random, |draft| {
                draft.rule(effect, 0, duties);
            }));
            cases.push(case(turn, random, |draft| always(draft, effect, duties)));
        }
        for sort in 0..4 {
            cases.push(case(sort, random, |draft| constant(draft, effect, sort)));
        }
        for duties in [&OF_SEVERAL[..], &OF_OTHERS].concat() {
            let turn = random.below(5);
            cases.push(case(turn, random, |draft| {
                draft.rule(effect, 0, duties);
            }));
        }
    }
    cases
}

/// A duty of each force about the name.
fn single_duties(effect: &str, random: &mut Random) -> Vec<Case> {
    let one = |(turn, force): (usize, &str)| {
        case(turn, random, |draft| {
            let argument = draft.attr(0);
            let duty = draft.nodes.duty(force, 3 + turn, argument, None);
            let target = draft.always();
            draft.nodes.rule(effect, target, Some(duty));
        })
    };
    FORCES.into_iter().enumerate().map(one).collect()
}

fn always(draft: &mut Draft<'_>, effect: &str, duties: &[Argument]) {
    let duty = draft.chain(duties);
    let target = draft.always();
    draft.nodes.rule(effect, target, duty);
}

/// A rule whose target is no reading.
fn constant(draft: &mut Draft<'_>, effect: &str, sort: usize) {
    let duty = draft.chain(&[Name(0)]);
    let target = draft.constant(sort);
    draft.nodes.rule(effect, target, duty);
}

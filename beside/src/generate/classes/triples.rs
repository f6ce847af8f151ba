//! Sets of three policies, each of which comes to all four decisions by the class of one reading.

use super::draft::{case, Argument, Draft};
use crate::generate::random::Random;
use crate::generate::{combinings, Case};

/// Combinings under which a permit, a deny and an indet are each heard beside a not-app.
const HEARING: [&str; 10] = [
    "p-over.all",
    "p-over.greedy",
    "d-over.all",
    "d-over.greedy",
    "first-app.all",
    "first-app.greedy",
    "one-app.all",
    "one-app.greedy",
    "weak-con.all",
    "weak-con.greedy",
];
const SHAPES: usize = 3;

pub fn cases(random: &mut Random) -> Vec<Case> {
    let mut cases = Vec::new();
    for (round, combining) in combinings().iter().enumerate() {
        for bound in [false, true] {
            cases.push(case(round, random, |draft| {
                let policies = [0, 1, 2].map(|place| policy(draft, round + place, place));
                let target = draft.always();
                let duties = match bound {
                    // All decisions of the combining can be seen.
                    false => [(); 2].map(|()| draft.chain(&[Argument::Constant])),
                    true => [0, 1].map(|place| draft.chain(&[Argument::Name(place)])),
                };
                draft.set(combining, target, &policies, duties);
            }));
        }
    }
    cases
}

/// A policy about one name that can be permit, deny, not-app and indet.
fn policy(draft: &mut Draft<'_>, shape: usize, place: usize) -> usize {
    match shape % SHAPES {
        0 => opposed(draft, place),
        1 => absorbing(draft, "d-unless-p", "permit", place),
        _ => absorbing(draft, "p-unless-d", "deny", place),
    }
}

/// Permit where the reading is true, deny where it is false, not-app where it is missing, and
/// indet everywhere else.
fn opposed(draft: &mut Draft<'_>, place: usize) -> usize {
    let permit = draft.rule("permit", place, &[Argument::Name(place)]);
    let name = draft.attr(place);
    let target = draft.nodes.over("not", &[name]);
    let deny = draft.nodes.rule("deny", target, None);
    let target = draft.always();
    let combining = draft.random.pick(&HEARING);
    draft.set(combining, target, &[permit, deny], [None; 2])
}

/// This effect where the reading is true, the other one for every other single thing, not-app
/// where it is missing, and indet where it is an error or a set.
fn absorbing(draft: &mut Draft<'_>, algorithm: &str, effect: &str, place: usize) -> usize {
    let rule = draft.rule(effect, place, &[Argument::Constant]);
    // Whatever equals itself is a single thing, and a known one.
    let sides = [(); 2].map(|()| draft.attr(place));
    let target = draft.nodes.over("equal", &sides);
    let strategy = draft.random.pick(&["all", "greedy"]);
    let combining = format!("{algorithm}.{strategy}");
    draft.set(&combining, target, &[rule], [None; 2])
}

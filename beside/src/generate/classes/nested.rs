//! Sets below sets, with an algorithm of its own at each level.

use super::draft::{case, Argument, Draft};
use crate::generate::random::Random;
use crate::generate::{combinings, Case, EFFECTS};
use crate::line::Algorithm;

/// How many sets there are of three levels and more.
const DEEPER: usize = 48;

pub fn cases(random: &mut Random) -> Vec<Case> {
    let mut cases = Vec::new();
    for (round, outer) in Algorithm::ALL.into_iter().enumerate() {
        for inner in Algorithm::ALL {
            for turn in 0..2 {
                cases.push(case(round + turn, random, |draft| {
                    let [outer, inner] = [outer, inner].map(|one| spelled(one, draft.random));
                    two_levels(draft, &outer, &inner, turn == 0);
                }));
            }
        }
    }
    cases.extend((0..DEEPER).map(|round| deeper(round, random)));
    cases
}

fn spelled(algorithm: Algorithm, random: &mut Random) -> String {
    let strategy = random.pick(&["all", "greedy"]);
    format!("{}.{strategy}", algorithm.word())
}

/// A set with duties of its own before or after a rule.
fn two_levels(draft: &mut Draft<'_>, outer: &str, inner: &str, first: bool) {
    let below = level(draft, inner, &[]);
    let effect = draft.random.pick(&EFFECTS);
    let place = draft.random.below(2);
    let rule = draft.rule(effect, place, &[Argument::Constant]);
    let policies = match first {
        true => [below, rule],
        false => [rule, below],
    };
    let target = draft.always();
    let duties = [(); 2].map(|()| draft.some_duties(1, 2));
    draft.set(outer, target, &policies, duties);
}

/// Three to five levels, each with another rule.
fn deeper(round: usize, random: &mut Random) -> Case {
    let combinings = combinings();
    case(round, random, |draft| {
        let mut below = Vec::new();
        for level_number in 0..3 + round % 3 {
            let place = (7 * round + 5 * level_number) % combinings.len();
            below = vec![level(draft, &combinings[place], &below)];
        }
    })
}

/// A set of two rules, or of these policies and a rule in front or behind.
fn level(draft: &mut Draft<'_>, combining: &str, below: &[usize]) -> usize {
    let mut policies = below.to_vec();
    while policies.len() < 2 {
        let effect = draft.random.pick(&EFFECTS);
        let duty = draft.some_duties(2, 2);
        let target = draft.attr((policies.len() + 1) % 2);
        let rule = draft.nodes.rule(effect, target, duty);
        let place = draft.random.below(policies.len() + 1);
        policies.insert(place, rule);
    }
    let target = match draft.random.below(4) {
        0 => {
            let place = draft.random.below(2);
            draft.attr(place)
        }
        _ => draft.always(),
    };
    let duties = [(); 2].map(|()| draft.some_duties(2, 2));
    draft.set(combining, target, &policies, duties)
}

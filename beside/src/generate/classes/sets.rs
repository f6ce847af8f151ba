//! Sets of one to six rules about readings of every class, combined in every way.

use super::draft::{case, Argument, Draft};
use crate::generate::random::Random;
use crate::generate::{combinings, Case, EFFECTS};

pub fn cases(random: &mut Random) -> Vec<Case> {
    let mut cases = Vec::new();
    for (round, combining) in combinings().iter().enumerate() {
        for effect in EFFECTS {
            cases.push(case(round, random, |draft| one(draft, combining, effect)));
            cases.push(case(round, random, |draft| bound(draft, combining, effect)));
        }
        for effects in 0..4 {
            let turn = round + effects;
            cases.push(case(turn, random, |draft| two(draft, combining, effects)));
        }
        cases.push(case(round, random, |draft| three(draft, combining, round)));
        for rules in [4, 6] {
            cases.push(case(round, random, |draft| many(draft, combining, rules)));
        }
    }
    cases
}

/// One rule, with the name in the set's target too.
fn one(draft: &mut Draft<'_>, combining: &str, effect: &str) {
    let rule = draft.rule(effect, 1, &[]);
    let target = draft.attr(0);
    let duties = [(); 2].map(|()| draft.some_duties(2, 2));
    draft.set(combining, target, &[rule], duties);
}

/// One rule that applies, and a duty of the set for either decision.
fn bound(draft: &mut Draft<'_>, combining: &str, effect: &str) {
    let always = draft.always();
    let rule = draft.nodes.rule(effect, always, None);
    let target = draft.always();
    let duties = [0, 1].map(|place| draft.chain(&[Argument::Name(place)]));
    draft.set(combining, target, &[rule], duties);
}

/// Two rules of these effects, with duties of the set for none, one or both decisions.
fn two(draft: &mut Draft<'_>, combining: &str, effects: usize) {
    let rules = [0, 1].map(|place| {
        let duties: &[Argument] = match draft.random.below(3) {
            0 => &[],
            1 => &[Argument::Constant],
            _ => &[Argument::Name(1)],
        };
        draft.rule(effect(effects, place), place, duties)
    });
    let target = match effects {
        0 => draft.attr(0),
        _ => draft.always(),
    };
    let own = draft.random.below(4);
    let duties = [1, 2].map(|side| match own & side {
        0 => None,
        _ => draft.chain(&[Argument::Constant, Argument::Name(side - 1)]),
    });
    draft.set(combining, target, &rules, duties);
}

/// Three rules about three names, each with a duty about the next name.
fn three(draft: &mut Draft<'_>, combining: &str, effects: usize) {
    let rules = [0, 1, 2].map(|place| {
        let duties: &[Argument] = match draft.random.chance(60) {
            true => &[Argument::Name((place + 1) % 3)],
            false => &[],
        };
        draft.rule(effect(effects, place), place, duties)
    });
    let target = draft.always();
    let duties = [(); 2].map(|()| draft.some_duties(2, 3));
    draft.set(combining, target, &rules, duties);
}

/// More rules than there are names.
fn many(draft: &mut Draft<'_>, combining: &str, rules: usize) {
    let main = draft.random.below(EFFECTS.len());
    let rules: Vec<usize> = (0..rules)
        .map(|place| {
            let contrary = usize::from(draft.random.chance(40));
            let effect = EFFECTS[(main + contrary) % EFFECTS.len()];
            let duty = draft.some_duties(3, 2);
            let target = target(draft, place);
            draft.nodes.rule(effect, target, duty)
        })
        .collect();
    let target = draft.always();
    let duties = [(); 2].map(|()| draft.some_duties(2, 2));
    draft.set(combining, target, &rules, duties);
}

/// A test of one of two names.
fn target(draft: &mut Draft<'_>, place: usize) -> usize {
    let name = draft.attr(place % 2);
    match draft.random.below(4) {
        0 => draft.nodes.over("not", &[name]),
        1 => {
            let sort = draft.random.below(4);
            let sides = [name, draft.constant(sort)];
            draft.nodes.over("equal", &sides)
        }
        _ => name,
    }
}

/// The effect of the rule in this place, one binary digit for each.
fn effect(effects: usize, place: usize) -> &'static str {
    EFFECTS[(effects >> place) % EFFECTS.len()]
}

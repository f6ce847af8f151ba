//! Damage to the tree itself: lines that nobody names, and a last line that is no policy.

use super::fields::{self, Role};
use super::random::Random;
use super::table::{words, Table};

const STRAYS: [&str; 6] = [
    "true - - - - -",
    "false - - - - -",
    "num 0 - - - -",
    "text stray - - - -",
    "attr stray - - - -",
    "num -2147483648 - - - -",
];

pub fn spoil(policy: &mut Table, random: &mut Random) {
    match random.below(6) {
        0 => insert_stray(policy, random),
        1 => {
            insert_stray(policy, random);
            insert_stray(policy, random);
        }
        2 => add_last(policy, random),
        3 => wrap_last(policy),
        4 => {
            insert_stray(policy, random);
            wrap_last(policy);
        }
        _ => drop_optional(policy, random),
    }
}

/// Puts a line that nobody names above the last, and counts the lines below it anew.
pub fn insert_stray(policy: &mut Table, random: &mut Random) {
    let place = random.between(1, policy.last());
    for line in 1..=policy.last() {
        let Some(roles) = fields::roles(policy, line) else {
            continue;
        };
        for (word, role) in policy.lines[line].iter_mut().zip(roles) {
            let number = String::from_utf8_lossy(word).parse::<usize>();
            if let (true, Ok(number)) = (role.names_a_line(), number) {
                *word = (number + usize::from(number >= place))
                    .to_string()
                    .into_bytes();
            }
        }
    }
    policy.lines.insert(place, words(random.pick(&STRAYS)));
}

/// A second root below the first, so that both the old one and the new one may be at fault.
fn add_last(policy: &mut Table, random: &mut Random) {
    policy.lines.push(words(random.pick(&STRAYS)));
}

/// Every line is named, but the last is an item.
fn wrap_last(policy: &mut Table) {
    let item = format!("item {} - - - -", policy.last());
    policy.lines.push(words(&item));
}

/// Leaves out a naming that a line could do without.
fn drop_optional(policy: &mut Table, random: &mut Random) {
    let mut places = Vec::new();
    for line in 1..=policy.last() {
        let roles = fields::roles(policy, line).unwrap_or([Role::Unused; 6]);
        let optional = |field: &usize| matches!(roles[*field], Role::LineOrNone(_));
        places.extend((0..6).filter(optional).map(|field| (line, field)));
    }
    // Earlier damage may have left a line too short to have the field at all.
    places.retain(|&(line, field)| {
        policy.lines[line]
            .get(field)
            .is_some_and(|word| word != b"-")
    });
    if let Some((line, field)) = random.pick_any(&places) {
        policy.lines[line][field] = b"-".to_vec();
    }
}

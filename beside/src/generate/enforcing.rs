//! Which cases about enforcement are made, and how many of each sort.

use super::nodes::Nodes;
use super::random::Random;
use super::table::{words, Table};
use super::{combinings, Case, EFFECTS, FORCES};
use crate::services::MOST_ENTRIES;

const SEED: u64 = 4_602_919;
/// A duty with its argument takes two lines; a rule with its target takes two more.
const LONGEST_CHAIN: usize = 127;
const SHORTEST_LONG: usize = 60;
const STRAY_ROUNDS: usize = 20;
const STOPPED_ROUNDS: usize = 18;
const JOINED_ROUNDS: usize = 4;
/// What a target is by a reading, mostly true.
const MIXED: [&str; 12] = [
    "true", "true", "true", "true", "true", "true", "true", "false", "false", "-", "!", "7",
];

/// What it is where rows are to differ most.
const VARIED: [&str; 7] = ["true", "true", "false", "false", "false", "-", "!"];

/// The force and the action of a duty that is to be made.
type Plan = (&'static str, usize);

/// All cases about enforcement; each is accepted.
pub fn cases() -> Vec<Case> {
    let random = &mut Random::new(SEED);
    [
        one_a_row(random),
        one_force(random),
        at_the_limit(random),
        with_strays(random),
        stopped(random),
        repeated(random),
        one_untaken(random),
        two_untaken(random),
        joined(random),
        two_sided(random),
    ]
    .concat()
}

/// A duty that the journal takes while it has room.
fn taken(random: &mut Random) -> Plan {
    (random.pick(&FORCES), random.below(8))
}

/// A duty that it never takes.
fn untaken(force: &'static str, random: &mut Random) -> Plan {
    (force, random.between(8, 15))
}

fn many_taken(count: usize, random: &mut Random) -> Vec<Plan> {
    (0..count).map(|_| taken(random)).collect()
}

fn mixed_targets(count: usize, random: &mut Random) -> Vec<&'static str> {
    (0..count).map(|_| random.pick(&MIXED)).collect()
}

/// A single duty in each of very many rows.
fn one_a_row(random: &mut Random) -> Vec<Case> {
    let mut cases = Vec::new();
    for effect in EFFECTS {
        for force in FORCES {
            for rows in [63, 64, 65, 70] {
                let duty = (force, random.below(8));
                cases.push(ruled(effect, &[duty], &vec!["true"; rows], random));
            }
            for rows in [75, 100, 130] {
                let duty = (force, random.below(8));
                let targets = mixed_targets(rows, random);
                cases.push(ruled(effect, &[duty], &targets, random));
            }
        }
    }
    cases
}

/// Long chains of one force.
fn one_force(random: &mut Random) -> Vec<Case> {
    let mut cases = Vec::new();
    for force in FORCES {
        for count in [60, 63, 64, 65, 66, LONGEST_CHAIN] {
            let duties: Vec<Plan> = (0..count).map(|_| (force, random.below(8))).collect();
            cases.push(few_rows(&duties, random));
        }
    }
    cases
}

/// Long chains of both forces, with each of them at the first duty that finds no room.
fn at_the_limit(random: &mut Random) -> Vec<Case> {
    let mut cases = Vec::new();
    for force in FORCES {
        for count in [65, 66, 67, 68, 70, 72, 76, 80, 90, 100, 110, LONGEST_CHAIN] {
            let mut duties = many_taken(count, random);
            duties[MOST_ENTRIES].0 = force;
            cases.push(few_rows(&duties, random));
        }
    }
    // Where only the duties after it have to be done, or none of them has.
    for rest in FORCES {
        for count in [66, 69, 75, LONGEST_CHAIN] {
            let mut duties = many_taken(count, random);
            duties[MOST_ENTRIES].0 = "may";
            duties[MOST_ENTRIES + 1..]
                .iter_mut()
                .for_each(|duty| duty.0 = rest);
            cases.push(few_rows(&duties, random));
        }
    }
    cases
}

/// Long chains with some duties that the journal never takes, but that need not be done.
fn with_strays(random: &mut Random) -> Vec<Case> {
    let mut cases = Vec::new();
    for _ in 0..STRAY_ROUNDS {
        let count = random.between(SHORTEST_LONG + 10, LONGEST_CHAIN);
        let mut duties = many_taken(count, random);
        for duty in &mut duties {
            if random.chance(12) {
                *duty = untaken("may", random);
            }
        }
        cases.push(few_rows(&duties, random));
    }
    cases
}

/// Long chains with one duty first, between or last that has to be done and never is.
fn stopped(random: &mut Random) -> Vec<Case> {
    let mut cases = Vec::new();
    for round in 0..STOPPED_ROUNDS {
        let count = random.between(SHORTEST_LONG, LONGEST_CHAIN);
        let mut duties = many_taken(count, random);
        let place = match round % 3 {
            0 => 0,
            1 => random.between(1, MOST_ENTRIES - 5),
            _ => count - 1,
        };
        duties[place] = untaken("must", random);
        cases.push(few_rows(&duties, random));
    }
    cases
}

/// Shorter chains that fill the journal in several rows, in the midst of one or at its end.
fn repeated(random: &mut Random) -> Vec<Case> {
    let mut cases = Vec::new();
    for count in [2, 3, 4, 5, 7, 8, 11, 13, 16, 20, 21, 22, 31, 32, 33, 40] {
        let rows = MOST_ENTRIES / count + 3;
        let duties = many_taken(count, random);
        cases.push(ruled("permit", &duties, &vec!["true"; rows], random));
        let duties = many_taken(count, random);
        let targets = mixed_targets(2 * rows, random);
        cases.push(ruled("deny", &duties, &targets, random));
    }
    cases
}

/// One duty that the journal never takes, at each place among at most four.
fn one_untaken(random: &mut Random) -> Vec<Case> {
    let mut cases = Vec::new();
    for effect in EFFECTS {
        for force in FORCES {
            for count in 1..=4 {
                for place in 0..count {
                    let mut duties = many_taken(count, random);
                    duties[place] = untaken(force, random);
                    cases.push(ruled(effect, &duties, &["true", "false", "true"], random));
                }
            }
        }
    }
    cases
}

/// Two of them, at each two places among five.
fn two_untaken(random: &mut Random) -> Vec<Case> {
    let mut cases = Vec::new();
    for forces in FORCES.map(|first| FORCES.map(|second| [first, second])) {
        for [first, second] in forces {
            for later in 1..5 {
                for earlier in 0..later {
                    let mut duties = many_taken(5, random);
                    duties[earlier] = untaken(first, random);
                    duties[later] = untaken(second, random);
                    let effect = random.pick(&EFFECTS);
                    cases.push(ruled(effect, &duties, &["true", "-"], random));
                }
            }
        }
    }
    cases
}

/// A rule of either effect, with these duties, that holds in a few rows.
fn few_rows(duties: &[Plan], random: &mut Random) -> Case {
    let effect = random.pick(&EFFECTS);
    let rows = random.between(1, 3);
    ruled(effect, duties, &vec!["true"; rows], random)
}

/// One rule with these duties, whose target is one of these cells in each row.
fn ruled(effect: &str, duties: &[Plan], targets: &[&str], random: &mut Random) -> Case {
    let mut draft = Draft::new(random);
    let duty = draft.chain(duties);
    let target = draft.target();
    draft.nodes.rule(effect, target, duty);
    let rows: Vec<Vec<&str>> = targets.iter().map(|target| vec![*target]).collect();
    draft.finished(&rows)
}

/// Sets whose rules have duties that join, combined in every way.
fn joined(random: &mut Random) -> Vec<Case> {
    let mut cases = Vec::new();
    for combining in combinings() {
        for round in 0..JOINED_ROUNDS {
            cases.push(joined_case(&combining, round % 2 == 1, random));
        }
    }
    cases
}

fn joined_case(combining: &str, nested: bool, random: &mut Random) -> Case {
    let mut draft = Draft::new(random);
    if nested {
        let inner = draft.set(combining, None);
        let item = draft.nodes.item(inner, None);
        let outer = draft
            .random
            .pick(&["p-over.all", "d-over.all", "first-app.all"]);
        draft.set(outer, Some(item));
    } else {
        draft.set(combining, None);
    }
    let count = draft.random.pick(&[4, 12, 24, 40]);
    let width = draft.targets;
    let rows: Vec<Vec<&str>> = (0..count)
        .map(|_| mixed_targets(width, draft.random))
        .collect();
    draft.finished(&rows)
}

/// A permit and a deny with duties of their own, in sets that combine them in every way over
/// rows of every sort.
fn two_sided(random: &mut Random) -> Vec<Case> {
    let mut cases = Vec::new();
    for combining in combinings() {
        for round in 0..EFFECTS.len() {
            let mut draft = Draft::new(random);
            let mut last = None;
            for side in 0..EFFECTS.len() {
                let duty = draft.some_duties(5);
                let target = draft.target();
                let effect = EFFECTS[(side + round) % 2];
                let rule = draft.nodes.rule(effect, target, duty);
                last = Some(draft.nodes.item(rule, last));
            }
            let target = draft.nodes.leaf("true", "-");
            let item = last.expect("there are two rules");
            let duties = [(); 2].map(|()| draft.some_duties(2));
            draft.nodes.set(&combining, target, item, duties);
            let count = draft.random.between(20, 60);
            let cells = |random: &mut Random| [(); 2].map(|()| random.pick(&VARIED)).to_vec();
            let rows: Vec<Vec<&str>> = (0..count).map(|_| cells(draft.random)).collect();
            cases.push(draft.finished(&rows));
        }
    }
    cases
}

/// A policy in the making, which asks for one reading for each target and one for arguments.
struct Draft<'a> {
    nodes: Nodes,
    targets: usize,
    random: &'a mut Random,
}

impl<'a> Draft<'a> {
    fn new(random: &'a mut Random) -> Draft<'a> {
        Draft {
            nodes: Nodes::default(),
            targets: 0,
            random,
        }
    }

    fn target(&mut self) -> usize {
        let name = target_name(self.targets);
        self.targets += 1;
        self.nodes.leaf("attr", &name)
    }

    fn argument(&mut self) -> usize {
        match self.random.below(8) {
            0 => self.nodes.leaf("true", "-"),
            1 => self
                .nodes
                .leaf("text", self.random.pick(&["a", "roof", "x-9"])),
            2 | 3 => self.nodes.leaf("attr", "n"),
            _ => {
                let number = self.random.between(0, 110) as i32 - 5;
                self.nodes.leaf("num", &number.to_string())
            }
        }
    }

    /// The last of a chain of these duties, none for none.
    fn chain(&mut self, duties: &[Plan]) -> Option<usize> {
        duties.iter().fold(None, |earlier, &(force, action)| {
            let argument = self.argument();
            Some(self.nodes.duty(force, action, argument, earlier))
        })
    }

    /// A chain of a few duties, most of which the journal takes.
    fn some_duties(&mut self, most: usize) -> Option<usize> {
        let count = self.random.between(0, most);
        let duties: Vec<Plan> = (0..count)
            .map(|_| match self.random.chance(10) {
                true => (self.random.pick(&FORCES), self.random.between(8, 15)),
                false => taken(self.random),
            })
            .collect();
        self.chain(&duties)
    }

    /// A set of some rules after an item, if there is one, with duties of its own.
    fn set(&mut self, combining: &str, mut last: Option<usize>) -> usize {
        let main = self.random.below(2);
        for _ in 0..self.random.between(2, 5) {
            let contrary = usize::from(self.random.chance(45));
            let duty = self.some_duties(4);
            let target = self.target();
            let effect = EFFECTS[(main + contrary) % 2];
            let rule = self.nodes.rule(effect, target, duty);
            last = Some(self.nodes.item(rule, last));
        }
        let duties = [(); 2].map(|()| self.some_duties(3));
        let target = self.nodes.leaf("true", "-");
        let item = last.expect("there is at least one rule");
        self.nodes.set(combining, target, item, duties)
    }

    /// The case, with these cells for the targets and a number for the arguments in each row.
    fn finished(self, rows: &[Vec<&str>]) -> Case {
        let scattered = self.random.chance(30);
        let mut names: Vec<String> = (0..self.targets).map(target_name).collect();
        names.push("n".to_owned());
        let mut lines = vec![words(&names.join(" "))];
        for row in rows {
            let number = self.random.between(0, 110);
            lines.push(words(&format!("{} {number}", row.join(" "))));
        }
        Case {
            policy: self.nodes.written(scattered, self.random).to_bytes(),
            readings: Table { lines }.to_bytes(),
        }
    }
}

fn target_name(place: usize) -> String {
    format!("t{place}")
}

#[cfg(test)]
mod tests;

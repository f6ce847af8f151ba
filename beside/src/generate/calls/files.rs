//! The policy files of a list: a few good ones, which come again and again, and damaged ones.

use super::readings;
use crate::calls::{reply, Call, Device, Outcome, Reading};
use crate::enforcement::Bias;
use crate::gate::{Gate, PLACES_A_LINE};
use crate::generate::judged::{self, Style};
use crate::generate::nodes::Nodes;
use crate::generate::pool::Pool;
use crate::generate::random::Random;
use crate::generate::table::Table;
use crate::generate::words::Sort;
use crate::generate::{bytes, combinings, doubtful, fields, lines, naming, tree, EFFECTS, FORCES};
use crate::policy::{HEADER, MOST_LINES};
use crate::services::Journal;

const STYLES: [Style; 3] = [judged::MIXED, judged::CROWDS, judged::FORMULAS];
/// How many policies are drawn to find one that has duties.
const CHOICE: usize = 3;
/// Ways of combining that seldom come to indet.
const DECISIVE: [&str; 8] = [
    "p-over.all",
    "p-over.greedy",
    "d-over.all",
    "d-over.greedy",
    "d-unless-p.greedy",
    "p-unless-d.greedy",
    "first-app.all",
    "first-app.greedy",
];

/// What a list draws its policies and readings from.
pub struct Files {
    pool: Pool,
    policies: Vec<Table>,
    /// The places of the policy that was drawn last and of the one in force.
    drawn: usize,
    in_force: usize,
}

impl Files {
    /// Some policies, and a small one, which seldom has too many lines.
    pub fn new(device: Device, random: &mut Random) -> Files {
        let pool = Pool::new(random);
        let count = random.between(1, 3);
        let mut policies: Vec<Table> = (0..count).map(|_| chosen(device, &pool, random)).collect();
        policies.push(small(device, &pool, random));
        Files {
            pool,
            policies,
            drawn: 0,
            in_force: 0,
        }
    }

    /// How many lines the first policy has.
    pub fn usual_lines(&self) -> usize {
        self.policies[0].last()
    }

    /// One of the policies as a file, now and then damaged, and mostly one with few enough lines.
    pub fn next(&mut self, most_lines: usize, random: &mut Random) -> Vec<u8> {
        let mut places: Vec<usize> = (0..self.policies.len()).collect();
        if random.chance(85) {
            places.retain(|&place| self.policies[place].last() <= most_lines);
        }
        self.drawn = match places[..] {
            [first, ..] if random.chance(50) => first,
            _ => random.pick_any(&places).unwrap_or(self.policies.len() - 1),
        };
        let policy = &self.policies[self.drawn];
        match random.chance(25) {
            true => damaged(policy.clone(), random),
            false => policy.to_bytes(),
        }
    }

    /// The policy that was drawn last is in force now.
    pub fn fitted(&mut self) {
        self.in_force = self.drawn;
    }

    /// A source that mostly has what the policy in force asks for.
    pub fn reading(&self, random: &mut Random) -> Reading {
        let place = match random.chance(85) {
            true => self.in_force,
            false => random.below(self.policies.len()),
        };
        readings::reading(&self.policies[place], &self.pool, random)
    }
}

/// A policy with as many lines as there may be, and readings for which it has duties.
pub fn full(random: &mut Random) -> (Vec<u8>, Reading) {
    let draw = |pool: &Pool, random: &mut Random| {
        let combining = combining(random);
        judged::policy(MOST_LINES, &combining, judged::CROWDS, pool, random)
    };
    telling(draw, random)
}

/// A policy with so many duties that a journal is soon full, and readings for which it has them.
pub fn chained(device: Device, random: &mut Random) -> (Vec<u8>, Reading) {
    telling(|pool, random| chain(device, pool, random), random)
}

/// The first such policy that has duties for readings that are drawn with it.
fn telling(draw: impl Fn(&Pool, &mut Random) -> Table, random: &mut Random) -> (Vec<u8>, Reading) {
    loop {
        let pool = Pool::new(random);
        let policy = draw(&pool, random);
        let reading = readings::reading(&policy, &pool, random);
        let file = policy.to_bytes();
        if has_duties(&file, &reading) {
            return (file, reading);
        }
    }
}

fn has_duties(file: &[u8], reading: &Reading) -> bool {
    let calls = [
        Call::Fit(file.to_vec()),
        Call::Read(reading.clone()),
        Call::Decide,
        Call::Enforce,
    ];
    let mut gate = Gate::new(Bias::Base, PLACES_A_LINE * MOST_LINES);
    let mut journal = Journal::default();
    let replies = calls.map(|call| reply(&mut gate, &mut journal, &call));
    match replies[3].and_then(|reply| reply.outcome.ok()) {
        Some(Outcome::Enforced(enforced)) => enforced.carried + enforced.failed > 0,
        _ => false,
    }
}

/// Two to eight lines.
fn small(device: Device, pool: &Pool, random: &mut Random) -> Table {
    if random.chance(30) {
        let lines = random.between(2, 7);
        return judged::policy(lines, &combining(random), judged::CROWDS, pool, random);
    }
    let mut draft = Draft::new(device, pool, random);
    let duty = draft.some_duties(0, 2);
    let target = draft.target();
    let effect = draft.random.pick(&EFFECTS);
    draft.nodes.rule(effect, target, duty);
    draft.written()
}

fn combining(random: &mut Random) -> String {
    let all = combinings();
    match random.chance(60) {
        true => random.pick(&DECISIVE).to_owned(),
        false => all[random.below(all.len())].clone(),
    }
}

/// The first of some policies that has duties for readings that are drawn with it, or else another.
fn chosen(device: Device, pool: &Pool, random: &mut Random) -> Table {
    for _ in 0..CHOICE {
        let policy = policy(device, pool, random);
        let reading = readings::reading(&policy, pool, random);
        if has_duties(&policy.to_bytes(), &reading) {
            return policy;
        }
    }
    policy(device, pool, random)
}

fn policy(device: Device, pool: &Pool, random: &mut Random) -> Table {
    let combining = &combining(random);
    match random.below(12) {
        0 => tree::policy(random.between(2, 16), random),
        1 | 2 => {
            let (lines, style) = (random.between(5, 26), random.pick(&STYLES));
            judged::policy(lines, combining, style, pool, random)
        }
        3..=9 => laden(device, combining, pool, random),
        _ => chain(device, pool, random),
    }
}

/// A set of a few rules with duties for this service, and with duties of its own.
fn laden(device: Device, combining: &str, pool: &Pool, random: &mut Random) -> Table {
    let mut draft = Draft::new(device, pool, random);
    let main = draft.random.below(2);
    let mut last = None;
    for _ in 0..draft.random.between(1, 3) {
        let contrary = usize::from(draft.random.chance(35));
        let duty = draft.some_duties(1, 4);
        let target = draft.target();
        let rule = draft
            .nodes
            .rule(EFFECTS[(main + contrary) % 2], target, duty);
        last = Some(draft.nodes.item(rule, last));
    }
    let duties = [(); 2].map(|()| draft.some_duties(0, 2));
    let target = draft.nodes.leaf("true", "-");
    let item = last.expect("there is at least one rule");
    draft.nodes.set(combining, target, item, duties);
    draft.written()
}

/// A rule with many duties.
fn chain(device: Device, pool: &Pool, random: &mut Random) -> Table {
    let mut draft = Draft::new(device, pool, random);
    let count = draft.random.between(6, 16);
    let duty = draft.duties(count);
    let target = draft.nodes.leaf("true", "-");
    let effect = draft.random.pick(&EFFECTS);
    draft.nodes.rule(effect, target, duty);
    draft.written()
}

/// A policy in the making.
struct Draft<'a> {
    nodes: Nodes,
    device: Device,
    pool: &'a Pool,
    random: &'a mut Random,
}

impl<'a> Draft<'a> {
    fn new(device: Device, pool: &'a Pool, random: &'a mut Random) -> Draft<'a> {
        let nodes = Nodes::default();
        Draft {
            nodes,
            device,
            pool,
            random,
        }
    }

    /// True more often than not: a constant, a reading, or a test of a number.
    fn target(&mut self) -> usize {
        match self.random.below(10) {
            0..=5 => self.nodes.leaf("true", "-"),
            6 | 7 => self.attr(Sort::Truth),
            _ => {
                let limit = self.random.pick(&["-9", "0", "3", "-200"]);
                let sides = [self.attr(Sort::Number), self.nodes.leaf("num", limit)];
                self.nodes.over("greater", &sides)
            }
        }
    }

    fn attr(&mut self, sort: Sort) -> usize {
        let name = self.pool.name(sort, self.random);
        self.nodes.leaf("attr", &name)
    }

    fn some_duties(&mut self, fewest: usize, most: usize) -> Option<usize> {
        let count = self.random.between(fewest, most);
        self.duties(count)
    }

    /// The last of a chain of so many duties, none for none.
    fn duties(&mut self, count: usize) -> Option<usize> {
        (0..count).fold(None, |earlier, _| {
            let argument = self.argument();
            let (force, action) = (self.random.pick(&FORCES), self.action());
            Some(self.nodes.duty(force, action, argument, earlier))
        })
    }

    /// An action that the service takes, more often than not.
    fn action(&mut self) -> usize {
        match self.device {
            _ if self.random.chance(20) => self.random.below(16),
            Device::Journal => self.random.below(8),
            Device::Bank => self.random.between(8, 15),
            Device::Board => self.random.below(16),
        }
    }

    /// A position of a valve, more often than not.
    fn argument(&mut self) -> usize {
        match self.random.below(20) {
            0 => self.attr(Sort::Truth),
            1 => {
                let text = self.pool.text(self.random);
                self.nodes.leaf("text", &text)
            }
            2 | 3 => self.attr(Sort::Number),
            4 => {
                let beyond = self.random.pick(&["-1", "101", "2147483647"]);
                self.nodes.leaf("num", beyond)
            }
            _ => {
                let position = self.random.between(0, 100).to_string();
                self.nodes.leaf("num", &position)
            }
        }
    }

    fn written(self) -> Table {
        let scattered = self.random.chance(30);
        self.nodes.written(scattered, self.random)
    }
}

/// A file that is mostly refused, for any of the reasons.
fn damaged(mut policy: Table, random: &mut Random) -> Vec<u8> {
    match random.below(100) {
        0..=24 => {
            let line = random.between(1, policy.last());
            fields::spoil_any(&mut policy, line, random);
        }
        25..=44 => random.pick(&lines::DAMAGES)(&mut policy, random),
        45..=64 => naming::spoil(&mut policy, random),
        65..=74 => {
            return random
                .pick(&doubtful::split(doubtful::HEADERS, b'|'))
                .to_vec()
        }
        75..=82 => return [HEADER, b"\n"].concat(),
        83 => return tree::policy(MOST_LINES + 1, random).to_bytes(),
        _ => {
            let mut file = policy.to_bytes();
            bytes::spoil(&mut file, random);
            return file;
        }
    }
    policy.to_bytes()
}

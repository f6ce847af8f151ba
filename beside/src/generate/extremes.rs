//! Policies that reach as deep, as wide or as far along a chain as 256 lines allow.

use super::nodes::Nodes;
use super::pool::Pool;
use super::random::Random;
use super::table::Table;
use super::words::Sort;
use super::{combinings, judged, Case, EFFECTS, FORCES};
use crate::policy::MOST_LINES;

const DEEP: usize = 21;
const BOUND_DEEP: usize = 4;
const WIDE: usize = 21;
const FULL: usize = 16;
const CHAINS: usize = 2;
/// Each level has a target, an item and the set itself; a rule with its target is innermost.
const DEEPEST: usize = (MOST_LINES - 2) / 3;
/// Each level has a duty with its argument as well.
const DEEPEST_BOUND: usize = (MOST_LINES - 2) / 5;
const FEWEST_RULES: usize = 50;
/// A rule with its target and its item takes three lines; the set and its target two.
const MOST_RULES: usize = (MOST_LINES - 2) / 3;

pub fn cases(random: &mut Random) -> Vec<Case> {
    let combinings = combinings();
    let mut cases = Vec::new();
    for round in 0..DEEP {
        cases.push(case(random, |sketch| sketch.deep(round)));
    }
    for _ in 0..BOUND_DEEP {
        cases.push(case(random, |sketch| sketch.bound_deep()));
    }
    for round in 0..WIDE {
        let combining = &combinings[round % combinings.len()];
        cases.push(case(random, |sketch| sketch.wide(combining)));
    }
    for _ in 0..CHAINS {
        cases.push(case(random, |sketch| sketch.many_duties()));
        cases.push(case(random, |sketch| sketch.many_own_duties()));
        cases.push(case(random, |sketch| sketch.many_nots()));
        cases.push(case(random, |sketch| sketch.many_numbers(true)));
        cases.push(case(random, |sketch| sketch.many_numbers(false)));
    }
    cases.extend((0..FULL).map(|round| full(&combinings[round % combinings.len()], random)));
    cases
}

fn full(combining: &str, random: &mut Random) -> Case {
    let pool = Pool::new(random);
    let policy = judged::policy(MOST_LINES, combining, judged::FORMULAS, &pool, random);
    with_readings(&policy, &pool, random)
}

fn case(random: &mut Random, draw: impl Fn(&mut Sketch)) -> Case {
    let pool = Pool::new(random);
    let mut sketch = Sketch {
        nodes: Nodes::default(),
        pool: &pool,
        random,
    };
    draw(&mut sketch);
    let scattered = sketch.random.chance(30);
    let policy = sketch.nodes.written(scattered, sketch.random);
    with_readings(&policy, &pool, random)
}

fn with_readings(policy: &Table, pool: &Pool, random: &mut Random) -> Case {
    let rows = random.between(1, 6);
    Case {
        policy: policy.to_bytes(),
        readings: pool.readings(policy, rows, random).to_bytes(),
    }
}

/// What most rules of a wide set have in common. With so many of them, rules drawn alike
/// from everything would leave each algorithm with one and the same decision.
struct Mood {
    effect: usize,
    /// How many rules in a hundred have the other effect.
    contrary: usize,
    /// How many have a target that is false.
    idle: usize,
    /// How many of the rest ask the readings.
    asking: usize,
    /// How many have a target that is no boolean.
    faulty: usize,
}

impl Mood {
    fn any(random: &mut Random) -> Mood {
        Mood {
            effect: random.below(2),
            contrary: random.pick(&[0, 0, 2, 40]),
            idle: random.pick(&[0, 0, 50, 96]),
            asking: random.pick(&[0, 2, 40]),
            faulty: random.pick(&[0, 0, 1]),
        }
    }

    fn effect(&self, random: &mut Random) -> &'static str {
        let contrary = usize::from(random.chance(self.contrary));
        EFFECTS[(self.effect + contrary) % 2]
    }
}

struct Sketch<'a> {
    nodes: Nodes,
    pool: &'a Pool,
    random: &'a mut Random,
}

impl Sketch<'_> {
    /// How many lines are left.
    fn room(&self) -> usize {
        MOST_LINES - self.nodes.count()
    }

    fn attr(&mut self, sort: Sort) -> usize {
        let name = self.pool.name(sort, self.random);
        self.nodes.leaf("attr", &name)
    }

    /// A target that is true, or now and then whatever a reading says.
    fn target(&mut self, asking: usize) -> usize {
        match self.random.chance(asking) {
            true => self.attr(Sort::Truth),
            false => self.nodes.leaf("true", "-"),
        }
    }

    /// One more duty, of two lines.
    fn duty(&mut self, asking: usize, earlier: Option<usize>) -> usize {
        let sort = self.random.pick(&[Sort::Number, Sort::Text, Sort::Truth]);
        let argument = match self.random.chance(asking) {
            true => self.attr(sort),
            false => self.nodes.leaf("num", &self.pool.number(self.random)),
        };
        let (force, action) = (self.random.pick(&FORCES), self.random.below(16));
        self.nodes.duty(force, action, argument, earlier)
    }

    /// A chain of this many duties, none for none.
    fn duties(&mut self, count: usize, asking: usize) -> Option<usize> {
        (0..count).fold(None, |earlier, _| Some(self.duty(asking, earlier)))
    }

    /// An algorithm for a set with one item. The two that always decide would hide what
    /// became of the sets further in, so they are seldom allowed.
    fn passing(&mut self, hiding: bool) -> String {
        let mut all = combinings();
        all.retain(|combining| hiding || !combining.contains("unless"));
        all.swap_remove(self.random.below(all.len()))
    }

    /// Sets in sets, as many as there can be, with the one duty that still has room.
    fn deep(&mut self, round: usize) {
        let place = self.random.between(0, DEEPEST);
        let hiding = round.is_multiple_of(4);
        let target = self.target(80);
        let duty = (place == 0).then(|| self.duty(50, None));
        let mut inner = self.nodes.rule(EFFECTS[round % 2], target, duty);
        for level in 1..=DEEPEST {
            let duty = (place == level).then(|| self.duty(50, None));
            let mut duties = [None; 2];
            duties[round % 2] = duty;
            let item = self.nodes.item(inner, None);
            let target = self.target(1);
            let combining = self.passing(hiding);
            inner = self.nodes.set(&combining, target, item, duties);
        }
    }

    /// Sets in sets, each with a duty of its own for the decision that comes from within.
    fn bound_deep(&mut self) {
        let effect = self.random.below(2);
        let target = self.target(50);
        let spare = self.room() - 1 - 5 * DEEPEST_BOUND;
        let duties = self.duties(spare / 2, 10);
        let mut inner = self.nodes.rule(EFFECTS[effect], target, duties);
        for _ in 0..DEEPEST_BOUND {
            let mut duties = [None; 2];
            duties[effect] = Some(self.duty(1, None));
            let item = self.nodes.item(inner, None);
            let target = self.target(1);
            let combining = self.passing(false);
            inner = self.nodes.set(&combining, target, item, duties);
        }
    }

    /// One set of very many rules, which share the lines that are left over as duties.
    fn wide(&mut self, combining: &str) {
        let count = self.random.between(FEWEST_RULES, MOST_RULES);
        let mut spare = self.room() - 2 - 3 * count;
        let mood = Mood::any(self.random);
        let mut last = None;
        for left in (1..=count).rev() {
            let share = spare / 2 / left;
            let duties = self.random.between(share, (share + 1).min(spare / 2));
            spare -= 2 * duties;
            let duty = self.duties(duties, 3);
            let mut target = self.moody_target(&mood);
            if left == 1 && spare == 1 {
                target = self.nodes.over("not", &[target]);
            }
            let effect = mood.effect(self.random);
            let rule = self.nodes.rule(effect, target, duty);
            last = Some(self.nodes.item(rule, last));
        }
        let target = self.target(5);
        let item = last.expect("there are many rules");
        self.nodes.set(combining, target, item, [None; 2]);
    }

    fn moody_target(&mut self, mood: &Mood) -> usize {
        if self.random.chance(mood.faulty) {
            return self.attr(Sort::Number);
        }
        match self.random.chance(mood.idle) {
            true => self.nodes.leaf("false", "-"),
            false => self.target(mood.asking),
        }
    }

    fn many_duties(&mut self) {
        let duties = self.duties((MOST_LINES - 2) / 2, 2);
        let target = self.target(50);
        let effect = self.random.pick(&EFFECTS);
        self.nodes.rule(effect, target, duties);
    }

    /// One rule in one set, which has all other lines for what it asks on permit or on deny.
    fn many_own_duties(&mut self) {
        let target = self.target(50);
        let target = self.nodes.over("not", &[target]);
        let effect = self.random.below(2);
        let rule = self.nodes.rule(EFFECTS[effect], target, None);
        let item = self.nodes.item(rule, None);
        let target = self.target(30);
        let each = (self.room() - 1) / 2;
        let other = each / 3;
        let mut duties = [self.duties(each - other, 2), self.duties(other, 2)];
        if effect == 1 {
            duties.swap(0, 1);
        }
        let combining = self.passing(false);
        self.nodes.set(&combining, target, item, duties);
    }

    fn many_nots(&mut self) {
        let mut target = self.attr(Sort::Truth);
        while self.room() > 1 {
            target = self.nodes.over("not", &[target]);
        }
        let effect = self.random.pick(&EFFECTS);
        self.nodes.rule(effect, target, None);
    }

    /// A computation on very many small numbers, which leans to the left or right.
    fn many_numbers(&mut self, left: bool) {
        let mut value = self.attr(Sort::Number);
        while self.room() > 4 {
            let kind = self.random.pick(&["add", "sub", "mul", "div"]);
            let number = self.small_number(kind, left);
            let number = self.nodes.leaf("num", number);
            let sides = if left {
                [value, number]
            } else {
                [number, value]
            };
            value = self.nodes.over(kind, &sides);
        }
        let duty = self.nodes.duty("must", 9, value, None);
        let target = self.nodes.leaf("true", "-");
        let effect = self.random.pick(&EFFECTS);
        self.nodes.rule(effect, target, Some(duty));
    }

    /// One that neither leaves the range soon nor makes everything zero.
    fn small_number(&mut self, kind: &str, left: bool) -> &'static str {
        self.random.pick(match kind {
            "add" | "sub" => &["-3", "-1", "2", "7"],
            "div" if !left => &["2147483647", "-2147483648", "999999", "-70000"],
            _ => &["1", "-1"],
        })
    }
}

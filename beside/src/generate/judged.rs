//! Grows policies that decide something: their operands mostly fit, their targets are
//! often true, and their duties can mostly be fulfilled.

use super::nodes::Nodes;
use super::pool::Pool;
use super::random::Random;
use super::table::Table;
use super::words::{Sort, SORTS};
use super::{combinings, EFFECTS, FORCES};

const MOST_ITEMS: usize = 12;
const MOST_DUTIES: usize = 5;
/// The fewest lines of a duty, of an item with its rule, and of a set.
const LEAST_DUTY: usize = 2;
const LEAST_ITEM: usize = 3;
const LEAST_SET: usize = 5;
/// Sizes beyond this are better filled by several policies than by one rule.
const LARGEST_RULE: usize = 22;

/// What the policies of a block have in common.
#[derive(Clone, Copy, Debug)]
pub struct Style {
    /// How large the expressions mostly are: odd, so that each can be filled with fitting
    /// operands alone.
    pub sizes: [usize; 8],
    /// How many lines a set has for each of its items at least.
    pub spacing: [usize; 4],
    /// How many policies in a hundred may have more than one duty.
    pub chained: usize,
}

pub const MIXED: Style = Style {
    sizes: [1, 3, 5, 5, 7, 7, 9, 11],
    spacing: [3, 6, 9, 14],
    chained: 50,
};
pub const CROWDS: Style = Style {
    sizes: [1, 1, 1, 1, 1, 3, 3, 5],
    spacing: [3, 3, 3, 4],
    chained: 90,
};
pub const FORMULAS: Style = Style {
    sizes: [5, 7, 9, 11, 13, 15, 19, 25],
    spacing: [10, 14, 18, 24],
    chained: 40,
};

/// A policy with exactly this many lines; the root, if a set, combines in this way.
pub fn policy(
    lines: usize,
    combining: &str,
    style: Style,
    pool: &Pool,
    random: &mut Random,
) -> Table {
    let mut grower = Grower {
        nodes: Nodes::default(),
        combinings: combinings(),
        style,
        pool,
        random,
    };
    if lines < LEAST_SET {
        grower.rule(lines);
    } else {
        grower.set(lines, combining);
    }
    let scattered = grower.random.chance(40);
    grower.nodes.written(scattered, grower.random)
}

struct Grower<'a> {
    nodes: Nodes,
    combinings: Vec<String>,
    style: Style,
    pool: &'a Pool,
    random: &'a mut Random,
}

impl Grower<'_> {
    fn policy(&mut self, size: usize) -> usize {
        let simple = size < LEAST_SET || (size <= LARGEST_RULE && self.random.chance(55));
        if simple {
            return self.rule(size);
        }
        let combining = self.combinings[self.random.below(self.combinings.len())].clone();
        self.set(size, &combining)
    }

    fn rule(&mut self, size: usize) -> usize {
        let room = size - 1;
        let bound = room > LEAST_DUTY && self.random.chance(70);
        let target = match bound {
            true => self.odd_size(room - LEAST_DUTY),
            false => room,
        };
        let duty = bound.then(|| self.duties(room - target)).flatten();
        let target = self.target(target);
        let effect = self.random.pick(&EFFECTS);
        self.nodes.rule(effect, target, duty)
    }

    fn set(&mut self, size: usize, combining: &str) -> usize {
        let room = size - 1;
        let target = match self.random.below(10) {
            0..=5 => 1,
            _ => self.odd_size(room - LEAST_ITEM),
        };
        let mut rest = room - target;
        let duties = [(); 2].map(|()| self.own_duty(&mut rest));
        let item = self.items(rest);
        let target = self.target(target);
        self.nodes.set(combining, target, item, duties)
    }

    /// A duty of a set, if there is room for one beside its items.
    fn own_duty(&mut self, rest: &mut usize) -> Option<usize> {
        if *rest < LEAST_ITEM + LEAST_DUTY || self.random.chance(65) {
            return None;
        }
        let size = 2 * self.random.between(1, (*rest - LEAST_ITEM).min(10) / 2);
        *rest -= size;
        self.duties(size)
    }

    /// The last of a chain of items that fill this many lines.
    fn items(&mut self, lines: usize) -> usize {
        let count = self.item_count(lines);
        let mut last = None;
        for extra in self.shares(lines - count * LEAST_ITEM, count) {
            let policy = self.policy(LEAST_ITEM - 1 + extra);
            last = Some(self.nodes.item(policy, last));
        }
        last.expect("there is at least one item")
    }

    /// Lines to spare, divided by chance: even shares, which leave odd sizes for the
    /// expressions, but for the last.
    fn shares(&mut self, mut spare: usize, count: usize) -> Vec<usize> {
        let mut shares = Vec::with_capacity(count);
        for left in (1..=count).rev() {
            let share = match left {
                1 => spare,
                _ => 2 * self.random.between(0, spare / left),
            };
            spare -= share;
            shares.push(share);
        }
        shares
    }

    fn item_count(&mut self, lines: usize) -> usize {
        let spacing = self.random.pick(&self.style.spacing);
        let most = (lines / spacing).clamp(1, MOST_ITEMS);
        let count = match self.random.below(6) {
            0 => 1,
            1 => self.random.between(1, most.min(3)),
            2 | 3 => self.random.between(most.min(2), most),
            _ => self.random.between(most.div_ceil(2), most),
        };
        // With another item there may be an even number of lines to spare.
        let odd = (lines - count * LEAST_ITEM) % 2;
        match (count + odd) * LEAST_ITEM <= lines {
            true => (count + odd).min(MOST_ITEMS),
            false => count,
        }
    }

    /// The last of a chain of duties that fill this many lines.
    fn duties(&mut self, lines: usize) -> Option<usize> {
        let most = (lines / LEAST_DUTY).min(MOST_DUTIES);
        let count = match self.random.chance(self.style.chained) {
            true => self.random.between(1, most),
            false => 1,
        };
        let mut last = None;
        for extra in self.shares(lines - count * LEAST_DUTY, count) {
            let argument = self.argument(LEAST_DUTY - 1 + extra);
            let (force, action) = (self.random.pick(&FORCES), self.random.below(16));
            last = Some(self.nodes.duty(force, action, argument, last));
        }
        last
    }

    /// A size for an expression that may have this many lines at most.
    fn odd_size(&mut self, most: usize) -> usize {
        let size = self.random.pick(&self.style.sizes);
        size.min(most - (most + 1) % 2)
    }

    fn argument(&mut self, size: usize) -> usize {
        let sort = match self.random.below(20) {
            0 => self.random.pick(&[Sort::Numbers, Sort::Texts]),
            1..=4 => Sort::Truth,
            5..=8 if size == 1 => Sort::Text,
            _ => Sort::Number,
        };
        self.expression(size, sort)
    }

    /// A boolean for a target, true more often than not.
    fn target(&mut self, size: usize) -> usize {
        match self.random.below(10) {
            0..=4 if size == 1 => self.nodes.leaf("true", "-"),
            _ => self.expression(size, Sort::Truth),
        }
    }

    fn expression(&mut self, size: usize, sort: Sort) -> usize {
        // Operands that do not fit are errors, and must be tried too.
        let sort = match self.random.chance(2) {
            true => self.random.pick(&SORTS),
            false => sort,
        };
        match sort {
            _ if size == 1 => self.leaf(sort),
            Sort::Number if size % 2 == 1 => {
                let kind = self.random.pick(&["add", "sub", "mul", "div"]);
                self.of_numbers(kind, size)
            }
            _ => self.truth(size),
        }
    }

    fn leaf(&mut self, sort: Sort) -> usize {
        let constant = self.random.chance(40);
        match sort {
            Sort::Truth if constant => {
                let kind = self.random.pick(&["true", "true", "false"]);
                self.nodes.leaf(kind, "-")
            }
            Sort::Number if constant => self.nodes.leaf("num", &self.pool.number(self.random)),
            Sort::Text if constant => self.nodes.leaf("text", &self.pool.text(self.random)),
            _ => self.nodes.leaf("attr", &self.pool.name(sort, self.random)),
        }
    }

    /// An expression of at least two lines that gives a boolean.
    fn truth(&mut self, size: usize) -> usize {
        if size == 2 || self.random.chance(4) {
            return self.not(size);
        }
        // Large ones are mostly made of smaller ones that give booleans too.
        let connected = if size < 9 { 20 } else { 80 };
        if size.is_multiple_of(2) || self.random.chance(connected) {
            return self.connected(size);
        }
        match self.random.below(17) {
            0..=6 => self.of_numbers("greater", size),
            7 => self.of_numbers("equal", size),
            8 => self.equal(size),
            _ => self.membership(size),
        }
    }

    fn not(&mut self, size: usize) -> usize {
        let inner = self.expression(size - 1, Sort::Truth);
        self.nodes.over("not", &[inner])
    }

    fn connected(&mut self, size: usize) -> usize {
        let kind = self.random.pick(&["and", "or"]);
        let left = self.random.between(1, size - 2);
        let sides = [left, size - 1 - left].map(|side| self.expression(side, Sort::Truth));
        self.nodes.over(kind, &sides)
    }

    /// Two numbers of odd sizes, since only those can be filled with fitting operands.
    fn of_numbers(&mut self, kind: &str, size: usize) -> usize {
        let left = 2 * self.random.below((size - 1) / 2) + 1;
        let sides = [left, size - 1 - left].map(|side| self.expression(side, Sort::Number));
        self.nodes.over(kind, &sides)
    }

    fn equal(&mut self, size: usize) -> usize {
        let left = self.random.between(1, size - 2);
        let sort = match size {
            3 => self.random.pick(&[Sort::Text, Sort::Text, Sort::Truth]),
            _ => Sort::Truth,
        };
        let sides = [left, size - 1 - left].map(|side| self.expression(side, sort));
        self.nodes.over("equal", &sides)
    }

    fn membership(&mut self, size: usize) -> usize {
        let (member, set) = match size {
            3 => self
                .random
                .pick(&[(Sort::Text, Sort::Texts), (Sort::Number, Sort::Numbers)]),
            _ => (Sort::Number, Sort::Numbers),
        };
        let sides = [self.expression(size - 2, member), self.expression(1, set)];
        self.nodes.over("in", &sides)
    }
}

#[cfg(test)]
mod tests {
    use super::*;
    use crate::policy::parse;

    #[test]
    fn every_size_is_met_exactly() {
        let mut random = Random::new(5);
        for size in (2..=256).chain(2..=40) {
            let pool = Pool::new(&mut random);
            let file = policy(size, "p-over.all", MIXED, &pool, &mut random).to_bytes();
            assert_eq!(parse(&file).expect("a good tree").lines.len(), size);
        }
    }
}

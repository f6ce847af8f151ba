//! Grows good policies: trees with an exact number of lines, written out from the leaves up.

use super::nodes::{Nodes, Part};
use super::random::Random;
use super::table::Table;
use super::words::{self, Sort, SORTS};

const ALGORITHMS: [&str; 8] = [
    "p-over",
    "d-over",
    "d-unless-p",
    "p-unless-d",
    "first-app",
    "one-app",
    "weak-con",
    "strong-con",
];

/// The fewest lines that a part of each family can have.
const LEAST_EXPRESSION: usize = 1;
const LEAST_DUTY: usize = 2;
const LEAST_POLICY: usize = 2;
const LEAST_ITEM: usize = 3;
const LEAST_SET: usize = 5;

/// A policy with exactly this many lines after the header; two is the fewest there can be.
pub fn policy(lines: usize, random: &mut Random) -> Table {
    let mut grower = Grower {
        nodes: Nodes::default(),
        random,
    };
    grower.policy(lines);
    let scattered = grower.random.chance(40);
    grower.nodes.written(scattered, grower.random)
}

struct Grower<'a> {
    nodes: Nodes,
    random: &'a mut Random,
}

impl Grower<'_> {
    fn add(&mut self, kind: &str, parts: Vec<Part>) -> usize {
        self.nodes.add(kind, parts)
    }

    fn expression(&mut self, size: usize, sort: Sort) -> usize {
        // Operands of the wrong sort are accepted too, and must be tried.
        let sort = if self.random.chance(8) {
            self.random.pick(&SORTS)
        } else {
            sort
        };
        match (size, sort) {
            (LEAST_EXPRESSION, _) => self.leaf(sort),
            (2, _) => self.not(size),
            (_, Sort::Number) => {
                let kind = self.random.pick(&["add", "sub", "mul", "div"]);
                self.binary(kind, size, Sort::Number, Sort::Number)
            }
            _ => self.truth(size),
        }
    }

    fn leaf(&mut self, sort: Sort) -> usize {
        let attr = self.random.chance(50);
        let (kind, word) = match sort {
            Sort::Truth if !attr => return self.constant(),
            Sort::Number if !attr => ("num", words::number(self.random)),
            Sort::Text if !attr => ("text", words::text(self.random)),
            _ => ("attr", words::name(sort, self.random)),
        };
        self.add(kind, vec![Part::Word(word)])
    }

    fn constant(&mut self) -> usize {
        let kind = self.random.pick(&["true", "true", "false"]);
        self.add(kind, Vec::new())
    }

    fn not(&mut self, size: usize) -> usize {
        let inner = self.expression(size - 1, Sort::Truth);
        self.add("not", vec![Part::Node(inner)])
    }

    /// An expression of at least three lines that gives a boolean.
    fn truth(&mut self, size: usize) -> usize {
        let plain = self.random.pick(&[Sort::Number, Sort::Text, Sort::Truth]);
        // Large expressions are mostly made of smaller ones that give booleans.
        match self.random.below(if size < 7 { 10 } else { 6 }) {
            0 => self.not(size),
            1 | 2 => self.binary("and", size, Sort::Truth, Sort::Truth),
            3 | 4 => self.binary("or", size, Sort::Truth, Sort::Truth),
            5 => self.binary("greater", size, Sort::Number, Sort::Number),
            6 => self.binary("in", size, Sort::Number, Sort::Numbers),
            7 => self.binary("in", size, Sort::Text, Sort::Texts),
            _ => self.binary("equal", size, plain, plain),
        }
    }

    fn binary(&mut self, kind: &str, size: usize, left: Sort, right: Sort) -> usize {
        let room = size - 1;
        // Lopsided halves make the deepest trees.
        let first = match self.random.below(4) {
            0 => 1,
            1 => room - 1,
            _ => self.random.between(1, room - 1),
        };
        let left = self.expression(first, left);
        let right = self.expression(room - first, right);
        self.add(kind, vec![Part::Node(left), Part::Node(right)])
    }

    /// A chain of duties; the earlier ones get what the argument leaves over.
    fn duty(&mut self, size: usize) -> usize {
        let room = size - 1;
        let chained = room > LEAST_DUTY && self.random.chance(75);
        let most = if chained {
            (room - LEAST_DUTY).min(4)
        } else {
            room
        };
        let argument = if chained {
            self.random.between(1, most)
        } else {
            room
        };
        let sort = self
            .random
            .pick(&[Sort::Number, Sort::Number, Sort::Text, Sort::Truth]);
        let kind = self.random.pick(&["must", "may"]);
        let action = self.random.below(16).to_string();
        let mut parts = vec![
            Part::Word(action),
            Part::Node(self.expression(argument, sort)),
        ];
        if chained {
            parts.push(Part::Node(self.duty(room - argument)));
        }
        self.add(kind, parts)
    }

    /// A chain of items; without earlier ones the policy inside takes all the room.
    fn item(&mut self, size: usize) -> usize {
        let room = size - 1;
        let chained = room >= LEAST_POLICY + LEAST_ITEM && self.random.chance(75);
        let most = if self.random.chance(70) { 12 } else { 256 };
        let inner = match chained {
            true => self
                .random
                .between(LEAST_POLICY, most.min(room - LEAST_ITEM)),
            false => room,
        };
        let mut parts = vec![Part::Node(self.policy(inner))];
        if chained {
            parts.push(Part::Node(self.item(room - inner)));
        }
        self.add("item", parts)
    }

    fn policy(&mut self, size: usize) -> usize {
        let simple = if size > 20 { 4 } else { 30 };
        if size < LEAST_SET || self.random.chance(simple) {
            self.rule(size)
        } else {
            self.set(size)
        }
    }

    fn rule(&mut self, size: usize) -> usize {
        let room = size - 1;
        let bound = room > LEAST_DUTY && self.random.chance(75);
        let most = if bound {
            (room - LEAST_DUTY).min(9)
        } else {
            room
        };
        let target = if bound {
            self.random.between(1, most)
        } else {
            room
        };
        let mut parts = vec![Part::Node(self.expression(target, Sort::Truth))];
        if bound {
            parts.push(Part::Node(self.duty(room - target)));
        }
        let kind = self.random.pick(&["permit", "deny"]);
        self.add(kind, parts)
    }

    fn set(&mut self, size: usize) -> usize {
        let strategy = self.random.pick(&["all", "greedy"]);
        let algorithm = format!("{}.{strategy}", self.random.pick(&ALGORITHMS));
        let room = size - 1;
        let target = self.random.between(1, (room - LEAST_ITEM).min(5));
        let mut rest = room - target;
        let on_permit = self.own_duty(&mut rest);
        let on_deny = self.own_duty(&mut rest);
        let target = Part::Node(self.expression(target, Sort::Truth));
        let item = Part::Node(self.item(rest));
        self.add(
            "set",
            vec![Part::Word(algorithm), target, item, on_permit, on_deny],
        )
    }

    /// A duty of a set if there is room for one beside its items.
    fn own_duty(&mut self, rest: &mut usize) -> Part {
        if *rest < LEAST_ITEM + LEAST_DUTY || self.random.chance(50) {
            return Part::Word("-".to_owned());
        }
        let size = self.random.between(LEAST_DUTY, (*rest - LEAST_ITEM).min(8));
        *rest -= size;
        Part::Node(self.duty(size))
    }
}

#[cfg(test)]
mod tests {
    use super::*;
    use crate::policy::parse;

    #[test]
    fn every_size_is_met_exactly() {
        let mut random = Random::new(2);
        for size in (2..=256).chain(2..=40) {
            let file = policy(size, &mut random).to_bytes();
            assert_eq!(parse(&file).expect("a good tree").lines.len(), size);
        }
    }
}

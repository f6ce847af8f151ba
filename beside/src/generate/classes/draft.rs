//! A small policy in the making, with at most three names.

use super::palette::{self, Palette, NUMBERS, TEXTS};
use crate::generate::nodes::Nodes;
use crate::generate::random::Random;
use crate::generate::{Case, FORCES};

const NAMES: [&str; 3] = ["a", "b", "c"];

/// What the argument of a duty is.
#[derive(Clone, Copy, Debug)]
pub enum Argument {
    /// The reading of the name in this place.
    Name(usize),
    Constant,
}

pub struct Draft<'a> {
    pub nodes: Nodes,
    pub random: &'a mut Random,
    /// How many of the names it asks for.
    names: usize,
}

impl<'a> Draft<'a> {
    pub fn new(random: &'a mut Random) -> Draft<'a> {
        Draft {
            nodes: Nodes::default(),
            random,
            names: 0,
        }
    }

    /// The reading of the name in this place.
    pub fn attr(&mut self, place: usize) -> usize {
        self.names = self.names.max(place + 1);
        self.nodes.leaf("attr", NAMES[place])
    }

    /// Of `true`, `false`, a number and a text, the one with this number.
    pub fn constant(&mut self, sort: usize) -> usize {
        match sort % 4 {
            0 => self.always(),
            1 => self.nodes.leaf("false", "-"),
            2 => self.nodes.leaf("num", self.random.pick(&NUMBERS)),
            _ => self.nodes.leaf("text", self.random.pick(&TEXTS)),
        }
    }

    pub fn always(&mut self) -> usize {
        self.nodes.leaf("true", "-")
    }

    /// A duty about an expression, last in a chain.
    pub fn duty(&mut self, argument: usize, earlier: Option<usize>) -> Option<usize> {
        let (force, action) = (self.random.pick(&FORCES), self.random.below(10));
        Some(self.nodes.duty(force, action, argument, earlier))
    }

    /// The last of a chain of duties with these arguments, none for none.
    pub fn chain(&mut self, arguments: &[Argument]) -> Option<usize> {
        arguments.iter().fold(None, |earlier, argument| {
            let argument = match argument {
                Argument::Name(place) => self.attr(*place),
                Argument::Constant => {
                    let sort = self.random.below(4);
                    self.constant(sort)
                }
            };
            self.duty(argument, earlier)
        })
    }

    /// A chain of up to so many duties about the first so many names.
    pub fn some_duties(&mut self, most: usize, names: usize) -> Option<usize> {
        let count = self.random.between(0, most);
        let arguments: Vec<Argument> = (0..count)
            .map(|_| match self.random.chance(35) {
                true => Argument::Constant,
                false => Argument::Name(self.random.below(names)),
            })
            .collect();
        self.chain(&arguments)
    }

    /// A rule about the reading of the name in this place.
    pub fn rule(&mut self, effect: &str, place: usize, duties: &[Argument]) -> usize {
        let duty = self.chain(duties);
        let target = self.attr(place);
        self.nodes.rule(effect, target, duty)
    }

    /// A set of these policies in their order.
    pub fn set(
        &mut self,
        combining: &str,
        target: usize,
        policies: &[usize],
        duties: [Option<usize>; 2],
    ) -> usize {
        let items = policies
            .iter()
            .fold(None, |last, &policy| Some(self.nodes.item(policy, last)));
        let item = items.expect("a set has a policy");
        self.nodes.set(combining, target, item, duties)
    }

    /// The case with all rows of these palettes.
    fn finished(self, palettes: impl Fn(usize) -> Vec<Palette>) -> Case {
        let scattered = self.random.chance(25);
        let names = self.names.max(1);
        let readings = palette::every_row(&NAMES[..names], &palettes(names));
        Case {
            policy: self.nodes.written(scattered, self.random).to_bytes(),
            readings: readings.to_bytes(),
        }
    }
}

/// A case with what is drawn, over all rows of the palettes of this turn.
pub fn case(turn: usize, random: &mut Random, draw: impl FnOnce(&mut Draft<'_>)) -> Case {
    let mut draft = Draft::new(random);
    draw(&mut draft);
    draft.finished(|names| palette::meeting(names, turn))
}

/// The same with numbers at the ends of the range.
pub fn far_case(turn: usize, random: &mut Random, draw: impl FnOnce(&mut Draft<'_>)) -> Case {
    let mut draft = Draft::new(random);
    draw(&mut draft);
    draft.finished(|names| palette::far(names, turn))
}

//! A tree in the making, whose nodes get their line numbers only when it is written out.

use super::random::Random;
use super::table::{words, Table, Word};
use crate::policy::HEADER;

/// A field of a line: a plain word, or a node that the line names.
#[derive(Clone, Debug)]
pub enum Part {
    Word(String),
    Node(usize),
}

impl Part {
    /// The field of a line that does without.
    pub fn none() -> Part {
        Part::Word("-".to_owned())
    }

    pub fn optional(node: Option<usize>) -> Part {
        node.map_or_else(Part::none, Part::Node)
    }
}

#[derive(Clone, Debug, Default)]
pub struct Nodes {
    nodes: Vec<Vec<Part>>,
}

impl Nodes {
    pub fn add(&mut self, kind: &str, parts: Vec<Part>) -> usize {
        let mut node = vec![Part::Word(kind.to_owned())];
        node.extend(parts);
        node.resize_with(6, Part::none);
        self.nodes.push(node);
        self.nodes.len() - 1
    }

    /// A constant or an attribute; those without a word of their own take `-` for it.
    pub fn leaf(&mut self, kind: &str, word: &str) -> usize {
        self.add(kind, vec![Part::Word(word.to_owned())])
    }

    /// An operator over these sides.
    pub fn over(&mut self, kind: &str, sides: &[usize]) -> usize {
        let parts = sides.iter().copied().map(Part::Node).collect();
        self.add(kind, parts)
    }

    pub fn duty(
        &mut self,
        force: &str,
        action: usize,
        argument: usize,
        earlier: Option<usize>,
    ) -> usize {
        let action = Part::Word(action.to_string());
        let parts = vec![action, Part::Node(argument), Part::optional(earlier)];
        self.add(force, parts)
    }

    pub fn rule(&mut self, effect: &str, target: usize, duty: Option<usize>) -> usize {
        self.add(effect, vec![Part::Node(target), Part::optional(duty)])
    }

    pub fn item(&mut self, policy: usize, earlier: Option<usize>) -> usize {
        self.add("item", vec![Part::Node(policy), Part::optional(earlier)])
    }

    /// A set with its own duties, first those on permit and then those on deny.
    pub fn set(
        &mut self,
        combining: &str,
        target: usize,
        item: usize,
        duties: [Option<usize>; 2],
    ) -> usize {
        let mut parts = vec![Part::Word(combining.to_owned())];
        parts.extend([target, item].map(Part::Node));
        parts.extend(duties.map(Part::optional));
        self.add("set", parts)
    }

    /// How many lines there are so far.
    pub fn count(&self) -> usize {
        self.nodes.len()
    }

    /// The table, with every node below those that it names.
    pub fn written(&self, scattered: bool, random: &mut Random) -> Table {
        let mut numbers = vec![0; self.nodes.len()];
        let order = self.order(scattered, random);
        for (place, &node) in order.iter().enumerate() {
            numbers[node] = place + 1;
        }
        let word = |part: &Part| -> Word {
            match part {
                Part::Word(word) => word.clone().into_bytes(),
                Part::Node(node) => numbers[*node].to_string().into_bytes(),
            }
        };
        let header = words(&String::from_utf8_lossy(HEADER));
        let body = order
            .iter()
            .map(|&node| self.nodes[node].iter().map(word).collect());
        Table {
            lines: std::iter::once(header).chain(body).collect(),
        }
    }

    /// Nodes in an order that puts each after the ones it names, scattered or tidy.
    fn order(&self, scattered: bool, random: &mut Random) -> Vec<usize> {
        let mut waiting: Vec<usize> = self.nodes.iter().map(|node| named(node).count()).collect();
        let mut parents = vec![None; self.nodes.len()];
        for (parent, node) in self.nodes.iter().enumerate() {
            named(node).for_each(|child| parents[child] = Some(parent));
        }
        let mut ready: Vec<usize> = (0..waiting.len())
            .filter(|&node| waiting[node] == 0)
            .collect();
        let mut order = Vec::new();
        while !ready.is_empty() {
            let last = ready.len() - 1;
            let place = if scattered {
                random.below(ready.len())
            } else {
                last
            };
            let node = ready.swap_remove(place);
            order.push(node);
            if let Some(parent) = parents[node] {
                waiting[parent] -= 1;
                if waiting[parent] == 0 {
                    ready.push(parent);
                }
            }
        }
        order
    }
}

fn named(node: &[Part]) -> impl Iterator<Item = usize> + '_ {
    node.iter().filter_map(|part| match part {
        Part::Node(child) => Some(*child),
        Part::Word(_) => None,
    })
}

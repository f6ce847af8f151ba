//! Every operator on every sort of operand, so that the answer shows what came out.

use super::nodes::Nodes;
use super::random::Random;
use super::table::{words, Table};
use super::{Case, FORCES};
use crate::line::Operator;
use crate::value::Value;

const CELLS: [&str; 12] = [
    "-",
    "!",
    "true",
    "false",
    "0",
    "-7",
    "2147483647",
    "-2147483648",
    "roof",
    "picker",
    "-7,0,2147483647",
    "door,roof",
];

/// Around zero, around the ends of the range, and where products pass those ends.
const NUMBERS: [i32; 22] = [
    0,
    1,
    -1,
    2,
    -2,
    3,
    7,
    -7,
    10,
    46_340,
    46_341,
    -46_341,
    65_536,
    -65_536,
    1_073_741_823,
    1_073_741_824,
    -1_073_741_824,
    -1_073_741_825,
    i32::MAX - 1,
    i32::MAX,
    i32::MIN + 1,
    i32::MIN,
];

/// Beginnings of one another, and texts of full length that differ in one byte.
const TEXTS: [&str; 12] = [
    "a",
    "aa",
    "a-",
    "a0",
    "b",
    "roof",
    "roof-2",
    "truee",
    "sixteen-bytes-99",
    "sixteen-bytes-98",
    "tixteen-bytes-99",
    "sixteen-bytes-9",
];

const ROWS: usize = 6;

pub fn cases(random: &mut Random) -> Vec<Case> {
    let mut cases = every_pair(random);
    cases.extend(every_cell(random));
    cases.extend(number_pairs(random));
    cases.extend(text_pairs(random));
    cases.extend(memberships(random));
    cases
}

/// Each operator on each ordered pair of cells, one case for each.
fn every_pair(random: &mut Random) -> Vec<Case> {
    let mut cases = Vec::new();
    for operator in Operator::ALL.map(Operator::word) {
        for (left, right) in pairs(&CELLS) {
            let policy = shown(random, |nodes, telling| {
                // The second time a constant does instead, where there is one.
                let sides = match telling {
                    1 => {
                        [("a", left), ("b", right)].map(|(name, cell)| stand_in(nodes, name, cell))
                    }
                    _ => ["a", "b"].map(|name| nodes.leaf("attr", name)),
                };
                nodes.over(operator, &sides)
            });
            cases.push(case(&policy, "a b", &[format!("{left} {right}")]));
        }
    }
    cases
}

/// A leaf that has the cell's value without looking it up, if any leaf can.
fn stand_in(nodes: &mut Nodes, name: &str, cell: &str) -> usize {
    match Value::of_cell(cell.as_bytes()) {
        Some(Value::Missing) => nodes.leaf("attr", "no-such-name"),
        Some(Value::Boolean(_)) => nodes.leaf(cell, "-"),
        Some(Value::Number(_)) => nodes.leaf("num", cell),
        Some(Value::Text(_)) => nodes.leaf("text", cell),
        _ => nodes.leaf("attr", name),
    }
}

/// A rule that tells a value: it permits or denies with the value as its duty, or is
/// not-app where the value is missing, or indet where it is an error.
///
/// The value is asked for three times, since no line may be named twice. A value that
/// equals itself is neither missing nor an error.
fn shown(random: &mut Random, mut value: impl FnMut(&mut Nodes, usize) -> usize) -> Table {
    let mut nodes = Nodes::default();
    let sides = [value(&mut nodes, 0), value(&mut nodes, 1)];
    let target = nodes.over("equal", &sides);
    let argument = value(&mut nodes, 2);
    let duty = nodes.duty(random.pick(&FORCES), random.below(16), argument, None);
    nodes.rule(random.pick(&["permit", "deny"]), target, Some(duty));
    nodes.written(false, random)
}

/// Each cell below `not`, as a target, and as the argument of a duty.
fn every_cell(random: &mut Random) -> Vec<Case> {
    let mut cases = Vec::new();
    for rows in chunks(CELLS.map(str::to_owned).to_vec()) {
        let not = shown(random, |nodes, _| {
            let inner = nodes.leaf("attr", "a");
            nodes.over("not", &[inner])
        });
        cases.push(case(&not, "a", &rows));
        for effect in ["permit", "deny"] {
            for policy in [
                rule_about(effect, random),
                bound_rule(effect, random),
                set_about(effect, random),
                bound_set(effect, random),
            ] {
                cases.push(case(&policy, "a", &rows));
            }
        }
    }
    cases
}

fn rule_about(effect: &str, random: &mut Random) -> Table {
    let mut nodes = Nodes::default();
    let target = nodes.leaf("attr", "a");
    nodes.rule(effect, target, None);
    nodes.written(false, random)
}

fn bound_rule(effect: &str, random: &mut Random) -> Table {
    let mut nodes = Nodes::default();
    always(&mut nodes, effect, true, random);
    nodes.written(false, random)
}

fn set_about(effect: &str, random: &mut Random) -> Table {
    let mut nodes = Nodes::default();
    let rule = always(&mut nodes, effect, false, random);
    let item = nodes.item(rule, None);
    let target = nodes.leaf("attr", "a");
    nodes.set("d-over.all", target, item, [None; 2]);
    nodes.written(false, random)
}

/// Bound on both decisions, so that the duties for the other one must be left alone.
fn bound_set(effect: &str, random: &mut Random) -> Table {
    let mut nodes = Nodes::default();
    let rule = always(&mut nodes, effect, false, random);
    let item = nodes.item(rule, None);
    let target = nodes.leaf("true", "-");
    let duties = ["permit", "deny"].map(|decision| {
        let argument = match decision == effect {
            true => nodes.leaf("attr", "a"),
            false => nodes.leaf("attr", "no-such-name"),
        };
        Some(nodes.duty(random.pick(&FORCES), random.below(16), argument, None))
    });
    nodes.set("p-over.greedy", target, item, duties);
    nodes.written(false, random)
}

/// A rule with a true target, whose duty asks for the cell.
fn always(nodes: &mut Nodes, effect: &str, bound: bool, random: &mut Random) -> usize {
    let target = nodes.leaf("true", "-");
    let duty = bound.then(|| {
        let argument = nodes.leaf("attr", "a");
        nodes.duty(random.pick(&FORCES), random.below(16), argument, None)
    });
    nodes.rule(effect, target, duty)
}

fn number_pairs(random: &mut Random) -> Vec<Case> {
    let numbers = NUMBERS.map(|number| number.to_string());
    let numbers = numbers.each_ref().map(String::as_str);
    let operators = ["add", "sub", "mul", "div", "greater"];
    let rows: Vec<String> = joined(&numbers);
    operators
        .into_iter()
        .flat_map(|operator| on_rows(operator, &rows, random))
        .collect()
}

fn text_pairs(random: &mut Random) -> Vec<Case> {
    on_rows("equal", &joined(&TEXTS), random)
}

/// One operator over two readings, with these rows in as many cases as they need.
fn on_rows(operator: &str, rows: &[String], random: &mut Random) -> Vec<Case> {
    let mut cases = Vec::new();
    for rows in chunks(rows.to_vec()) {
        let policy = shown(random, |nodes, _| {
            let sides = ["a", "b"].map(|name| nodes.leaf("attr", name));
            nodes.over(operator, &sides)
        });
        cases.push(case(&policy, "a b", &rows));
    }
    cases
}

/// A set of each size, asked for each of its members and for one that it lacks.
fn memberships(random: &mut Random) -> Vec<Case> {
    let mut rows = Vec::new();
    for size in 2..=8 {
        let numbers: Vec<String> = NUMBERS[22 - size..].iter().map(i32::to_string).collect();
        let texts: Vec<String> = TEXTS[11 - size..11].iter().map(|&t| t.to_owned()).collect();
        for (members, stranger) in [(numbers, "10"), (texts, "sixteen-bytes-9")] {
            let set = members.join(",");
            let asked = members.iter().map(String::as_str).chain([stranger]);
            rows.extend(asked.map(|member| format!("{member} {set}")));
        }
    }
    on_rows("in", &rows, random)
}

fn pairs<'a>(cells: &'a [&'a str]) -> impl Iterator<Item = (&'a str, &'a str)> {
    cells
        .iter()
        .flat_map(|&left| cells.iter().map(move |&right| (left, right)))
}

fn joined(cells: &[&str]) -> Vec<String> {
    pairs(cells)
        .map(|(left, right)| format!("{left} {right}"))
        .collect()
}

fn chunks(rows: Vec<String>) -> Vec<Vec<String>> {
    rows.chunks(ROWS).map(<[String]>::to_vec).collect()
}

fn case(policy: &Table, names: &str, rows: &[String]) -> Case {
    let mut lines = vec![words(names)];
    lines.extend(rows.iter().map(|row| words(row)));
    Case {
        policy: policy.to_bytes(),
        readings: Table { lines }.to_bytes(),
    }
}

#[cfg(test)]
mod tests {
    use super::*;
    use crate::trial;

    /// What the row says about one operator on one pair of cells: the value that a duty tells,
    /// or else the decision.
    fn told(operator: &str, left: &str, right: &str) -> String {
        let mut random = Random::new(3);
        let policy = shown(&mut random, |nodes, _| {
            let sides = ["a", "b"].map(|name| nodes.leaf("attr", name));
            nodes.over(operator, &sides)
        });
        let case = case(&policy, "a b", &[format!("{left} {right}")]);
        let answer = trial::answer(&case.policy, &case.readings);
        let row = answer.lines().nth(1).expect("one row");
        let words: Vec<&str> = row.split(' ').collect();
        let [_, decision, _, _, _, _, _, duty @ ..] = &words[..] else {
            panic!("too few words: {row}");
        };
        (*duty.last().unwrap_or(decision)).to_owned()
    }

    #[test]
    fn missing_values_errors_and_all_others_show() {
        assert_eq!(told("add", "-", "1"), "not-app");
        assert_eq!(told("add", "roof", "1"), "indet");
        assert_eq!(told("add", "2", "-1"), "1");
        assert_eq!(told("and", "false", "!"), "false");
        assert_eq!(told("in", "a", "a,b"), "true");
    }
}

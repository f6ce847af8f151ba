//! A policy and a row for timing decisions, with the same mix of lines at every size.

use super::nodes::Nodes;
use super::random::Random;

/// The lines of one round: two rules with what they need.
pub const LINES_OF_A_ROUND: usize = 16;

/// Every round asks for the same five names, so that looking one up costs the same at every
/// size. Its first rule applies and its second does not.
const READINGS: &[u8] =
    b"sub/role res/owner env/temp res/valve env/frost\ngrower grower 31 4 false\n";

/// A policy of this many rounds below one set, which goes through all of them.
pub fn decision_policy(rounds: usize) -> Vec<u8> {
    let mut nodes = Nodes::default();
    let mut last = None;
    for round in 0..rounds {
        let permit = permit(&mut nodes, round);
        let permit = nodes.item(permit, last);
        let deny = deny(&mut nodes, round);
        last = Some(nodes.item(deny, Some(permit)));
    }
    let target = nodes.leaf("true", "-");
    let item = last.expect("at least one round");
    nodes.set("p-over.all", target, item, [None; 2]);
    nodes.written(false, &mut Random::new(0)).to_bytes()
}

/// A row that has a value for each name of the policy.
pub fn decision_row() -> Vec<u8> {
    READINGS.to_vec()
}

/// Two comparisons and a duty: ten lines.
fn permit(nodes: &mut Nodes, round: usize) -> usize {
    let sides = ["sub/role", "res/owner"].map(|name| nodes.leaf("attr", name));
    let same = nodes.over("equal", &sides);
    let sides = [nodes.leaf("attr", "env/temp"), nodes.leaf("num", "30")];
    let warm = nodes.over("greater", &sides);
    let target = nodes.over("and", &[same, warm]);
    let argument = nodes.leaf("attr", "res/valve");
    let duty = nodes.duty("must", round % 16, argument, None);
    nodes.rule("permit", target, Some(duty))
}

/// Four lines. In the first round it is two fewer, which are the two of the set: `true`
/// moves there and `set` stands for `and`. So nothing else tells the sizes apart.
fn deny(nodes: &mut Nodes, round: usize) -> usize {
    let mut target = nodes.leaf("attr", "env/frost");
    if round > 0 {
        let always = nodes.leaf("true", "-");
        target = nodes.over("and", &[always, target]);
    }
    nodes.rule("deny", target, None)
}

#[cfg(test)]
mod tests {
    use super::*;
    use crate::combining::Decision;
    use crate::deciding::judgements;
    use crate::{policy, readings};
    use std::collections::BTreeMap;

    fn kinds(rounds: usize) -> BTreeMap<String, usize> {
        let file = String::from_utf8(decision_policy(rounds)).unwrap();
        let mut kinds = BTreeMap::new();
        for line in file.lines().skip(1) {
            let kind = line.split(' ').next().unwrap().to_owned();
            *kinds.entry(kind).or_default() += 1;
        }
        kinds
    }

    #[test]
    fn the_mix_is_the_same_at_every_size() {
        let small = kinds(1);
        assert_eq!(small["attr"], 5);
        for rounds in [4, 16] {
            let mut large = kinds(rounds);
            assert_eq!(large.values().sum::<usize>(), rounds * LINES_OF_A_ROUND);
            // Where the first round has the set, each other round has one more `and`.
            *large.get_mut("set").unwrap() += rounds - 1;
            *large.get_mut("and").unwrap() -= rounds - 1;
            assert!(small
                .iter()
                .all(|(kind, count)| large[kind] == rounds * count));
        }
    }

    #[test]
    fn half_of_the_rules_apply() {
        let readings = readings::parse(&decision_row()).unwrap();
        for rounds in [1, 4, 16] {
            let policy = policy::parse(&decision_policy(rounds)).unwrap();
            assert_eq!(policy.lines.len(), rounds * LINES_OF_A_ROUND);
            let response = judgements(&policy, &readings).next().unwrap().response();
            assert_eq!(response.decision, Decision::Permit);
            assert_eq!(response.duties.len(), rounds);
        }
    }
}

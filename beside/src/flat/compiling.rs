//! Condition lines written from the lines of a policy.

use std::sync::LazyLock;

use super::{Condition, Conditions, Place};
use crate::combining::{self, Decision};
use crate::line::{Algorithm, Effect, Line, LineNumber};
use crate::policy::Policy;

/// Known beforehand, or told by a condition line.
#[derive(Clone, Copy, Debug, PartialEq, Eq)]
enum Truth {
    Known(bool),
    At(Place),
}

/// One for each of `Decision::ALL`; whatever the readings, one of them holds.
type Truths = [Truth; 4];

const NONE: Truths = [Truth::Known(false); 4];

/// What was written for a line of the policy.
#[derive(Clone, Copy, Debug, PartialEq, Eq)]
enum Written {
    Value(Place),
    /// Whether a duty and those before it in its chain are fulfilled.
    Fulfilled(Truth),
    /// The decision of a policy, or of an item and those before it in its chain.
    Decided(Truths),
}

/// How an algorithm goes on from one decision to the next, by their places in `Decision::ALL`.
struct Steps {
    first: [usize; 4],
    next: [[usize; 4]; 4],
    /// The place whose truth is written as the negation of the others, which saves lines.
    rest: usize,
}

/// By the place of the algorithm in `Algorithm::ALL`.
static STEPS: LazyLock<[Steps; 8]> = LazyLock::new(|| Algorithm::ALL.map(Steps::of));

impl Steps {
    fn of(algorithm: Algorithm) -> Steps {
        let place = |decisions: &[Decision]| combining::combined(algorithm, decisions) as usize;
        let first = Decision::ALL.map(|child| place(&[child]));
        let next = Decision::ALL.map(|so_far| Decision::ALL.map(|child| place(&[so_far, child])));
        let lines = |rest: &usize| next.iter().map(|row| lines_of(row, *rest)).sum::<usize>();
        let rest = (0..4).min_by_key(lines).unwrap_or(0);
        Steps { first, next, rest }
    }
}

/// How many lines a row takes at most where the truth at `rest` is left out.
fn lines_of(row: &[usize; 4], rest: usize) -> usize {
    if is_constant(row) {
        return usize::from(row[0] != rest);
    }
    2 * row.iter().filter(|&&next| next != rest).count()
}

fn is_constant(row: &[usize; 4]) -> bool {
    row.iter().all(|&next| next == row[0])
}

impl Conditions {
    /// The conditions of an accepted policy.
    pub fn of_policy(policy: &Policy) -> Conditions {
        let algorithms = item_algorithms(policy);
        let mut draft = Draft::default();
        let mut written = Vec::with_capacity(policy.lines.len());
        for (place, line) in policy.lines.iter().enumerate() {
            let found = draft.line(place, line, algorithms[place], &Above(&written));
            written.push(found);
        }
        let decision = Above(&written).decided(policy.lines.len());
        let marks = decision.map(|truth| draft.marked(truth));
        Conditions {
            lines: draft.lines,
            texts: draft.texts,
            marks,
        }
    }
}

/// For each item line the algorithm of the set that it belongs to, which stands further down.
fn item_algorithms(policy: &Policy) -> Vec<Algorithm> {
    let mut algorithms = vec![Algorithm::PermitOverrides; policy.lines.len()];
    for (place, line) in policy.lines.iter().enumerate().rev() {
        match *line {
            Line::Set {
                algorithm, item, ..
            } => algorithms[item - 1] = algorithm,
            Line::Item {
                earlier: Some(earlier),
                ..
            } => algorithms[earlier - 1] = algorithms[place],
            _ => {}
        }
    }
    algorithms
}

/// What was written for the lines so far.
struct Above<'a>(&'a [Written]);

impl Above<'_> {
    fn value(&self, line: LineNumber) -> Place {
        match self.0[line - 1] {
            Written::Value(place) => place,
            other => unreachable!("checked to be an expression: {other:?}"),
        }
    }

    /// Whether a chain of duties is fulfilled; one without any is.
    fn fulfilled(&self, last: Option<LineNumber>) -> Truth {
        match last.map(|line| self.0[line - 1]) {
            None => Truth::Known(true),
            Some(Written::Fulfilled(truth)) => truth,
            Some(other) => unreachable!("checked to be a duty: {other:?}"),
        }
    }

    fn decided(&self, line: LineNumber) -> Truths {
        match self.0[line - 1] {
            Written::Decided(truths) => truths,
            other => unreachable!("checked to be a policy or an item: {other:?}"),
        }
    }
}

/// The condition lines written so far.
#[derive(Default)]
struct Draft {
    lines: Vec<Condition>,
    texts: Vec<String>,
}

impl Draft {
    fn line(&mut self, place: usize, line: &Line, algorithm: Algorithm, above: &Above) -> Written {
        match line {
            Line::Duty {
                argument, earlier, ..
            } => {
                let fulfilled = self.truth(Condition::Fulfilled(above.value(*argument)));
                Written::Fulfilled(self.both(above.fulfilled(*earlier), fulfilled))
            }
            Line::Item { policy, earlier } => {
                let earlier = earlier.map(|item| above.decided(item));
                Written::Decided(self.item(algorithm, earlier, above.decided(*policy)))
            }
            Line::Rule {
                effect,
                target,
                duty,
            } => {
                let duties = [above.fulfilled(*duty); 2];
                Written::Decided(self.aimed(above.value(*target), of_effect(*effect), duties))
            }
            Line::Set {
                target,
                item,
                on_permit,
                on_deny,
                ..
            } => {
                let duties = [*on_permit, *on_deny].map(|last| above.fulfilled(last));
                Written::Decided(self.aimed(above.value(*target), above.decided(*item), duties))
            }
            expression => {
                let copy = self.copy(place, expression, above);
                Written::Value(self.add(copy))
            }
        }
    }

    fn copy(&mut self, place: usize, line: &Line, above: &Above) -> Condition {
        match line {
            Line::Attr(_) => Condition::Reading(narrow(place)),
            Line::Num(number) => Condition::Number(*number),
            Line::Text(text) => {
                self.texts.push(text.clone());
                Condition::Text(narrow(self.texts.len() - 1))
            }
            Line::Boolean(boolean) => Condition::Truth(*boolean),
            Line::Not(inner) => Condition::Not(above.value(*inner)),
            Line::Binary {
                operator,
                left,
                right,
            } => Condition::Binary(*operator, above.value(*left), above.value(*right)),
            other => unreachable!("no other line is an expression: {other:?}"),
        }
    }

    fn item(&mut self, algorithm: Algorithm, so_far: Option<Truths>, child: Truths) -> Truths {
        let steps = &STEPS[algorithm as usize];
        match so_far {
            None => self.first_item(steps, child),
            Some(so_far) => self.next_item(steps, so_far, child),
        }
    }

    fn first_item(&mut self, steps: &Steps, child: Truths) -> Truths {
        let mut truths = NONE;
        for (truth, next) in child.into_iter().zip(steps.first) {
            truths[next] = self.either(truths[next], truth);
        }
        truths
    }

    /// The decision of one item more, after what was decided so far.
    fn next_item(&mut self, steps: &Steps, so_far: Truths, child: Truths) -> Truths {
        let mut truths = NONE;
        for (before, row) in so_far.into_iter().zip(&steps.next) {
            if is_constant(row) {
                if row[0] != steps.rest {
                    truths[row[0]] = self.either(truths[row[0]], before);
                }
                continue;
            }
            for (truth, &next) in child.into_iter().zip(row) {
                if next != steps.rest {
                    let both = self.both(before, truth);
                    truths[next] = self.either(truths[next], both);
                }
            }
        }
        truths[steps.rest] = self.none_of(truths);
        truths
    }

    /// The decision of a policy from that of its effect or items, by its target and its duties on
    /// permit and on deny.
    fn aimed(&mut self, target: Place, inner: Truths, [on_permit, on_deny]: [Truth; 2]) -> Truths {
        let applies = self.truth(Condition::True(target));
        let absent = self.truth(Condition::Absent(target));
        let mut applied = |truth, duties| {
            let both = self.both(applies, truth);
            self.both(both, duties)
        };
        let permit = applied(inner[0], on_permit);
        let deny = applied(inner[1], on_deny);
        let passed = applied(inner[2], Truth::Known(true));
        let not_applicable = self.either(absent, passed);
        let indeterminate = self.none_of([permit, deny, not_applicable, Truth::Known(false)]);
        [permit, deny, not_applicable, indeterminate]
    }

    fn both(&mut self, left: Truth, right: Truth) -> Truth {
        match (left, right) {
            (Truth::Known(true), other) | (other, Truth::Known(true)) => other,
            (Truth::Known(false), _) | (_, Truth::Known(false)) => Truth::Known(false),
            (Truth::At(left), Truth::At(right)) => self.truth(Condition::Both(left, right)),
        }
    }

    fn either(&mut self, left: Truth, right: Truth) -> Truth {
        match (left, right) {
            (Truth::Known(false), other) | (other, Truth::Known(false)) => other,
            (Truth::Known(true), _) | (_, Truth::Known(true)) => Truth::Known(true),
            (Truth::At(left), Truth::At(right)) => self.truth(Condition::Either(left, right)),
        }
    }

    fn none_of(&mut self, truths: Truths) -> Truth {
        let some = |some, truth| self.either(some, truth);
        match truths.into_iter().fold(Truth::Known(false), some) {
            Truth::Known(known) => Truth::Known(!known),
            Truth::At(place) => self.truth(Condition::Negation(place)),
        }
    }

    fn truth(&mut self, condition: Condition) -> Truth {
        Truth::At(self.add(condition))
    }

    /// The line that tells the truth, which is written first where it is known.
    fn marked(&mut self, truth: Truth) -> Place {
        match truth {
            Truth::Known(known) => self.add(Condition::Truth(known)),
            Truth::At(place) => place,
        }
    }

    fn add(&mut self, condition: Condition) -> Place {
        self.lines.push(condition);
        narrow(self.lines.len() - 1)
    }
}

fn of_effect(effect: Effect) -> Truths {
    let mut truths = NONE;
    truths[Decision::from(effect) as usize] = Truth::Known(true);
    truths
}

fn narrow(place: usize) -> Place {
    Place::try_from(place).expect("the largest policy has fewer conditions")
}

#[cfg(test)]
mod tests;

//! Stopwatches for the calls of a gate: what a plain program does for each.
//!
//! Each call stands in a function of its own that is never inlined, so that a profiler finds it
//! by its name. What a call replaces is dropped within it.

use std::error::Error;
use std::fs;
use std::hint::black_box;
use std::time::Instant;

use beside::combining::Decision;
use beside::deciding::{ByLine, Judgement};
use beside::enforcement::{enforce, Bias, Enforced};
use beside::flat::{Conditions, Scratch};
use beside::operators::Operand;
use beside::policy::{self, Policy};
use beside::refusal::Refusal;
use beside::services::{Duty, Journal, Switchboard, ValveBank};

use crate::{first_row, pair, Outcome};

type Board = Switchboard<Journal, ValveBank>;

struct Fitted {
    policy: Policy,
    conditions: Conditions,
}

/// A response with duties of its own, which lend nothing from the policy or the readings.
struct Waiting {
    decision: Decision,
    duties: Vec<Duty>,
}

impl Fitted {
    fn of(file: &[u8]) -> Result<Fitted, Refusal> {
        let policy = policy::parse(file)?;
        let conditions = Conditions::of_policy(&policy);
        Ok(Fitted { policy, conditions })
    }
}

#[inline(never)]
fn fit_once(fitted: &mut Fitted, file: &[u8]) -> Result<(), Refusal> {
    *fitted = Fitted::of(file)?;
    Ok(())
}

#[inline(never)]
fn decide_once(judgement: &Judgement<'_, ByLine<'_>>, waiting: &mut Waiting) {
    let response = judgement.response();
    *waiting = Waiting {
        decision: response.decision,
        duties: response.duties.iter().map(Duty::from).collect(),
    };
}

#[inline(never)]
fn quick_once<'a>(
    conditions: &'a Conditions,
    readings: &[Operand<'a>],
    scratch: &mut Scratch<'a>,
) -> Option<Decision> {
    conditions.pass(readings, scratch)
}

#[inline(never)]
fn enforce_once(waiting: &Waiting, board: &mut Board) -> Enforced {
    enforce(Bias::Base, waiting.decision, &waiting.duties, board)
}

pub fn fit(file: &str, rounds: &str) -> Outcome {
    let bytes = fs::read(file)?;
    let rounds: u64 = rounds.parse()?;
    let mut fitted = accepted(&bytes)?;
    let start = Instant::now();
    for _ in 0..rounds {
        black_box(fit_once(black_box(&mut fitted), black_box(&bytes))).ok();
    }
    println!(
        "{} {}",
        start.elapsed().as_nanos(),
        fitted.policy.lines.len()
    );
    Ok(())
}

/// Times a decision and its enforcement on a new switchboard, as a gate does one after the other.
pub fn turn(file: &str, rows: &str, rounds: &str) -> Outcome {
    let (policy, readings) = pair(file, rows)?;
    let rounds: u64 = rounds.parse()?;
    let judgement = first_row(&policy, &readings)?.looked_up();
    let mut waiting = Waiting {
        decision: Decision::Indeterminate,
        duties: Vec::new(),
    };
    let start = Instant::now();
    for _ in 0..rounds {
        decide_once(black_box(&judgement), &mut waiting);
        let mut board = Board::default();
        black_box(enforce_once(black_box(&waiting), &mut board));
        black_box(&board);
    }
    println!("{} {}", start.elapsed().as_nanos(), policy.lines.len());
    Ok(())
}

pub fn quick(file: &str, rows: &str, rounds: &str) -> Outcome {
    let (policy, readings) = pair(file, rows)?;
    let rounds: u64 = rounds.parse()?;
    let judgement = first_row(&policy, &readings)?.looked_up();
    let fitted = accepted(&fs::read(file)?)?;
    let mut scratch = fitted.conditions.scratch();
    let start = Instant::now();
    for _ in 0..rounds {
        let (conditions, readings) = black_box((&fitted.conditions, judgement.readings()));
        black_box(quick_once(conditions, readings, &mut scratch));
    }
    println!("{} {}", start.elapsed().as_nanos(), policy.lines.len());
    Ok(())
}

fn accepted(file: &[u8]) -> Result<Fitted, Box<dyn Error>> {
    Ok(Fitted::of(file).map_err(|refusal| refusal.to_string())?)
}

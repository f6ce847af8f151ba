//! The command line: the cases and their summary, the table for a folder, sample policies and eight stopwatches.

use std::error::Error;
use std::hint::black_box;
use std::io::{self, Write};
use std::num::TryFromIntError;
use std::path::Path;
use std::process::ExitCode;
use std::time::Instant;
use std::{env, fs};

use beside::calls::count::Count;
use beside::calls::{List, Played};
use beside::combining::Decision;
use beside::deciding::Judgement;
use beside::enforcement::{enforce, Bias};
use beside::flat::Conditions;
use beside::generate::{self, Case};
use beside::line::Force;
use beside::policy::Policy;
use beside::readings::Readings;
use beside::services::{Duty, Journal, Switchboard, ValveBank};
use beside::summary::Summary;
use beside::survey::Survey;
use beside::value::Value;
use beside::{deciding, devices, policy, readings, trial};

mod stopwatch;

type Outcome = Result<(), Box<dyn Error>>;

const USAGE: &str = "usage: beside cases OUTDIR
       beside summary
       beside trial FOLDER
       beside bench FILE ROUNDS
       beside policy LINES
       beside decide FILE ROWFILE ROUNDS
       beside walk FILE ROWFILE ROUNDS
       beside flat CONDITIONS FILE ROWFILE ROUNDS
       beside enforce DUTIES ROUNDS
       beside gate-fit FILE ROUNDS
       beside gate-turn FILE ROWFILE ROUNDS
       beside gate-quick FILE ROWFILE ROUNDS
       beside decidepolicy LINES
       beside deciderow LINES";
const LEAST_LINES: usize = 3;

fn main() -> ExitCode {
    let arguments: Vec<String> = env::args().skip(1).collect();
    let arguments: Vec<&str> = arguments.iter().map(String::as_str).collect();
    let outcome = match arguments[..] {
        ["cases", folder] => write_cases(Path::new(folder)),
        ["summary"] => print_summary(),
        ["trial", folder] => print_trial(Path::new(folder)),
        ["bench", file, rounds] => bench(file, rounds),
        ["policy", lines] => print_policy(lines),
        ["decide", file, rows, rounds] => decide(file, rows, rounds),
        ["walk", file, rows, rounds] => walk(file, rows, rounds),
        ["flat", conditions, file, rows, rounds] => flat(conditions, file, rows, rounds),
        ["enforce", duties, rounds] => time_enforcement(duties, rounds),
        ["gate-fit", file, rounds] => stopwatch::fit(file, rounds),
        ["gate-turn", file, rows, rounds] => stopwatch::turn(file, rows, rounds),
        ["gate-quick", file, rows, rounds] => stopwatch::quick(file, rows, rounds),
        ["decidepolicy", lines] => print_decision_policy(lines),
        ["deciderow", lines] => print_decision_row(lines),
        _ => Err(USAGE.into()),
    };
    match outcome {
        Ok(()) => ExitCode::SUCCESS,
        Err(error) => {
            eprintln!("{error}");
            ExitCode::from(2)
        }
    }
}

/// The cases of two files each, then those for devices, and then the lists of calls.
fn write_cases(folder: &Path) -> Outcome {
    let mut input = Vec::new();
    let mut output = String::new();
    for case in generate::all_cases() {
        input.extend(case.framed());
        output.push_str(&trial::answer(&case.policy, &case.readings));
        output.push('\n');
    }
    for case in generate::device_cases() {
        input.extend(case.framed().into_bytes());
        for line in devices::answer(&case.lines).ok_or("a case is misspelt")? {
            output.push_str(&line);
            output.push('\n');
        }
    }
    for (list, played) in played_lists()? {
        input.extend(list.framed());
        output.push_str(&format!("{played}\n"));
    }
    fs::create_dir_all(folder)?;
    fs::write(folder.join("stdin"), input)?;
    fs::write(folder.join("stdout"), output)?;
    Ok(())
}

fn played_lists() -> Result<Vec<(List, Played)>, Box<dyn Error>> {
    let played = |list: List| {
        let played = list.played().ok_or("a source is misspelt")?;
        Ok((list, played))
    };
    generate::call_lists().into_iter().map(played).collect()
}

/// What the cases of two files each come to, and the lists of calls.
fn print_summary() -> Outcome {
    let cases = generate::all_cases();
    let answer = |case: &Case| trial::answer(&case.policy, &case.readings) + "\n";
    let answers: String = cases.iter().map(answer).collect();
    print!("{}", Summary::of_answers(&answers));
    let accepted = |case: &Case| trial::check(&case.policy, &case.readings).ok();
    let pairs: Vec<(Policy, Readings)> = cases.iter().filter_map(accepted).collect();
    print!("{}", Survey::of_pairs(&pairs));
    println!("cases for devices {}", generate::device_cases().len());
    print!("{}", Count::of_lists(&played_lists()?));
    Ok(())
}

/// What the trial program prints in this folder, where a file that cannot be read counts as empty.
fn print_trial(folder: &Path) -> Outcome {
    let bytes = |name: &str| fs::read(folder.join(name)).unwrap_or_default();
    print!(
        "{}",
        trial::table(&bytes("policy.txt"), &bytes("readings.txt"))
    );
    Ok(())
}

fn bench(file: &str, rounds: &str) -> Outcome {
    let bytes = fs::read(file)?;
    let rounds: u64 = rounds.parse()?;
    let start = Instant::now();
    for _ in 0..rounds {
        // Both ends are hidden, or the compiler could check once and skip the rest.
        black_box(policy::parse(black_box(&bytes))).ok();
    }
    println!("{} {}", start.elapsed().as_nanos(), bytes.len());
    Ok(())
}

fn print_policy(lines: &str) -> Outcome {
    let lines: usize = lines.parse()?;
    if !(LEAST_LINES..=policy::MOST_LINES).contains(&lines) {
        return Err(format!("a policy has {LEAST_LINES} to {} lines", policy::MOST_LINES).into());
    }
    io::stdout().write_all(&generate::policy_file(lines))?;
    Ok(())
}

/// Times the decision about the first row alone, with both files read beforehand.
fn decide(file: &str, rows: &str, rounds: &str) -> Outcome {
    let (policy, readings) = pair(file, rows)?;
    let rounds: u64 = rounds.parse()?;
    let judgement = first_row(&policy, &readings)?;
    let start = Instant::now();
    for _ in 0..rounds {
        black_box(black_box(&judgement).response());
    }
    println!("{} {}", start.elapsed().as_nanos(), policy.lines.len());
    Ok(())
}

/// Times the same with the names looked up beforehand too.
fn walk(file: &str, rows: &str, rounds: &str) -> Outcome {
    let (policy, readings) = pair(file, rows)?;
    let rounds: u64 = rounds.parse()?;
    let judgement = first_row(&policy, &readings)?.looked_up();
    let start = Instant::now();
    for _ in 0..rounds {
        black_box(black_box(&judgement).response());
    }
    println!("{} {}", start.elapsed().as_nanos(), policy.lines.len());
    Ok(())
}

/// Times a pass over all conditions, with the names looked up beforehand, once it has come to
/// the decision that the policy has.
fn flat(conditions: &str, file: &str, rows: &str, rounds: &str) -> Outcome {
    let (policy, readings) = pair(file, rows)?;
    let conditions = Conditions::parse(&fs::read_to_string(conditions)?, &policy)?;
    let rounds: u64 = rounds.parse()?;
    let judgement = first_row(&policy, &readings)?.looked_up();
    let decision = judgement.response().decision;
    let mut scratch = conditions.scratch();
    let passed = conditions.pass(judgement.readings(), &mut scratch);
    let marked = conditions.marked(&scratch);
    if passed != Some(decision) || marked != [decision] {
        return Err(format!("marked are {marked:?} where the policy has {decision:?}").into());
    }
    let start = Instant::now();
    for _ in 0..rounds {
        let (conditions, readings) = black_box((&conditions, judgement.readings()));
        black_box(conditions.pass(readings, &mut scratch));
    }
    println!("{} {}", start.elapsed().as_nanos(), policy.lines.len());
    Ok(())
}

fn pair(file: &str, rows: &str) -> Result<(Policy, Readings), Box<dyn Error>> {
    let policy = policy::parse(&fs::read(file)?).map_err(|refusal| refusal.to_string())?;
    let readings = readings::parse(&fs::read(rows)?).map_err(|refusal| refusal.to_string())?;
    Ok((policy, readings))
}

fn first_row<'a>(
    policy: &'a Policy,
    readings: &'a Readings,
) -> Result<Judgement<'a>, Box<dyn Error>> {
    let judgement = deciding::judgements(policy, readings).next();
    Ok(judgement.ok_or("the readings have no row")?)
}

/// Times a response with so many duties of all actions in turn, on a new switchboard in each round.
fn time_enforcement(duties: &str, rounds: &str) -> Outcome {
    let count: u32 = duties.parse()?;
    let rounds: u64 = rounds.parse()?;
    let duty = |place: u32| {
        Ok(Duty {
            force: Force::May,
            action: u8::try_from(place % 16)?,
            value: Value::Number(i32::try_from(place % 100 + 1)?),
        })
    };
    let duties: Result<Vec<Duty>, TryFromIntError> = (0..count).map(duty).collect();
    let duties = duties?;
    let start = Instant::now();
    for _ in 0..rounds {
        let mut board: Switchboard<Journal, ValveBank> = Switchboard::default();
        let duties = black_box(&duties[..]);
        black_box(enforce(Bias::Base, Decision::Permit, duties, &mut board));
    }
    println!("{} {count}", start.elapsed().as_nanos());
    Ok(())
}

fn print_decision_policy(lines: &str) -> Outcome {
    let policy = generate::decision_policy(rounds_in(lines)?);
    io::stdout().write_all(&policy)?;
    Ok(())
}

/// The row is the same at every size, but only for sizes that there is a policy of.
fn print_decision_row(lines: &str) -> Outcome {
    rounds_in(lines)?;
    io::stdout().write_all(&generate::decision_row())?;
    Ok(())
}

/// How many rounds of lines make up a policy with this many.
fn rounds_in(lines: &str) -> Result<usize, Box<dyn Error>> {
    let lines: usize = lines.parse()?;
    let round = generate::LINES_OF_A_ROUND;
    if !lines.is_multiple_of(round) || !(round..=policy::MOST_LINES).contains(&lines) {
        let most = policy::MOST_LINES;
        return Err(format!("such a policy has a multiple of {round} lines up to {most}").into());
    }
    Ok(lines / round)
}

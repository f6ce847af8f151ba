use super::*;
use crate::calls::count::Count;
use crate::calls::{Form, Played, Reply};
use crate::line::Line;
use crate::policy;
use std::collections::{BTreeMap, BTreeSet};
use std::sync::OnceLock;

/// All lists, made once.
fn played() -> &'static [(List, Played)] {
    static PLAYED: OnceLock<Vec<(List, Played)>> = OnceLock::new();
    let played = |list: List| {
        let played = list.played().expect("well spelt");
        (list, played)
    };
    PLAYED.get_or_init(|| lists().into_iter().map(played).collect())
}

/// What is known of a gate before a call.
#[derive(Clone, Copy, Debug, Default, PartialEq, Eq)]
struct Known<'a> {
    file: Option<&'a [u8]>,
    read: bool,
    waiting: bool,
}

/// Each call with what the gate had before it, and with its reply.
fn known<'a>((list, played): &'a (List, Played)) -> Vec<(Known<'a>, &'a Call, &'a Reply)> {
    let mut known = Known::default();
    let mut calls = Vec::new();
    for (call, reply) in list.calls.iter().zip(&played.replies) {
        calls.push((known, call, reply));
        if reply.outcome.is_err() {
            continue;
        }
        match call {
            Call::Fit(file) => {
                known.file = Some(file);
                known.read = false;
            }
            Call::Read(_) => known.read = true,
            Call::Decide => known.waiting = true,
            Call::Enforce => known.waiting = false,
            Call::Quick | Call::WriteBack(_) => {}
        }
    }
    calls
}

fn number(reply: &Reply) -> u32 {
    reply
        .outcome
        .map_or_else(|refusal| refusal.cause.number(), |_| 0)
}

/// How many calls there are of which this holds.
fn count(wanted: impl Fn(Known<'_>, &Call, &Reply) -> bool) -> usize {
    let wanted = |call: &(Known<'_>, &Call, &Reply)| wanted(call.0, call.1, call.2);
    let count = |played| known(played).into_iter().filter(wanted).count();
    played().iter().map(count).sum()
}

#[test]
fn the_same_lists_come_every_time() {
    assert_eq!(lists(), lists());
}

#[test]
fn there_are_enough_and_they_stay_small() {
    let lists = played().iter().map(|(list, _)| list);
    assert!(lists.len() >= 700);
    let bytes: usize = lists.clone().map(|list| list.framed().len()).sum();
    assert!(bytes < 1_500_000, "{bytes}");
    let lengths: BTreeSet<usize> = lists.map(|list| list.calls.len()).collect();
    assert_eq!(lengths, (FEWEST_CALLS..=MOST_CALLS).collect());
    assert_eq!((FEWEST_CALLS, MOST_CALLS), (5, 60));
}

#[test]
fn every_bias_is_on_every_service() {
    let mut pairs: BTreeMap<(&str, &str), usize> = BTreeMap::new();
    for (list, _) in played() {
        *pairs
            .entry((list.bias.word(), list.device.word()))
            .or_default() += 1;
    }
    assert_eq!(pairs.len(), 9);
    assert!(pairs.values().all(|&lists| lists >= 70), "{pairs:?}");
}

#[test]
fn every_refusal_comes_often() {
    let count = Count::of_lists(played());
    assert!(
        count.by_number[..7].iter().all(|&count| count >= 25),
        "{count}"
    );
    assert_eq!(count.by_number[7..10], [0; 3]);
    assert!(
        count.by_number[10..].iter().all(|&count| count >= 300),
        "{count}"
    );
    assert!(
        count.calls.values().all(|uses| uses.refused >= 30),
        "{count}"
    );
    assert!(
        count
            .calls
            .values()
            .all(|uses| uses.all - uses.refused >= 300),
        "{count}"
    );
}

#[test]
fn duties_are_carried_out_and_fail_and_are_skipped() {
    let count = Count::of_lists(played());
    for (place, responses) in &count.responses {
        let counts = [responses.carried, responses.failed];
        assert!(
            counts.iter().all(|&count| count >= 50),
            "{place} {responses}"
        );
        assert!(responses.skipped >= 20, "{place} {responses}");
    }
}

/// Each refusal for the order of calls and for memory, at each call that can get it.
#[test]
fn every_call_comes_out_of_order() {
    let mut refused: BTreeMap<String, usize> = BTreeMap::new();
    for (list, played) in played() {
        for (call, reply) in list.calls.iter().zip(&played.replies) {
            let key = format!("{} {}", call.word(), number(reply));
            *refused.entry(key).or_default() += 1;
        }
    }
    let keys = [
        "fit 11",
        "fit 14",
        "read 12",
        "read 14",
        "decide 12",
        "decide 13",
        "decide 14",
        "quick 12",
        "quick 13",
        "enforce 15",
        "write 11",
        "write 12",
    ];
    for key in keys {
        let count = refused.get(key).copied().unwrap_or(0);
        assert!(count >= 60, "{key} {count}");
    }
    let by_order: Vec<&String> = refused.keys().filter(|key| key.ends_with("14")).collect();
    assert_eq!(by_order, ["decide 14", "fit 14", "read 14"]);
}

#[test]
fn a_refused_file_leaves_what_was_there() {
    let refused = |known: Known<'_>, call: &Call, reply: &Reply| {
        matches!(call, Call::Fit(_)) && known.read && (1..=11).contains(&number(reply))
    };
    assert!(count(refused) >= 200);
    // What is waiting goes before what is wrong with the file.
    let waits = |known: Known<'_>, call: &Call, _: &Reply| match call {
        Call::Fit(file) => known.waiting && policy::parse(file).is_err(),
        _ => false,
    };
    assert!(count(waits) >= 30);
    let used_later = |played| {
        let calls = known(played);
        let pairs = calls.windows(2);
        let used = |pair: &&[(Known<'_>, &Call, &Reply)]| {
            refused(pair[0].0, pair[0].1, pair[0].2)
                && matches!(pair[1].1, Call::Decide | Call::Quick | Call::WriteBack(_))
                && pair[1].2.outcome.is_ok()
        };
        pairs.filter(used).count()
    };
    assert!(played().iter().map(used_later).sum::<usize>() >= 60);
}

#[test]
fn places_are_just_enough_and_one_too_few() {
    let mut counts = [0; 4];
    for played in played() {
        let places = played.0.places;
        for (known, call, reply) in known(played) {
            let Call::Fit(file) = call else {
                continue;
            };
            let number = number(reply);
            match policy::parse(file) {
                Ok(policy) if !known.waiting => {
                    let needed = PLACES_A_LINE * policy.lines.len();
                    counts[0] += usize::from(number == 0 && needed == places);
                    counts[1] += usize::from(number == 11 && needed == places + 1);
                    counts[2] += usize::from(number == 11 && needed > places + 1);
                }
                // A file with too many lines that is refused for something else.
                Err(_) if !known.waiting => {
                    let lines = file.iter().filter(|byte| **byte == b'\n').count();
                    let beyond = PLACES_A_LINE * lines.saturating_sub(1) > places;
                    counts[3] += usize::from((1..=7).contains(&number) && beyond);
                }
                _ => {}
            }
        }
    }
    assert!(
        counts[0] >= 200 && counts[1] >= 10 && counts[2] >= 100,
        "{counts:?}"
    );
    assert!(counts[3] >= 30, "{counts:?}");
}

#[test]
fn the_largest_policies_are_fitted() {
    let lists = &played()[..6];
    for (place, (list, played)) in lists.iter().enumerate() {
        let number = number(&played.replies[0]);
        assert_eq!((list.places, number), [(8192, 0), (8191, 11)][place % 2]);
    }
    let (_, long) = &played()[6];
    let refusals = [2, 4].map(|place| long.replies[place].to_string());
    assert_eq!(refusals, ["refused 4 1 1 2", "refused 14 4 0 0"]);
}

#[test]
fn files_are_written_into_every_length() {
    let written = |wanted: fn(usize, usize) -> bool| {
        count(|known, call, _| match (known.file, call) {
            (Some(file), Call::WriteBack(bytes)) => wanted(*bytes, file.len()),
            _ => false,
        })
    };
    assert!(written(|bytes, length| bytes == length) >= 400);
    assert!(written(|bytes, length| bytes + 1 == length) >= 400);
    assert!(written(|bytes, length| bytes > length) >= 200);
    assert!(written(|bytes, _| bytes == 0) >= 100);
    assert!(count(|known, call, _| known.waiting && *call == Call::Quick) >= 300);
    let waiting = |known: Known<'_>, call: &Call, reply: &Reply| {
        known.waiting && matches!(call, Call::WriteBack(_)) && reply.outcome.is_ok()
    };
    assert!(count(waiting) >= 100);
}

#[test]
fn policies_of_every_sort_are_fitted() {
    let mut algorithms = BTreeSet::new();
    let mut actions = BTreeSet::new();
    for (list, played) in played() {
        for (call, reply) in list.calls.iter().zip(&played.replies) {
            let (Call::Fit(file), Ok(_)) = (call, reply.outcome) else {
                continue;
            };
            for line in policy::parse(file).expect("accepted").lines {
                match line {
                    Line::Set {
                        algorithm,
                        strategy,
                        ..
                    } => {
                        algorithms.insert((algorithm.word(), strategy.word()));
                    }
                    Line::Duty { force, action, .. } => {
                        actions.insert((list.device.word(), force.word(), action));
                    }
                    _ => {}
                }
            }
        }
    }
    assert_eq!(algorithms.len(), 16);
    assert_eq!(actions.len(), 3 * 2 * 16);
    let count = Count::of_lists(played());
    assert!(
        count.by_decision.iter().all(|&count| count >= 500),
        "{count}"
    );
}

#[test]
fn services_show_what_was_done() {
    let seen = |device: Device, wanted: fn(&[String]) -> bool| {
        let of_device = played().iter().filter(|(list, _)| list.device == device);
        of_device.filter(|(_, played)| wanted(&played.seen)).count()
    };
    let full = |seen: &[String]| seen[0].split(' ').count() == 1 + 3 * 64;
    assert!(seen(Device::Journal, full) >= 5);
    assert!(seen(Device::Journal, |seen| seen[0] != "entries") >= 100);
    assert!(seen(Device::Bank, |seen| seen[0] != "valves 0 0 0 0 0 0 0 0") >= 70);
    let both = |seen: &[String]| seen[0] != "entries" && seen[1] != "valves 0 0 0 0 0 0 0 0";
    assert!(seen(Device::Board, both) >= 50);
}

#[test]
fn sources_are_of_every_form() {
    for form in Form::ALL {
        let read = |_: Known<'_>, call: &Call, reply: &Reply| {
            matches!(call, Call::Read(reading) if reading.form == form) && reply.outcome.is_ok()
        };
        assert!(count(read) >= 300, "{form:?}");
    }
    // The same readings are decided about several times, and others are read in between.
    let again = |known: Known<'_>, call: &Call, reply: &Reply| {
        known.read && matches!(call, Call::Read(_)) && reply.outcome.is_ok()
    };
    assert!(count(again) >= 500);
}

use super::responses::VALUES;
use super::*;
use crate::devices::answer;
use crate::sources::SENSORS;
use crate::value::Value;
use std::collections::{BTreeMap, BTreeSet};

/// The cases about this device.
fn cases_for(device: &str) -> Vec<DeviceCase> {
    let mut cases = cases();
    cases.retain(|case| case.lines[0] == device);
    cases
}

fn answers(case: &DeviceCase) -> Vec<String> {
    answer(&case.lines).unwrap_or_else(|| panic!("misspelt: {case:?}"))
}

fn words(line: &str) -> Vec<&str> {
    line.split(' ').collect()
}

/// The duties of a response, or the entries of a journal: force, action, value.
fn duties(line: &str) -> Vec<[&str; 3]> {
    let words = words(line);
    // Two words come before them in a response, and one before those of a journal.
    let start = words.len() % 3;
    let duties = words[start..].chunks(3);
    duties.map(|duty| [duty[0], duty[1], duty[2]]).collect()
}

/// The counts that follow the decision in an answer: carried, failed, skipped.
fn counts(answer: &str) -> [usize; 3] {
    let words = words(answer);
    [1, 2, 3].map(|place| words[place].parse().expect("a count"))
}

fn for_the_journal(duty: &[&str; 3]) -> bool {
    duty[1].len() == 1 && duty[1] <= "7"
}

/// The lines about sensors, and the names that are looked up.
fn sensors_and_names(case: &DeviceCase) -> (&[String], &[String]) {
    let start = if case.lines[0] == "before" { 3 } else { 1 };
    case.lines[start..].split_at(SENSORS)
}

fn count<T>(things: &[T], wanted: impl Fn(&T) -> bool) -> usize {
    things.iter().filter(|thing| wanted(thing)).count()
}

#[test]
fn values_are_of_every_sort_and_around_the_limits() {
    let letter = |value: &&str| Value::of_cell(value.as_bytes()).map(|value| value.letter());
    let sorts: BTreeSet<Option<char>> = VALUES.iter().map(letter).collect();
    assert_eq!(sorts.len(), 7);
    assert!(!sorts.contains(&None));
    for number in ["-2147483648", "-1", "0", "100", "101", "2147483647"] {
        assert!(VALUES.contains(&number), "{number}");
    }
}

#[test]
fn the_same_cases_come_every_time() {
    assert_eq!(cases(), cases());
}

#[test]
fn all_are_well_spelt_and_stay_small() {
    let cases = cases();
    assert!((600..=1_800).contains(&cases.len()), "{}", cases.len());
    let bytes: usize = cases.iter().map(|case| case.framed().len()).sum();
    assert!(bytes < 400_000, "{bytes}");
    for case in &cases {
        assert!(case.lines.len() > 1 && !answers(case).is_empty());
        assert!(case.lines.iter().all(|line| !line.is_empty()));
        if ["sensors", "before"].contains(&case.lines[0].as_str()) {
            assert!(!sensors_and_names(case).1.is_empty());
        }
    }
    let case = DeviceCase::new("journal", ["base deny".to_owned()]);
    assert_eq!(case.framed(), "17\njournal\nbase deny\n");
}

#[test]
fn tables_come_before_what_is_drawn_by_chance() {
    let tables = [responses::tables(), lookups::tables()].concat();
    assert!(cases().starts_with(&tables));
    assert!(tables.len() >= 600);
}

#[test]
fn every_bias_meets_every_decision_on_every_service() {
    let mut met = BTreeSet::new();
    for service in ["journal", "bank", "board"] {
        for case in cases_for(service)
            .iter()
            .filter(|case| case.lines.len() == 2)
        {
            let answer = counts(&answers(case)[0]);
            let line = words(&case.lines[1]);
            let force = line.get(2).copied().unwrap_or("none");
            if line.len() <= 5 {
                met.insert(format!(
                    "{service} {} {} {force} {answer:?}",
                    line[0], line[1]
                ));
            }
        }
    }
    for service in ["journal", "bank", "board"] {
        for bias in ["base", "deny-biased", "permit-biased"] {
            for decision in ["permit", "deny", "not-app", "indet"] {
                for outcome in [
                    "none [0, 0, 0]",
                    "must [0, 1, 0]",
                    "may [0, 1, 0]",
                    "must [1, 0, 0]",
                    "may [1, 0, 0]",
                ] {
                    let wanted = format!("{service} {bias} {decision} {outcome}");
                    assert!(met.contains(&wanted), "{wanted}");
                }
            }
        }
    }
}

#[test]
fn banks_meet_every_action_with_every_value() {
    let mut met = BTreeSet::new();
    for case in cases_for("bank") {
        for line in &case.lines[1..] {
            if let [[force, action, value]] = duties(line)[..] {
                met.insert(format!("{force} {action} {value}"));
            }
        }
    }
    for force in ["must", "may"] {
        for action in 0..=15 {
            for value in VALUES {
                assert!(met.contains(&format!("{force} {action} {value}")));
            }
        }
    }
}

#[test]
fn some_banks_move_several_valves_several_times() {
    let busy = |case: &DeviceCase| {
        let mut moves: BTreeMap<&str, usize> = BTreeMap::new();
        for duty in case.lines[1..].iter().flat_map(|line| duties(line)) {
            *moves.entry(duty[1]).or_default() += 1;
        }
        let valves = answers(case).pop().expect("the positions");
        let moved = words(&valves)[1..]
            .iter()
            .filter(|word| **word != "0")
            .count();
        moves.values().filter(|&&count| count >= 3).count() >= 3 && moved >= 3
    };
    assert!(count(&cases_for("bank"), busy) >= 20);
}

#[test]
fn journals_meet_every_action_and_every_sort_of_value() {
    let mut met = BTreeSet::new();
    let mut values = BTreeSet::new();
    let journals = cases_for("journal");
    for line in journals.iter().flat_map(|case| &case.lines[1..]) {
        for [force, action, value] in duties(line) {
            met.insert(format!("{force} {action}"));
            values.insert(format!("{action} {value}"));
        }
    }
    assert_eq!(met.len(), 2 * 16);
    for value in VALUES {
        assert!((0..=15).all(|action| values.contains(&format!("{action} {value}"))));
    }
}

/// How many duties for the journal each response of a case asks for.
fn asked(case: &DeviceCase) -> Vec<usize> {
    let asked = |line: &String| {
        duties(line)
            .iter()
            .filter(|duty| for_the_journal(duty))
            .count()
    };
    case.lines[1..].iter().map(asked).collect()
}

#[test]
fn journals_fill_at_once_and_in_turn() {
    let journals = cases_for("journal");
    for wanted in [63, 64, 65, 66] {
        let at_once = |case: &DeviceCase| asked(case).first() == Some(&wanted);
        assert!(count(&journals, at_once) >= 4, "{wanted}");
        let in_turn = |case: &DeviceCase| {
            let asked = asked(case);
            asked.len() > 1
                && asked.iter().all(|&one| one < 64)
                && asked.iter().sum::<usize>() == wanted
        };
        assert!(count(&journals, in_turn) >= 4, "{wanted}");
    }
    let entries = |case: &DeviceCase| {
        let answers = answers(case);
        let [.., entries, _] = &answers[..] else {
            panic!("two lines at least");
        };
        duties(entries).len()
    };
    assert!(journals.iter().all(|case| entries(case) <= 64));
    assert!(count(&journals, |case| entries(case) == 63) >= 4);
    assert!(count(&journals, |case| entries(case) == 64) >= 30);
}

#[test]
fn either_force_is_at_the_limit_of_journals() {
    for (force, expected) in [("must", [64, 1, 4]), ("may", [64, 5, 0])] {
        let at_the_limit = |case: &DeviceCase| {
            let asked = duties(&case.lines[1]);
            asked.len() == 69 && asked[64][0] == force && counts(&answers(case)[0]) == expected
        };
        assert!(count(&cases_for("journal"), at_the_limit) >= 1, "{force}");
    }
    let then_a_must = |case: &DeviceCase| {
        let asked = duties(&case.lines[1]);
        asked.len() == 69 && asked[64][0] == "may" && counts(&answers(case)[0]) == [64, 2, 3]
    };
    assert!(count(&cases_for("journal"), then_a_must) >= 1);
}

#[test]
fn boards_meet_every_action_and_both_services() {
    let boards = cases_for("board");
    let mut met = BTreeSet::new();
    for line in boards.iter().flat_map(|case| &case.lines[1..]) {
        for [force, action, _] in duties(line) {
            met.insert(format!("{force} {action}"));
        }
    }
    assert_eq!(met.len(), 2 * 16);
    let both = |case: &DeviceCase| {
        let answers = answers(case);
        let [.., entries, valves, _] = &answers[..] else {
            panic!("three lines at least");
        };
        entries != "entries" && valves != "valves 0 0 0 0 0 0 0 0"
    };
    assert!(count(&boards, both) >= 60);
    let full = |case: &DeviceCase| {
        let answers = answers(case);
        let [.., entries, valves, _] = &answers[..] else {
            panic!("three lines at least");
        };
        duties(entries).len() == 64 && valves == "valves 8 0 0 0 0 0 0 15"
    };
    assert!(count(&boards, full) >= 1);
}

#[test]
fn boards_with_other_services_come_too() {
    let moved = |case: &DeviceCase| {
        let answers = answers(case);
        let [.., inner, outer, _] = &answers[..] else {
            panic!("three lines at least");
        };
        inner == "valves 0 0 0 0 0 0 0 0" && outer != inner
    };
    let boards = cases_for("boards");
    assert!(count(&boards, moved) >= 60);
    let never = |case: &DeviceCase| answers(case).pop().as_deref() == Some("latest -");
    assert!(cases_for("exchanged").len() >= 100 && cases_for("exchanged").iter().all(never));
}

/// Of the sensors with this name, numbers and statuses in the order of their places.
fn named(sensors: &[String], name: &str) -> Vec<[String; 2]> {
    let of_name = |line: &String| {
        let words = words(line);
        (words[0] == name).then(|| [words[1].to_owned(), words[2].to_owned()])
    };
    sensors.iter().filter_map(of_name).collect()
}

#[test]
fn banks_of_sensors_show_every_status() {
    let mut met = BTreeSet::new();
    for case in cases_for("sensors") {
        let (sensors, names) = sensors_and_names(&case);
        for (name, answer) in names.iter().zip(answers(&case)) {
            if let [[number, status]] = &named(sensors, name)[..] {
                met.insert(format!("{status} {number} {answer}"));
            }
        }
    }
    for number in [0, 1, -1, i32::MIN, i32::MAX] {
        assert!(met.contains(&format!("0 {number} {number}")));
        assert!(met.contains(&format!("2 {number} -")));
        for status in [1, 3, 4, 127, 255] {
            assert!(met.contains(&format!("{status} {number} !")));
        }
    }
}

#[test]
fn names_of_sensors_repeat_in_every_way() {
    let mut met: BTreeMap<String, usize> = BTreeMap::new();
    for case in cases_for("sensors") {
        let (sensors, names) = sensors_and_names(&case);
        for (name, answer) in names.iter().zip(answers(&case)) {
            let key = match &named(sensors, name)[..] {
                [] => "none".to_owned(),
                [[_, first], [_, second]] => format!("{first} {second} {answer}"),
                _ => continue,
            };
            *met.entry(key).or_default() += 1;
        }
    }
    for key in [
        "2 0 -", "1 0 !", "0 2 11", "0 1 11", "2 1 -", "1 2 !", "0 0 11", "255 0 !",
    ] {
        assert!(
            met.get(key).is_some_and(|&count| count >= 4),
            "{key} {met:?}"
        );
    }
    assert!(met["none"] >= 50);
}

#[test]
fn names_of_sensors_are_short_and_long_and_alike() {
    let cases = cases_for("sensors");
    for length in [1, 24] {
        let all = |case: &DeviceCase| {
            let sensors = sensors_and_names(case).0;
            let lengths = |line: &String| words(line)[0].len() == length;
            sensors.iter().all(lengths)
        };
        assert!(count(&cases, all) >= 1, "{length}");
    }
    let nested = |case: &DeviceCase| {
        let sensors = sensors_and_names(case).0;
        let mut names: Vec<&str> = sensors.iter().map(|line| words(line)[0]).collect();
        names.sort_by_key(|name| name.len());
        let longer = |pair: &[&str]| pair[1].len() > pair[0].len() && pair[1].starts_with(pair[0]);
        names.windows(2).all(longer)
    };
    assert!(count(&cases, nested) >= 4);
}

/// A cell and the status of a sensor with the number 7, and what comes of them with the cell and
/// with the sensor first.
const MET: [&str; 20] = [
    "none/none: - -",
    "none/2: - -",
    "none/0: 7 7",
    "none/1: ! !",
    "-/none: - -",
    "-/2: - -",
    "-/0: 7 7",
    "-/3: ! !",
    "!/none: ! !",
    "!/2: ! !",
    "!/0: ! 7",
    "!/255: ! !",
    "true/none: true true",
    "roof/2: roof roof",
    "roof/0: roof 7",
    "1,2/1: 1,2 !",
    "ab,cd/0: ab,cd 7",
    "5/0: 5 7",
    "5/4: 5 !",
    "5/2: 5 5",
];

#[test]
fn rows_and_sensors_meet_in_every_way() {
    let mut met = BTreeSet::new();
    for case in cases_for("before") {
        let (sensors, names) = sensors_and_names(&case);
        let columns: Vec<&str> = words(&case.lines[1]);
        let cells: Vec<&str> = words(&case.lines[2]);
        for (name, answer) in names.iter().zip(answers(&case)) {
            let column = columns.iter().position(|column| column == name);
            let cell = column.map_or("none", |column| cells[column]);
            let sensor = match &named(sensors, name)[..] {
                [] => "none".to_owned(),
                [[_, status], ..] => status.clone(),
            };
            met.insert(format!("{cell}/{sensor}: {answer}"));
        }
    }
    for key in MET {
        assert!(met.contains(key), "{key}");
    }
}

#[test]
fn rows_have_one_to_eight_names() {
    let widths: BTreeSet<usize> = cases_for("before")
        .iter()
        .map(|case| words(&case.lines[1]).len())
        .collect();
    assert_eq!(widths, (1..=8).collect());
}

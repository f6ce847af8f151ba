use super::*;
use crate::services::{Journal, ValveBank};
use crate::sources::{Row, Sensor, SensorBank};

/// Permits growers, with a duty about the valve.
const GROWERS: &[u8] = b"kind a b c d e\nattr sub/role - - - -\ntext grower - - - -\n\
    equal 1 2 - - -\nattr res/valve - - - -\nmust 1 4 - - -\npermit 3 5 - - -\n";
/// Denies frost, and moves two valves.
const FROST: &[u8] = b"kind a b c d e\nattr env/frost - - - -\nnum 7 - - - -\nmust 9 2 - - -\n\
    attr n - - - -\nmay 15 4 3 - -\ndeny 1 5 - - -\n";
/// The last line is no policy.
const UNENDED: &[u8] = b"kind a b c d e\ntrue - - - - -\n";

/// A row of words such as `a=7 b=roof`.
fn read(gate: &mut Gate, columns: &str) -> Result<(), Refusal> {
    let columns = columns.split(' ').map(|column| column.split_once('='));
    let columns: Vec<(&str, &str)> = columns.flatten().collect();
    let names: Vec<String> = columns.iter().map(|column| column.0.to_owned()).collect();
    let cell = |column: &(&str, &str)| Value::of_cell(column.1.as_bytes()).expect("well spelt");
    let cells: Vec<Value> = columns.iter().map(cell).collect();
    let (names, cells) = (&names[..], &cells[..]);
    gate.read(&Row { names, cells })
}

fn fitted(bias: Bias, file: &[u8]) -> Gate {
    let mut gate = Gate::new(bias, 192);
    gate.fit(file).expect("accepted");
    gate
}

fn told<T: std::fmt::Display>(answer: Result<T, Refusal>) -> String {
    match answer {
        Ok(answer) => answer.to_string(),
        Err(refusal) => refusal.to_string(),
    }
}

fn refused<T: std::fmt::Debug>(answer: Result<T, Refusal>) -> String {
    answer.expect_err("refused").to_string()
}

#[test]
fn a_new_gate_has_nothing() {
    let mut gate = Gate::new(Bias::Base, 8192);
    let new = gate.clone();
    assert_eq!(refused(read(&mut gate, "a=1")), "refused 12 4 0 0");
    assert_eq!(refused(gate.decide()), "refused 12 4 0 0");
    assert_eq!(refused(gate.quick()), "refused 12 4 0 0");
    let mut bytes = *b"as they were";
    assert_eq!(refused(gate.write_back(&mut bytes)), "refused 12 4 0 0");
    assert_eq!(&bytes, b"as they were");
    let journal = &mut Journal::default();
    assert_eq!(refused(gate.enforce(journal)), "refused 15 4 0 0");
    assert_eq!(gate, new);
}

#[test]
fn a_policy_needs_thirty_two_places_a_line() {
    for (places, expected) in [(0, false), (191, false), (192, true), (193, true)] {
        let mut gate = Gate::new(Bias::Base, places);
        let answer = gate.fit(GROWERS);
        assert_eq!(answer.is_ok(), expected, "{places}");
        if !expected {
            assert_eq!(refused(answer), "refused 11 3 0 0");
            assert_eq!(gate, Gate::new(Bias::Base, places));
        }
    }
}

#[test]
fn a_file_is_refused_for_itself_before_its_lines_are_counted() {
    let mut gate = Gate::new(Bias::Base, 0);
    assert_eq!(refused(gate.fit(b"")), "refused 1 1 0 0");
    assert_eq!(refused(gate.fit(b"kind a b c d e\n")), "refused 7 2 1 0");
    assert_eq!(refused(gate.fit(UNENDED)), "refused 6 2 1 0");
    let broken = GROWERS.strip_suffix(b"\n").expect("an end");
    assert_eq!(refused(gate.fit(broken)), "refused 2 1 6 0");
    assert_eq!(refused(gate.fit(GROWERS)), "refused 11 3 0 0");
}

#[test]
fn calls_in_their_order() {
    let mut gate = fitted(Bias::Base, GROWERS);
    let mut journal = Journal::default();
    assert_eq!(refused(gate.decide()), "refused 13 4 0 0");
    assert_eq!(refused(gate.quick()), "refused 13 4 0 0");
    assert_eq!(refused(gate.enforce(&mut journal)), "refused 15 4 0 0");
    assert!(read(&mut gate, "sub/role=grower res/valve=4").is_ok());
    assert_eq!(gate.quick(), Ok(Decision::Permit));
    assert_eq!(refused(gate.enforce(&mut journal)), "refused 15 4 0 0");
    assert_eq!(gate.decide(), Ok(Decision::Permit));
    assert_eq!(told(gate.enforce(&mut journal)), "permit 1 0 0");
    assert_eq!(refused(gate.enforce(&mut journal)), "refused 15 4 0 0");
    // The readings are still there.
    assert_eq!(gate.decide(), Ok(Decision::Permit));
    assert_eq!(told(gate.enforce(&mut journal)), "permit 1 0 0");
    assert!(read(&mut gate, "sub/role=picker res/valve=4").is_ok());
    assert_eq!(gate.decide(), Ok(Decision::NotApplicable));
    assert_eq!(told(gate.enforce(&mut journal)), "not-app 0 0 0");
    let entries: Vec<String> = journal.entries().iter().map(Duty::to_string).collect();
    assert_eq!(entries, ["must 1 4", "must 1 4"]);
}

#[test]
fn while_a_response_waits() {
    let mut gate = fitted(Bias::Base, GROWERS);
    assert!(read(&mut gate, "sub/role=grower res/valve=4").is_ok());
    assert!(gate.decide().is_ok());
    let waiting = gate.clone();
    assert_eq!(refused(gate.decide()), "refused 14 4 0 0");
    assert_eq!(
        refused(read(&mut gate, "sub/role=picker")),
        "refused 14 4 0 0"
    );
    for file in [FROST, UNENDED, b""] {
        assert_eq!(refused(gate.fit(file)), "refused 14 4 0 0");
    }
    assert_eq!(gate.quick(), Ok(Decision::Permit));
    assert_eq!(gate.write_back(&mut [0; 200]), Ok(GROWERS.len()));
    assert_eq!(gate, waiting);
    // A bank of valves does not take the duty, which had to be done.
    assert_eq!(told(gate.enforce(&mut ValveBank::default())), "indet 0 1 0");
    assert_eq!(gate.decide(), Ok(Decision::Permit));
}

#[test]
fn another_policy_drops_the_readings() {
    let mut gate = fitted(Bias::Base, GROWERS);
    assert!(read(
        &mut gate,
        "sub/role=grower res/valve=4 env/frost=true n=101"
    )
    .is_ok());
    assert!(gate.fit(FROST).is_ok());
    assert_eq!(refused(gate.quick()), "refused 13 4 0 0");
    assert!(read(&mut gate, "env/frost=true n=101").is_ok());
    assert_eq!(gate.decide(), Ok(Decision::Deny));
    let mut bank = ValveBank::default();
    assert_eq!(told(gate.enforce(&mut bank)), "deny 1 1 0");
    assert_eq!(bank.positions(), &[0, 7, 0, 0, 0, 0, 0, 0]);
    // So does the same one.
    assert!(gate.fit(FROST).is_ok());
    assert_eq!(refused(gate.decide()), "refused 13 4 0 0");
}

#[test]
fn a_refused_file_leaves_all_as_it_was() {
    let mut gate = fitted(Bias::Base, GROWERS);
    assert!(read(&mut gate, "sub/role=grower res/valve=4").is_ok());
    let before = gate.clone();
    let larger = b"kind a b c d e\ntrue - - - - -\nnot 1 - - - -\nnot 2 - - - -\nnot 3 - - - -\n\
        not 4 - - - -\nnot 5 - - - -\npermit 6 - - - -\n";
    assert_eq!(refused(gate.fit(UNENDED)), "refused 6 2 1 0");
    assert_eq!(refused(gate.fit(larger)), "refused 11 3 0 0");
    assert_eq!(gate, before);
    assert_eq!(gate.decide(), Ok(Decision::Permit));
}

#[test]
fn a_file_is_written_back_as_it_was() {
    let gate = fitted(Bias::Base, GROWERS);
    let length = GROWERS.len();
    let mut bytes = vec![b'#'; length + 3];
    assert_eq!(gate.write_back(&mut bytes), Ok(length));
    assert_eq!(bytes, [GROWERS, b"###"].concat());
    let mut bytes = vec![b'#'; length];
    assert_eq!(gate.write_back(&mut bytes), Ok(length));
    assert_eq!(bytes, GROWERS);
    for few in [0, 1, length - 1] {
        let mut bytes = vec![b'#'; few];
        assert_eq!(refused(gate.write_back(&mut bytes)), "refused 11 3 0 0");
        assert_eq!(bytes, vec![b'#'; few]);
    }
}

#[test]
fn the_bias_is_the_gates() {
    // Growers, pickers, and nobody known; the bank does not take the duty.
    let expected = [
        (Bias::Base, ["indet 0 1 0", "not-app 0 0 0", "indet 0 0 0"]),
        (Bias::DenyBiased, ["deny 0 1 0", "deny 0 0 0", "deny 0 0 0"]),
        (
            Bias::PermitBiased,
            ["permit 0 1 0", "permit 0 0 0", "permit 0 0 0"],
        ),
    ];
    for (bias, expected) in expected {
        let mut gate = fitted(bias, GROWERS);
        let rows = [
            "sub/role=grower res/valve=4",
            "sub/role=picker",
            "sub/role=!",
        ];
        let enforced = rows.map(|row| {
            assert!(read(&mut gate, row).is_ok() && gate.decide().is_ok());
            told(gate.enforce(&mut ValveBank::default()))
        });
        assert_eq!(enforced, expected);
    }
}

#[test]
fn a_source_is_read_as_it_is_then() {
    let unused = Sensor {
        name: "unused".to_owned(),
        number: 0,
        status: 0,
    };
    let mut sensors = SensorBank {
        sensors: std::array::from_fn(|_| unused.clone()),
    };
    let file = b"kind a b c d e\nattr n - - - -\nnum 30 - - - -\ngreater 1 2 - - -\n\
        deny 3 - - - -\n";
    let mut gate = fitted(Bias::Base, file);
    let mut decided = |number: i32, status: u8, again: bool| {
        sensors.sensors[5] = Sensor {
            name: "n".to_owned(),
            number,
            status,
        };
        assert!(!again || gate.read(&sensors).is_ok());
        gate.quick().expect("something was read")
    };
    assert_eq!(decided(31, 0, true), Decision::Deny);
    assert_eq!(decided(30, 0, false), Decision::Deny);
    assert_eq!(decided(30, 0, true), Decision::NotApplicable);
    assert_eq!(decided(31, 1, true), Decision::Indeterminate);
    assert_eq!(decided(31, 0, false), Decision::Indeterminate);
    assert_eq!(decided(31, 2, true), Decision::NotApplicable);
}

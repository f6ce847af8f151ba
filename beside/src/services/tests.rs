use super::*;

fn duty(force: Force, action: u8, cell: &str) -> Duty {
    let value = Value::of_cell(cell.as_bytes()).expect("a well spelt cell");
    Duty {
        force,
        action,
        value,
    }
}

fn must(action: u8, cell: &str) -> Duty {
    duty(Force::Must, action, cell)
}

/// A cell for each sort of value.
const CELLS: [&str; 7] = ["-", "!", "true", "-7", "roof", "1,2", "ab,cd"];

#[test]
fn a_journal_takes_the_lower_actions_with_any_value() {
    for action in 0..=15 {
        for cell in CELLS {
            let mut journal = Journal::default();
            let duty = must(action, cell);
            assert_eq!(journal.ask(&duty), action <= 7);
            let expected: &[Duty] = if action <= 7 { &[duty] } else { &[] };
            assert_eq!(journal.entries(), expected);
        }
    }
}

#[test]
fn a_journal_has_room_for_sixty_four() {
    let mut journal = Journal::default();
    for number in 0..64 {
        let duty = must((number % 8) as u8, &number.to_string());
        assert!(journal.ask(&duty));
        assert_eq!(journal.count(), number + 1);
        assert_eq!(journal.latest(), Some(&duty));
    }
    let full = journal.clone();
    for action in 0..=15 {
        assert!(!journal.ask(&duty(Force::May, action, "1")));
    }
    assert_eq!(journal, full);
    assert_eq!(journal.entries().len(), 64);
    assert_eq!(journal.entries()[0], must(0, "0"));
    assert_eq!(journal.entries()[63], must(7, "63"));
}

#[test]
fn a_bank_moves_one_valve() {
    for action in 8..=15 {
        for position in [0, 1, 99, 100] {
            let mut bank = ValveBank::default();
            let duty = must(action, &position.to_string());
            assert!(bank.ask(&duty));
            let mut expected = [0; 8];
            expected[usize::from(action) - 8] = position;
            assert_eq!(bank.positions(), &expected);
            assert_eq!((bank.count(), bank.latest()), (1, Some(&duty)));
        }
    }
}

#[test]
fn a_bank_does_nothing_else() {
    let mut bank = ValveBank::default();
    assert!(bank.ask(&must(8, "10")) && bank.ask(&must(15, "20")));
    let before = bank.clone();
    for action in 0..=7 {
        assert!(!bank.ask(&must(action, "50")));
    }
    let beyond = ["-1", "101", "-2147483648", "2147483647"];
    for cell in beyond
        .into_iter()
        .chain(["-", "!", "true", "roof", "1,2", "ab,cd"])
    {
        assert!(
            !bank.ask(&must(8, cell)) && !bank.ask(&must(15, cell)),
            "{cell}"
        );
    }
    assert_eq!(bank, before);
    assert_eq!(bank.positions(), &[10, 0, 0, 0, 0, 0, 0, 20]);
}

#[test]
fn a_bank_stops_before_its_count_leaves_the_range() {
    let mut bank = ValveBank {
        count: 4_294_967_294,
        ..ValveBank::default()
    };
    assert!(bank.ask(&must(9, "5")));
    assert_eq!(bank.count(), 4_294_967_295);
    assert!(!bank.ask(&must(9, "6")));
    assert_eq!(bank.positions(), &[0, 5, 0, 0, 0, 0, 0, 0]);
    assert_eq!(bank.latest(), Some(&must(9, "5")));
}

#[test]
fn a_switchboard_asks_one_of_two() {
    let mut board: Switchboard<Journal, ValveBank> = Switchboard::default();
    assert!(board.ask(&must(7, "101")));
    assert!(!board.ask(&must(8, "101")));
    assert_eq!((board.count(), board.latest()), (1, Some(&must(7, "101"))));
    assert!(board.ask(&must(8, "100")));
    assert!(board.ask(&must(0, "-")));
    assert_eq!((board.count(), board.latest()), (3, Some(&must(0, "-"))));
    assert_eq!(board.first.entries(), [must(7, "101"), must(0, "-")]);
    assert_eq!(board.second.positions(), &[100, 0, 0, 0, 0, 0, 0, 0]);
    // What the two are is open: here no action fits either of them.
    let mut twisted: Switchboard<ValveBank, Journal> = Switchboard::default();
    assert!((0..=15).all(|action| !twisted.ask(&must(action, "1"))));
    assert_eq!((twisted.count(), twisted.latest()), (0, None));
}

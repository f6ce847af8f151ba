use super::*;

/// The answers to a case, with a bar for the end of each line.
fn answered(case: &str) -> Option<String> {
    let lines: Vec<String> = case.split('|').map(str::to_owned).collect();
    answer(&lines).map(|lines| lines.join("|"))
}

fn checked_answer(case: &str, expected: &str) {
    assert_eq!(answered(case).as_deref(), Some(expected), "{case}");
}

/// These sensors, and unused ones up to the full number.
fn sensors(first: &[&str]) -> String {
    let mut lines: Vec<String> = first.iter().map(|line| (*line).to_owned()).collect();
    lines.resize(16, "unused 0 0".to_owned());
    lines.join("|")
}

#[test]
fn journals_tell_their_entries() {
    checked_answer(
        "journal|base permit must 1 4 may 9 4 may 0 ab,cd|deny-biased not-app|base deny must 8 - may 2 1",
        "permit 2 1 0|deny 0 0 0|indet 0 1 1|entries must 1 4 may 0 ab,cd|latest may 0 ab,cd",
    );
    checked_answer(
        "journal|permit-biased indet",
        "permit 0 0 0|entries|latest -",
    );
    checked_answer("journal", "entries|latest -");
}

#[test]
fn journals_are_full_after_sixty_four() {
    let duties = " may 7 !".repeat(64);
    checked_answer(
        &format!("journal|base deny{duties} may 1 1 must 2 2 must 3 3|base permit may 0 0"),
        &format!("indet 64 2 1|permit 0 1 0|entries{duties}|latest may 7 !"),
    );
}

#[test]
fn banks_tell_their_positions() {
    checked_answer(
        "bank|base permit must 8 100 must 15 1 may 8 101 must 9 50|base deny may 8 3 must 0 3 may 9 3",
        "permit 3 1 0|indet 1 1 1|valves 3 50 0 0 0 0 0 1|latest may 8 3",
    );
    checked_answer(
        "bank|permit-biased deny must 10 7|permit-biased deny must 10 -1|deny-biased permit may 11 7,7",
        "deny 1 0 0|permit 0 1 0|permit 0 1 0|valves 0 0 7 0 0 0 0 0|latest must 10 7",
    );
}

#[test]
fn boards_tell_both() {
    checked_answer(
        "board|base permit must 7 - must 8 42 may 8 - must 0 true|base indet must 14 ! must 1 1",
        "permit 3 1 0|indet 0 1 1|entries must 7 - must 0 true|valves 42 0 0 0 0 0 0 0|latest must 0 true",
    );
}

#[test]
fn boards_stand_in_boards() {
    checked_answer(
        "boards|base permit must 0 1 must 8 42 must 15 7",
        "permit 3 0 0|entries must 0 1|valves 0 0 0 0 0 0 0 0|valves 42 0 0 0 0 0 0 7|latest must 15 7",
    );
    checked_answer(
        "exchanged|base permit may 0 1 may 8 42 must 8 1 may 1 1",
        "indet 0 3 1|entries|valves 0 0 0 0 0 0 0 0|latest -",
    );
}

#[test]
fn sensors_tell_what_they_know() {
    let bank = sensors(&[
        "a -5 0",
        "b 1 1",
        "c 1 2",
        "d 1 3",
        "c 9 0",
        "ab 2147483647 0",
    ]);
    checked_answer(
        &format!("sensors|{bank}|a|b|c|d|ab|abc|unused"),
        "-5|!|-|!|2147483647|-|0",
    );
}

#[test]
fn rows_and_sensors_stand_in_for_one_another() {
    let bank = sensors(&["a 1 0", "b 2 2", "c 3 1", "d 4 0", "f 6 2", "f 7 0"]);
    checked_answer(
        &format!("before|a b c e f|! 20 - e,e -|{bank}|a|b|c|d|e|f|g"),
        "! 1|20 20|! !|4 4|e,e e,e|- -|- -",
    );
}

#[test]
fn misspelt_cases_have_no_answer() {
    let few = sensors(&["a 1 0"]).replacen("unused 0 0|", "", 1);
    let cases = [
        "",
        "valves",
        "journal|",
        "journal|base",
        "journal|Base permit",
        "journal|base maybe",
        "journal|base permit must 1",
        "journal|base permit must 16 1",
        "journal|base permit must 1 01",
        "journal|base permit shall 1 1",
        "sensors|a 1 0",
        &format!("sensors|{}|A", sensors(&[])),
        &format!("sensors|{}", sensors(&["a 1 256"])),
        &format!("sensors|{}", sensors(&["a 1 -1"])),
        &format!("sensors|{few}"),
        &format!("before|a a|1 1|{}", sensors(&[])),
        &format!("before|a b|1|{}", sensors(&[])),
    ];
    for case in cases {
        assert_eq!(answered(case), None, "{case}");
    }
}

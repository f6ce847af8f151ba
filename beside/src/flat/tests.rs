use super::*;
use crate::{deciding, policy, readings};

/// Line 1 is an `attr` line, line 2 is none.
const POLICY: &[u8] = b"kind a b c d e\nattr a - - - -\nnum 7 - - - -\nequal 1 2 - - -\n\
    attr b - - - -\nmust 1 4 - - -\npermit 3 5 - - -\n";

/// The four decisions of the policy above.
const CONDITIONS: &str = "reading 1|number 7|equal 0 1|reading 4|test true 2|test absent 2|\
    test other 2|test fulfilled 3|negation 7|both 4 7|both 4 8|either 6 10|truth false|\
    marks 9 12 5 11";

fn parsed(conditions: &str) -> Result<Conditions, Misspelt> {
    let policy = policy::parse(POLICY).unwrap();
    Conditions::parse(&conditions.replace('|', "\n"), &policy)
}

/// The results of all lines for one row of the readings `a` and `b`.
fn results(conditions: &str, row: &str) -> (String, Option<Decision>) {
    let policy = policy::parse(POLICY).unwrap();
    let table = readings::parse(format!("a b\n{row}\n").as_bytes()).unwrap();
    let judgement = deciding::judgements(&policy, &table).next().unwrap();
    let judgement = judgement.looked_up();
    let conditions = parsed(conditions).unwrap();
    let mut scratch = conditions.scratch();
    let decision = conditions.pass(judgement.readings(), &mut scratch);
    let results: Vec<String> = scratch.values.iter().map(|value| told(*value)).collect();
    (results.join(" "), decision)
}

fn told(operand: Operand<'_>) -> String {
    match operand {
        Operand::Missing => "-".to_owned(),
        Operand::Error => "!".to_owned(),
        Operand::Boolean(truth) => truth.to_string(),
        Operand::Number(number) => number.to_string(),
        Operand::Text(text) => text.to_owned(),
        Operand::Numbers(_) | Operand::Texts(_) => "set".to_owned(),
    }
}

/// The same without the marks.
fn values(conditions: &str, row: &str) -> String {
    results(&format!("{conditions}|marks 0 0 0 0"), row).0
}

#[test]
fn a_pass_comes_to_the_decision_of_the_policy() {
    let policy = policy::parse(POLICY).unwrap();
    let cells = ["-", "!", "true", "false", "7", "8", "roof", "7,8", "a,b"];
    for row in cells.iter().flat_map(|a| cells.map(|b| format!("{a} {b}"))) {
        let table = readings::parse(format!("a b\n{row}\n").as_bytes()).unwrap();
        let judgement = deciding::judgements(&policy, &table).next().unwrap();
        let walked = judgement.response();
        let judgement = judgement.looked_up();
        assert_eq!(judgement.response(), walked, "{row}");
        let conditions = parsed(CONDITIONS).unwrap();
        let mut scratch = conditions.scratch();
        let passed = conditions.pass(judgement.readings(), &mut scratch);
        assert_eq!(passed, Some(walked.decision), "{row}");
        assert_eq!(conditions.marked(&scratch), [walked.decision], "{row}");
    }
}

#[test]
fn leaves_have_their_own_value() {
    let leaves = "truth true|truth false|number -7|text roof|reading 1|reading 4";
    assert_eq!(values(leaves, "1,2 -"), "true false -7 roof set -");
}

#[test]
fn operators_work_on_lines_above() {
    let lines = "reading 1|reading 4|not 0|and 0 1|or 0 1|equal 0 1|in 0 1|greater 0 1|add 0 1|\
        sub 0 1|mul 0 1|div 0 1";
    assert_eq!(values(lines, "7 -2"), "7 -2 ! ! ! false ! true 5 9 -14 -3");
    assert_eq!(
        values(lines, "true false"),
        "true false false false true false ! ! ! ! ! !"
    );
    assert_eq!(values(lines, "7 7,8"), "7 set ! ! ! ! true ! ! ! ! !");
    assert_eq!(values(lines, "- !"), "- ! - ! ! ! ! ! ! ! ! !");
}

#[test]
fn tests_are_truths_for_every_sort() {
    let lines = "reading 1|test true 0|test absent 0|test other 0|test fulfilled 0";
    let tests = |cell: &str| {
        let values = values(lines, &format!("{cell} -"));
        let held = values.split(' ').skip(1).map(|word| &word[..1]);
        held.collect::<String>()
    };
    assert_eq!(
        (tests("true"), tests("false")),
        ("tfft".into(), "ftft".into())
    );
    assert_eq!((tests("-"), tests("!")), ("ftff".into(), "fftf".into()));
    assert_eq!((tests("7"), tests("roof")), ("fftt".into(), "fftt".into()));
    assert_eq!((tests("7,8"), tests("a,b")), ("fftf".into(), "fftf".into()));
}

#[test]
fn truths_are_connected() {
    let lines = "reading 1|reading 4|negation 0|both 0 1|either 0 1";
    assert_eq!(values(lines, "true true"), "true true false true true");
    assert_eq!(values(lines, "true -"), "true - false false true");
    // Whatever is not the boolean true is not true here.
    assert_eq!(values(lines, "- 7"), "- 7 true false false");
    assert_eq!(values(lines, "! false"), "! false true false false");
}

#[test]
fn the_first_true_mark_decides() {
    let decided = |marks: &str| results(&format!("truth true|truth false|marks {marks}"), "- -").1;
    assert_eq!(decided("1 1 0 1"), Some(Decision::NotApplicable));
    assert_eq!(decided("1 0 1 0"), Some(Decision::Deny));
    assert_eq!(decided("1 1 1 1"), None);
}

#[test]
fn faults_are_found_in_their_line() {
    let fault = |lines: &str| parsed(&format!("truth true|{lines}|marks 0 0 0 0")).unwrap_err();
    for line in [
        "",
        "truth",
        "truth yes",
        "truth true 0",
        "reading 0",
        "reading 2",
        "reading 7",
        "reading -1",
        "number",
        "number 07",
        "text true",
        "text A",
        "not 1",
        "not -1",
        "not 0 0",
        "and 0",
        "and 0 1",
        "and 0 0 0",
        "nand 0 0",
        "test 0",
        "test false 0",
        "test true 1",
        "negation 1",
        "both 0",
        "either 0 1",
        "negation  0",
    ] {
        assert_eq!(fault(line), Misspelt(1), "{line}");
    }
    assert_eq!(parsed("truth true|marks 0 0 0 1").unwrap_err(), Misspelt(1));
    assert_eq!(parsed("truth true|marks 0 0 0").unwrap_err(), Misspelt(1));
    assert_eq!(parsed("").unwrap_err(), Misspelt(0));
}

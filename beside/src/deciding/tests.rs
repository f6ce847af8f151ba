use super::*;
use crate::{policy, readings};

/// The responses to all rows, with a bar for the end of each line of either file.
fn responses(lines: &str, table: &str) -> Vec<String> {
    let file = |text: &str| format!("{}\n", text.replace('|', "\n")).into_bytes();
    let policy = policy::parse(&[policy::HEADER, b"\n", &file(lines)].concat()).unwrap();
    let readings = readings::parse(&file(table)).unwrap();
    judgements(&policy, &readings)
        .map(|judgement| judgement.response().to_string())
        .collect()
}

/// The one response to a row that has nothing of use.
fn response(lines: &str) -> String {
    responses(lines, "unused|-").remove(0)
}

/// A set of rules that decide as the letters say, each with its place as a duty.
fn of_letters(combining: &str, letters: &str) -> String {
    let mut lines = Vec::new();
    let mut item = "-".to_owned();
    for (place, letter) in letters.chars().enumerate() {
        let target = match letter {
            'p' | 'd' => "true",
            'n' => "false",
            _ => "num 1",
        };
        let kind = if letter == 'd' { "deny" } else { "permit" };
        let first = lines.len() + 1;
        lines.push(target.to_owned());
        lines.push(format!("num {place}"));
        lines.push(format!("must {place} {}", first + 1));
        lines.push(format!("{kind} {first} {}", first + 2));
        lines.push(format!("item {} {item}", first + 3));
        item = lines.len().to_string();
    }
    lines.push("true".to_owned());
    lines.push(format!("set {combining} {} {item}", lines.len()));
    response(&padded(&lines))
}

/// The lines with as many unused fields as they need.
fn padded(lines: &[String]) -> String {
    let pad = |line: &String| line.clone() + &" -".repeat(6 - line.split(' ').count());
    lines.iter().map(pad).collect::<Vec<_>>().join("|")
}

#[test]
fn names_can_be_looked_up_beforehand() {
    let policy = b"kind a b c d e\nattr b - - - -\nattr a - - - -\nmust 1 2 - - -\n\
        attr a - - - -\nor 1 4 - - -\nattr lacking - - - -\nor 5 6 - - -\npermit 7 3 - - -\n";
    let policy = policy::parse(policy).unwrap();
    let readings = readings::parse(b"a b\ntrue false\n7 true\n- true\nfalse !\n").unwrap();
    for row in judgements(&policy, &readings) {
        let looked_up = row.looked_up();
        assert_eq!(looked_up.response(), row.response());
        assert_eq!(looked_up.readings()[0], row.value(1));
        assert_eq!(looked_up.readings()[3], row.value(4));
    }
}

#[test]
fn the_first_example() {
    let policy = "attr sub/role - - - -|text grower - - - -|equal 1 2 - - -|\
        attr res/valve - - - -|must 1 4 - - -|permit 3 5 - - -";
    let readings = "sub/role res/valve|grower 4|picker 4|grower -";
    let expected = ["permit must 1 4", "not-app", "indet"];
    assert_eq!(responses(policy, readings), expected);
}

#[test]
fn targets_of_every_sort() {
    let table = "a|true|false|-|!|0|roof|1,2|a,b";
    let expected = [
        "permit", "not-app", "not-app", "indet", "indet", "indet", "indet", "indet",
    ];
    let rule = "attr a - - - -|permit 1 - - - -";
    assert_eq!(responses(rule, table), expected);
    let set = "true - - - - -|permit 1 - - - -|item 2 - - - -|attr a - - - -|\
        set p-over.all 4 3 - -";
    assert_eq!(responses(set, table), expected);
    // A name that the readings lack is as good as missing.
    assert_eq!(responses(rule, "b|true"), ["not-app"]);
}

#[test]
fn arguments_of_every_sort() {
    let table = "a|true|false|-|!|-2147483648|roof|1,2|a,b";
    for force in ["must", "may"] {
        let rule = format!("true - - - - -|attr a - - - -|{force} 15 2 - - -|deny 1 3 - - -");
        let fulfilled = |value: &str| format!("deny {force} 15 {value}");
        let expected = [
            fulfilled("true"),
            fulfilled("false"),
            "indet".to_owned(),
            "indet".to_owned(),
            fulfilled("-2147483648"),
            fulfilled("roof"),
            "indet".to_owned(),
            "indet".to_owned(),
        ];
        assert_eq!(responses(&rule, table), expected);
    }
}

#[test]
fn an_unfulfilled_duty_counts_only_where_it_is_appended() {
    let never = "false - - - - -|attr a - - - -|must 0 2 - - -|permit 1 3 - - -";
    assert_eq!(response(never), "not-app");
    let set = |kind: &str| {
        format!(
            "true - - - - -|{kind} 1 - - - -|item 2 - - - -|true - - - - -|num 7 - - - -|\
             may 3 5 - - -|attr a - - - -|must 4 7 - - -|set p-over.all 4 3 6 8"
        )
    };
    assert_eq!(response(&set("permit")), "permit may 3 7");
    assert_eq!(response(&set("deny")), "indet");
}

#[test]
fn chains_are_read_from_their_first() {
    let duties = "num 1 - - - -|must 1 1 - - -|num 2 - - - -|may 2 3 2 - -|num 3 - - - -|\
        must 3 5 4 - -|true - - - - -|permit 7 6 - - -";
    assert_eq!(response(duties), "permit must 1 1 may 2 2 must 3 3");
    assert_eq!(of_letters("first-app.all", "npd"), "permit must 1 1");
    // A set's own duties come after those of its items.
    let set = "true - - - - -|num 1 - - - -|must 1 2 - - -|deny 1 3 - - -|item 4 - - - -|\
        true - - - - -|num 2 - - - -|may 2 7 - - -|set d-over.greedy 6 5 - 8";
    assert_eq!(response(set), "deny must 1 1 may 2 2");
}

#[test]
fn decisions_through_the_tree() {
    assert_eq!(of_letters("p-over.all", "di"), "indet");
    assert_eq!(of_letters("one-app.all", "pp"), "indet");
    assert_eq!(of_letters("weak-con.all", "pn"), "permit must 0 0");
    assert_eq!(of_letters("strong-con.all", "pn"), "indet");
    assert_eq!(of_letters("d-unless-p.all", "ni"), "deny");
    assert_eq!(
        of_letters("d-unless-p.all", "dnid"),
        "deny must 0 0 must 3 3"
    );
}

#[test]
fn greed_leaves_out_later_duties() {
    let both = |algorithm: &str, letters: &str| {
        ["all", "greedy"].map(|strategy| of_letters(&format!("{algorithm}.{strategy}"), letters))
    };
    let two = "permit must 1 1 must 3 3";
    assert_eq!(both("p-over", "dpip"), [two, "permit must 1 1"]);
    assert_eq!(both("d-unless-p", "dpip"), [two, "permit must 1 1"]);
    assert_eq!(both("p-unless-d", "dpip"), ["deny must 0 0"; 2]);
    assert_eq!(both("p-unless-d", "npip"), [two; 2]);
    assert_eq!(both("weak-con", "npnp"), [two; 2]);
    assert_eq!(both("first-app", "npip"), ["permit must 1 1"; 2]);
    assert_eq!(both("strong-con", "ppd"), ["indet"; 2]);
}

use super::*;

const SAMPLE: &str = "attr sub/role - - - -|text grower - - - -|equal 1 2 - - -|\
    attr res/valve - - - -|must 1 4 - - -|permit 3 5 - - -";

/// A file of the header and these lines, with a bar for each line's end.
fn file(lines: &str) -> Vec<u8> {
    format!("kind a b c d e\n{}\n", lines.replace('|', "\n")).into_bytes()
}

fn refused(lines: &str) -> String {
    parse(&file(lines)).unwrap_err().to_string()
}

fn many(count: usize) -> String {
    let mut lines = vec!["true - - - - -".to_owned()];
    lines.extend((1..count - 1).map(|number| format!("not {number} - - - -")));
    lines.push(format!("deny {} - - - -", count - 1));
    lines.join("|")
}

#[test]
fn the_sample_is_accepted() {
    let policy = parse(&file(SAMPLE)).unwrap();
    assert_eq!(policy.lines.len(), 6);
    let equal = Line::Binary {
        operator: Operator::Equal,
        left: 1,
        right: 2,
    };
    assert_eq!(*policy.line(3), equal);
    let duty = Line::Duty {
        force: Force::Must,
        action: 1,
        argument: 4,
        earlier: None,
    };
    assert_eq!(*policy.line(5), duty);
    let rule = Line::Rule {
        effect: Effect::Permit,
        target: 3,
        duty: Some(5),
    };
    assert_eq!(*policy.line(6), rule);
}

#[test]
fn sets_and_chains_are_accepted() {
    let chains = "true - - - - -|permit 1 - - - -|item 2 - - - -|false - - - - -|deny 4 - - - -|\
        item 5 3 - - -|num -2147483648 - - - -|may 15 7 - - -|num 2147483647 - - - -|\
        must 0 9 8 - -|true - - - - -|set strong-con.greedy 11 6 - 10";
    let policy = parse(&file(chains)).unwrap();
    let set = Line::Set {
        algorithm: Algorithm::StrongConsensus,
        strategy: Strategy::Greedy,
        target: 11,
        item: 6,
        on_permit: None,
        on_deny: Some(10),
    };
    assert_eq!(*policy.line(12), set);
    assert_eq!(
        *policy.line(6),
        Line::Item {
            policy: 5,
            earlier: Some(3)
        }
    );
}

#[test]
fn header_faults() {
    let files: [&[u8]; 6] = [
        b"",
        b"\n",
        b"kind a b c d e",
        b"kind a b c d e \n",
        b"kind a b c d e\r\n",
        b"true - - - - -\ndeny 1 - - - -\n",
    ];
    for file in files {
        assert_eq!(parse(file).unwrap_err().to_string(), "refused 1 1 0 0");
    }
}

#[test]
fn shape_faults() {
    assert_eq!(refused("true - - - -"), "refused 2 1 1 0");
    assert_eq!(refused("true - - - - - -"), "refused 2 1 1 0");
    assert_eq!(refused("true - - - - -|"), "refused 2 1 2 0");
    let mut cut = file(SAMPLE);
    cut.pop();
    assert_eq!(parse(&cut).unwrap_err().to_string(), "refused 2 1 6 0");
    // Two spaces in a row still count, and hold an empty field.
    assert_eq!(refused("true  - - - -"), "refused 4 1 1 2");
}

#[test]
fn unknown_words() {
    assert_eq!(refused("True - - - - -"), "refused 3 1 1 1");
    assert_eq!(refused(" 1 2 3 4 5"), "refused 3 1 1 1");
    for word in [
        "-",
        "p-over",
        "p-over.",
        "p-over.ALL",
        ".all",
        "p-over.all.all",
        "two.all",
    ] {
        assert_eq!(refused(&format!("set {word} x x x x")), "refused 3 1 1 2");
    }
}

#[test]
fn misspelt_fields() {
    assert_eq!(refused("attr Sub - - - -"), "refused 4 1 1 2");
    assert_eq!(refused("num -0 - - - -"), "refused 4 1 1 2");
    assert_eq!(refused("text true - - - -"), "refused 4 1 1 2");
    assert_eq!(refused("must 16 0 - - -"), "refused 4 1 1 2");
    assert_eq!(refused("may -1 0 - - -"), "refused 4 1 1 2");
    assert_eq!(refused("true - - - - -|not - - - - -"), "refused 4 1 2 2");
    assert_eq!(refused("true - - - - -|not 01 - - - -"), "refused 4 1 2 2");
    assert_eq!(refused("true - - - - -|deny 1 00 - - -"), "refused 4 1 2 3");
    assert_eq!(refused("true - - - - 0"), "refused 4 1 1 6");
}

#[test]
fn references_that_do_not_fit() {
    for word in ["0", "-3", "2", "3", "2147483647", "-2147483648"] {
        assert_eq!(
            refused(&format!("true - - - - -|not {word} - - - -")),
            "refused 5 2 2 2"
        );
    }
    assert_eq!(refused("true - - - - -|deny 1 1 - - -"), "refused 5 2 2 3");
    assert_eq!(refused("true - - - - -|item 1 - - - -"), "refused 5 2 2 2");
    // A fault further right, or a second naming, does not hide the wrong family.
    assert_eq!(refused("true - - - - -|deny 1 1 x - -"), "refused 5 2 2 3");
}

#[test]
fn naming_faults() {
    let twice = "true - - - - -|not 1 - - - -|and 2 1 - - -|deny 3 - - - -";
    assert_eq!(refused(twice), "refused 6 2 3 3");
    assert_eq!(refused("true - - - - -|and 1 1 - - -"), "refused 6 2 2 3");
    let never = "true - - - - -|true - - - - -|deny 2 - - - -";
    assert_eq!(refused(never), "refused 6 2 1 0");
    assert_eq!(refused("true - - - - -|not 1 - - - -"), "refused 6 2 2 0");
    assert_eq!(refused("true - - - - -"), "refused 6 2 1 0");
    assert_eq!(refused("true - - - - -|true - - - - -"), "refused 6 2 1 0");
}

#[test]
fn line_counts() {
    assert_eq!(
        parse(b"kind a b c d e\n").unwrap_err().to_string(),
        "refused 7 2 1 0"
    );
    assert_eq!(parse(&file(&many(256))).unwrap().lines.len(), 256);
    assert_eq!(refused(&many(257)), "refused 7 2 257 0");
    for tail in ["\n", "x", " "] {
        let mut longer = file(&many(256));
        longer.extend(tail.bytes());
        assert_eq!(parse(&longer).unwrap_err().to_string(), "refused 7 2 257 0");
    }
    let faulty = many(257).replace("not 99 ", "not 099 ");
    assert_eq!(refused(&faulty), "refused 4 1 100 2");
}

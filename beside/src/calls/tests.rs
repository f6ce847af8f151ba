use super::count::{Count, Responses, Uses};
use super::*;

const FILE: &[u8] = b"kind a b c d e\nattr a - - - -\nattr b - - - -\nmust 8 2 - - -\n\
    permit 1 3 - - -\n";

/// Names and cells, with a bar between lines.
fn read(form: Form, lines: &str) -> Call {
    let lines = lines.split('|').map(str::to_owned).collect();
    Call::Read(Reading { form, lines })
}

/// One sensor and fifteen that nobody asks for.
fn sensors(first: &str) -> String {
    format!("{first}{}", "|o 0 0".repeat(15))
}

fn list(device: Device, calls: Vec<Call>) -> List {
    List {
        bias: Bias::DenyBiased,
        places: 128,
        device,
        calls,
    }
}

fn answers(device: Device, calls: Vec<Call>) -> Vec<String> {
    let played = list(device, calls).played().expect("well spelt");
    played.to_string().lines().map(str::to_owned).collect()
}

#[test]
fn a_list_is_framed_by_its_length() {
    let calls = vec![
        Call::Fit(b"kind\n\nx".to_vec()),
        read(Form::Row, "a b|1 -"),
        Call::Decide,
        Call::Quick,
        Call::Enforce,
        Call::WriteBack(12),
        Call::Fit(Vec::new()),
    ];
    let body = "deny-biased 128 board\nfit 7\nkind\n\nx\nread row 7\na b\n1 -\ndecide\nquick\n\
        enforce\nwrite 12\nfit 0\n\n";
    let framed = format!("calls {}\n{body}\n", body.len());
    assert_eq!(list(Device::Board, calls).framed(), framed.as_bytes());
}

#[test]
fn every_call_has_an_answer() {
    let calls = vec![
        Call::Decide,
        Call::Fit(FILE.to_vec()),
        Call::Quick,
        read(Form::Row, "a b|true 40"),
        Call::Quick,
        Call::Decide,
        Call::Fit(Vec::new()),
        Call::Enforce,
        Call::Enforce,
        Call::Fit(Vec::new()),
        Call::Decide,
        Call::Enforce,
    ];
    let expected = [
        "refused 12 4 0 0",
        "fitted",
        "refused 13 4 0 0",
        "read",
        "permit",
        "permit",
        "refused 14 4 0 0",
        "permit 1 0 0",
        "refused 15 4 0 0",
        "refused 1 1 0 0",
        "permit",
        "permit 1 0 0",
        "valves 40 0 0 0 0 0 0 0",
        "latest must 8 40",
    ];
    assert_eq!(answers(Device::Bank, calls.clone()), expected);
    let on_board = answers(Device::Board, calls.clone());
    assert_eq!(on_board[..12], expected[..12]);
    assert_eq!(on_board[12..], [&["entries"], &expected[12..]].concat());
    // A journal never takes the duty.
    let on_journal = answers(Device::Journal, calls);
    assert_eq!(
        (&on_journal[7][..], &on_journal[11][..]),
        ("deny 0 1 0", "deny 0 1 0")
    );
    assert_eq!(on_journal[12..], ["entries", "latest -"]);
}

#[test]
fn one_service_serves_the_whole_list() {
    let file = b"kind a b c d e\ntrue - - - - -\nattr b - - - -\nmay 7 2 - - -\ndeny 1 3 - - -\n";
    let mut calls = vec![Call::Fit(file.to_vec())];
    for number in 0..66 {
        calls.push(read(Form::Row, &format!("b|{number}")));
        calls.extend([Call::Decide, Call::Enforce]);
    }
    let answers = answers(Device::Journal, calls);
    assert_eq!(
        (&answers[3 * 64][..], &answers[3 * 65][..]),
        ("deny 1 0 0", "deny 0 1 0")
    );
    assert_eq!(answers[3 * 66], "deny 0 1 0");
    let duties: String = (0..64).map(|number| format!(" may 7 {number}")).collect();
    assert_eq!(answers[3 * 66 + 1], format!("entries{duties}"));
    assert_eq!(answers[3 * 66 + 2], "latest may 7 63");
}

#[test]
fn every_source_is_read() {
    let decided = |form: Form, lines: &str| {
        let calls = vec![
            Call::Fit(FILE.to_vec()),
            read(form, lines),
            Call::Decide,
            Call::Enforce,
        ];
        answers(Device::Bank, calls)[1..4].join(" ")
    };
    assert_eq!(decided(Form::Row, "b a|7 true"), "read permit permit 1 0 0");
    assert_eq!(decided(Form::Row, "b|7"), "read not-app deny 0 0 0");
    // A number is no boolean.
    assert_eq!(
        decided(Form::Sensors, &sensors("a 1 0")),
        "read indet deny 0 0 0"
    );
    assert_eq!(
        decided(Form::Sensors, &sensors("a 1 2")),
        "read not-app deny 0 0 0"
    );
    let both =
        |cell: &str, status: u8| format!("a b|true {cell}|{}", sensors(&format!("b 101 {status}")));
    // The valve goes to 9 and not to 101.
    let cases = [
        (Form::RowFirst, "9", 0, "read permit permit 1 0 0"),
        (Form::SensorsFirst, "9", 0, "read permit deny 0 1 0"),
        (Form::SensorsFirst, "9", 2, "read permit permit 1 0 0"),
        (Form::SensorsFirst, "9", 1, "read indet deny 0 0 0"),
        (Form::RowFirst, "-", 0, "read permit deny 0 1 0"),
    ];
    for (form, cell, status, expected) in cases {
        assert_eq!(decided(form, &both(cell, status)), expected);
    }
}

#[test]
fn bytes_show_what_was_written() {
    assert_eq!(blank(28), b"abcdefghijklmnopqrstuvwxyzab");
    // 97 + 2 * 98 + 3 * 99
    assert_eq!((sum(&blank(3)), sum(b"")), (590, 0));
    let write = |calls: &[Call], bytes: usize| {
        let calls = [calls, &[Call::WriteBack(bytes)]].concat();
        answers(Device::Journal, calls.clone())[calls.len() - 1].clone()
    };
    let file = b"kind a b c d e\ntrue - - - - -\npermit 1 - - - -\n";
    let length = file.len();
    assert_eq!(length, 47);
    let fit = [Call::Fit(file.to_vec())];
    assert_eq!(write(&[], 3), "refused 12 4 0 0 590");
    assert_eq!(write(&fit, 3), "refused 11 3 0 0 590");
    assert_eq!(write(&fit, 0), "refused 11 3 0 0 0");
    let few = format!("refused 11 3 0 0 {}", sum(&blank(length - 1)));
    assert_eq!(write(&fit, length - 1), few);
    assert_eq!(write(&fit, length), format!("{length} {}", sum(file)));
    // What is behind the file stays: the 48th of the letters, which is a `v`.
    let more = sum(file) + 48 * u64::from(b'v');
    assert_eq!(write(&fit, length + 1), format!("{length} {more}"));
}

#[test]
fn misspelt_sources_have_no_answer() {
    let sources = [
        read(Form::Row, "a"),
        read(Form::Row, "a|A"),
        read(Form::Sensors, "a 1 0"),
        read(Form::RowFirst, "a|1"),
        read(Form::SensorsFirst, &sensors("a 1 0")),
    ];
    for source in sources {
        assert_eq!(list(Device::Bank, vec![source]).played(), None);
    }
}

#[test]
fn calls_are_counted() {
    let calls = vec![
        Call::Decide,
        Call::Fit(FILE.to_vec()),
        read(Form::Row, "a b|true 101"),
        Call::Decide,
        Call::Enforce,
        Call::Enforce,
        Call::WriteBack(1),
    ];
    let list = list(Device::Bank, calls);
    let played = list.played().expect("well spelt");
    let count = Count::of_lists(&[(list.clone(), played.clone()), (list, played)]);
    assert_eq!((count.lists, count.all_calls()), (2, 14));
    assert_eq!(count.calls["decide"], Uses { all: 4, refused: 2 });
    assert_eq!(count.calls["read row"], Uses { all: 2, refused: 0 });
    assert_eq!(count.by_number[10..], [2, 2, 0, 0, 2]);
    assert_eq!(count.by_decision, [2, 0, 0, 0]);
    let failed = Responses {
        all: 2,
        failed: 2,
        ..Responses::default()
    };
    assert_eq!(count.responses["deny-biased on bank"], failed);
    assert_eq!(count.responses["base on bank"], Responses::default());
    assert_eq!(count.responses.len(), 9);
}

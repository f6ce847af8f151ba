use super::*;
use crate::spelling;

/// The result of an operator on two cells, spelled like a cell.
fn result(operator: &str, left: &str, right: &str) -> String {
    let operator = Operator::of_word(operator.as_bytes()).expect("a known operator");
    let [left, right] = [left, right].map(value);
    spelled(apply(operator, (&left).into(), (&right).into()))
}

fn value(cell: &str) -> Value {
    Value::of_cell(cell.as_bytes()).expect("a good cell")
}

fn spelled(operand: Operand) -> String {
    match operand {
        Missing => "-".to_owned(),
        Error => "!".to_owned(),
        Boolean(boolean) => boolean.to_string(),
        Number(number) => number.to_string(),
        other => panic!("no operator gives {other:?}"),
    }
}

/// Checks lines of `LEFT OPERATOR RIGHT RESULT`.
fn check(lines: &str) {
    for line in lines.lines() {
        let words: Vec<&str> = line.split_whitespace().collect();
        let [left, operator, right, expected] = words[..] else {
            panic!("not four words: {line}");
        };
        assert_eq!(result(operator, left, right), expected, "{line}");
    }
}

const CELLS: [&str; 9] = ["-", "!", "true", "false", "0", "-7", "roof", "1,2", "a,b"];

#[test]
fn one_side_can_settle_a_connective() {
    for cell in CELLS {
        assert_eq!(result("and", "false", cell), "false");
        assert_eq!(result("and", cell, "false"), "false");
        assert_eq!(result("or", "true", cell), "true");
        assert_eq!(result("or", cell, "true"), "true");
    }
}

#[test]
fn connectives_without_a_settling_side() {
    check(
        "true and true true
         true and - -
         - and true -
         - and - -
         true and ! !
         ! and - !
         - and ! !
         - and 0 !
         true and roof !
         1,2 and true !
         false or false false
         false or - -
         - or - -
         - or ! !
         0 or false !
         a,b or - !",
    );
}

#[test]
fn not_exchanges_only_booleans() {
    let turned = |cell: &str| spelled(not((&value(cell)).into()));
    let results = CELLS.map(turned);
    assert_eq!(
        results,
        ["-", "!", "false", "true", "!", "!", "!", "!", "!"]
    );
}

#[test]
fn errors_win_over_missing_values_and_both_over_the_rest() {
    for operator in ["equal", "in", "greater", "add", "sub", "mul", "div"] {
        for cell in CELLS {
            assert_eq!(result(operator, cell, "!"), "!");
            assert_eq!(result(operator, "!", cell), "!");
            let expected = if cell == "!" { "!" } else { "-" };
            assert_eq!(result(operator, cell, "-"), expected);
            assert_eq!(result(operator, "-", cell), expected);
        }
    }
}

#[test]
fn equal_wants_two_of_a_kind() {
    check(
        "true equal true true
         true equal false false
         -7 equal -7 true
         -7 equal 7 false
         roof equal roof true
         roof equal roo false
         true equal 1 !
         roof equal true !
         1 equal 1,1 !
         1,2 equal 1,2 !
         a,b equal a,b !",
    );
}

#[test]
fn in_wants_a_set_of_its_own_kind() {
    check(
        "2 in 1,2 true
         3 in 1,2 false
         b in a,b true
         b- in a,b false
         8 in 1,2,3,4,5,6,7,8 true
         a in 1,2 !
         1 in a,b !
         1 in 1 !
         true in a,b !
         1,2 in 1,2 !",
    );
}

#[test]
fn arithmetic_stays_in_range() {
    check(
        "-7 div 2 -3
         7 div -2 -3
         -7 div -2 3
         1 div -2 0
         -2147483648 div -1 !
         -2147483648 div 1 -2147483648
         0 div 0 !
         2147483647 add 1 !
         2147483647 add -2147483648 -1
         -2147483648 sub 1 !
         0 sub -2147483648 !
         -1 sub -2147483648 2147483647
         65536 mul 32768 !
         -65536 mul 32768 -2147483648
         -1 mul -2147483648 !
         2 greater 1 true
         1 greater 1 false
         -2147483648 greater 2147483647 false
         roof add 1 !
         roof greater a !
         true greater false !
         1,2 add 1 !",
    );
}

#[test]
fn a_wider_range_gives_the_same_arithmetic() {
    let ends = [i32::MIN, i32::MIN + 1, -46_341, -2, -1, 0, 1, 3, 46_340];
    let numbers = || ends.into_iter().flat_map(|end| [end, end.wrapping_neg()]);
    for (left, right) in numbers().flat_map(|left| numbers().map(move |right| (left, right))) {
        let wide = |exact: Option<i64>| {
            let spelt = exact.map_or_else(|| "!".to_owned(), |exact| exact.to_string());
            spelling::number(spelt.as_bytes()).map_or_else(|| "!".to_owned(), |n| n.to_string())
        };
        let of = |operator| result(operator, &left.to_string(), &right.to_string());
        let (one, other) = (i64::from(left), i64::from(right));
        assert_eq!(of("add"), wide(Some(one + other)));
        assert_eq!(of("sub"), wide(Some(one - other)));
        assert_eq!(of("mul"), wide(Some(one * other)));
        assert_eq!(of("div"), wide(one.checked_div(other)));
    }
}

//! What the operators make of their two sides.

use crate::line::Operator;
use crate::value::Value;

/// A value lent by the row or the line that holds it, so that a look at a set copies nothing.
#[derive(Clone, Copy, Debug, PartialEq, Eq)]
pub enum Operand<'a> {
    Missing,
    Error,
    Boolean(bool),
    Number(i32),
    Text(&'a str),
    Numbers(&'a [i32]),
    Texts(&'a [String]),
}

use Operand::{Boolean, Error, Missing, Number, Numbers, Text, Texts};

impl<'a> From<&'a Value> for Operand<'a> {
    fn from(value: &'a Value) -> Self {
        match value {
            Value::Missing => Missing,
            Value::Error => Error,
            Value::Boolean(boolean) => Boolean(*boolean),
            Value::Number(number) => Number(*number),
            Value::Text(text) => Text(text),
            Value::Numbers(numbers) => Numbers(numbers),
            Value::Texts(texts) => Texts(texts),
        }
    }
}

#[inline(always)]
pub fn not(side: Operand<'_>) -> Operand<'_> {
    match side {
        Boolean(boolean) => Boolean(!boolean),
        Missing => Missing,
        _ => Error,
    }
}

#[inline(always)]
pub fn apply<'a>(operator: Operator, left: Operand<'a>, right: Operand<'a>) -> Operand<'a> {
    match operator {
        Operator::And => connected(false, left, right),
        Operator::Or => connected(true, left, right),
        Operator::Equal => strict(left, right, equal),
        Operator::In => strict(left, right, member),
        Operator::Greater => strict(left, right, greater),
        Operator::Add => arithmetic(left, right, i32::checked_add),
        Operator::Sub => arithmetic(left, right, i32::checked_sub),
        Operator::Mul => arithmetic(left, right, i32::checked_mul),
        // Cuts towards zero, and has no answer for zero below or for a quotient out of range.
        Operator::Div => arithmetic(left, right, i32::checked_div),
    }
}

/// `and` and `or` are one operator seen in a mirror: they differ in which boolean settles
/// them alone, whatever the other side is.
#[inline(always)]
fn connected<'a>(settling: bool, left: Operand<'a>, right: Operand<'a>) -> Operand<'a> {
    match (left, right) {
        (Boolean(side), _) | (_, Boolean(side)) if side == settling => Boolean(settling),
        (Boolean(_), Boolean(_)) => Boolean(!settling),
        (Boolean(_) | Missing, Boolean(_) | Missing) => Missing,
        _ => Error,
    }
}

/// An error wins over a missing value, and both win over sides that do not fit.
#[inline(always)]
fn strict<'a>(
    left: Operand<'a>,
    right: Operand<'a>,
    fitting: impl Fn(Operand<'a>, Operand<'a>) -> Option<Operand<'a>>,
) -> Operand<'a> {
    match (left, right) {
        (Error, _) | (_, Error) => Error,
        (Missing, _) | (_, Missing) => Missing,
        _ => fitting(left, right).unwrap_or(Error),
    }
}

#[inline(always)]
fn equal<'a>(left: Operand<'a>, right: Operand<'a>) -> Option<Operand<'a>> {
    match (left, right) {
        (Boolean(left), Boolean(right)) => Some(Boolean(left == right)),
        (Number(left), Number(right)) => Some(Boolean(left == right)),
        (Text(left), Text(right)) => Some(Boolean(left == right)),
        _ => None,
    }
}

#[inline(always)]
fn member<'a>(left: Operand<'a>, right: Operand<'a>) -> Option<Operand<'a>> {
    match (left, right) {
        (Number(number), Numbers(numbers)) => Some(Boolean(numbers.contains(&number))),
        (Text(text), Texts(texts)) => Some(Boolean(texts.iter().any(|member| member == text))),
        _ => None,
    }
}

#[inline(always)]
fn greater<'a>(left: Operand<'a>, right: Operand<'a>) -> Option<Operand<'a>> {
    match (left, right) {
        (Number(left), Number(right)) => Some(Boolean(left > right)),
        _ => None,
    }
}

#[inline(always)]
fn arithmetic<'a>(
    left: Operand<'a>,
    right: Operand<'a>,
    compute: fn(i32, i32) -> Option<i32>,
) -> Operand<'a> {
    strict(left, right, |left, right| match (left, right) {
        (Number(left), Number(right)) => compute(left, right).map(Number),
        _ => None,
    })
}

#[cfg(test)]
mod tests;

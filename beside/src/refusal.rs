//! Why a file or a call is turned away, and where the fault lies.

use std::fmt;

/// The causes, in the order of their numbers.
#[derive(Clone, Copy, Debug, PartialEq, Eq)]
pub enum Cause {
    Header = 1,
    LineShape = 2,
    UnknownWord = 3,
    Misspelt = 4,
    BadReference = 5,
    Naming = 6,
    LineCount = 7,
    Names = 8,
    RowShape = 9,
    Cell = 10,
    TooLarge = 11,
    NoPolicy = 12,
    NoReadings = 13,
    ResponseWaits = 14,
    NoneWaits = 15,
}

impl Cause {
    pub fn number(self) -> u32 {
        self as u32
    }

    /// 1 is spelling, 2 the shape of the tree, 3 memory, 4 the order of calls.
    pub fn layer(self) -> u32 {
        match self {
            Cause::BadReference | Cause::Naming | Cause::LineCount => 2,
            Cause::TooLarge => 3,
            Cause::NoPolicy | Cause::NoReadings => 4,
            Cause::ResponseWaits | Cause::NoneWaits => 4,
            _ => 1,
        }
    }
}

/// A cause and its place; 0 stands for "no line" and "no field".
#[derive(Clone, Copy, Debug, PartialEq, Eq)]
pub struct Refusal {
    pub cause: Cause,
    pub line: usize,
    pub field: usize,
}

impl Refusal {
    pub fn at(cause: Cause, line: usize, field: usize) -> Self {
        Refusal { cause, line, field }
    }

    /// A fault of a line as a whole.
    pub fn of_line(cause: Cause, line: usize) -> Self {
        Refusal::at(cause, line, 0)
    }

    /// A fault of a file as a whole, or of its line 0.
    pub fn of_file(cause: Cause) -> Self {
        Refusal::at(cause, 0, 0)
    }

    /// A call that is turned away for itself.
    pub fn of_call(cause: Cause) -> Self {
        Refusal::at(cause, 0, 0)
    }
}

impl fmt::Display for Refusal {
    fn fmt(&self, out: &mut fmt::Formatter<'_>) -> fmt::Result {
        let (number, layer) = (self.cause.number(), self.cause.layer());
        write!(out, "refused {number} {layer} {} {}", self.line, self.field)
    }
}

#[cfg(test)]
mod tests {
    use super::*;

    #[test]
    fn shows_number_layer_line_and_field() {
        let shown = |cause| Refusal::at(cause, 7, 3).to_string();
        assert_eq!(shown(Cause::Misspelt), "refused 4 1 7 3");
        assert_eq!(shown(Cause::BadReference), "refused 5 2 7 3");
        assert_eq!(shown(Cause::LineCount), "refused 7 2 7 3");
        assert_eq!(shown(Cause::Names), "refused 8 1 7 3");
        assert_eq!(shown(Cause::Cell), "refused 10 1 7 3");
        let large = Refusal::of_file(Cause::TooLarge).to_string();
        assert_eq!(large, "refused 11 3 0 0");
        let calls = [
            Cause::NoPolicy,
            Cause::NoReadings,
            Cause::ResponseWaits,
            Cause::NoneWaits,
        ];
        assert_eq!(
            calls.map(|cause| Refusal::of_call(cause).to_string()),
            [
                "refused 12 4 0 0",
                "refused 13 4 0 0",
                "refused 14 4 0 0",
                "refused 15 4 0 0"
            ]
        );
    }
}

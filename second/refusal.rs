//! The numbers of refusal, and the row that an answer names beside one.

/// A number of refusal and the row it names: "The answer names a row for 3, 4, 5 and 7, and row 0 otherwise."
#[derive(Clone, Copy, Debug, PartialEq, Eq)]
pub struct Refusal {
    pub number: u8,
    pub row: u8,
}

/// What stands in an answer that refuses nothing.
pub const NONE: Refusal = Refusal { number: 0, row: 0 };

pub const EMPTY: Refusal = Refusal { number: 1, row: 0 };
pub const MANY: Refusal = Refusal { number: 2, row: 0 };
pub const CYCLE: Refusal = Refusal { number: 6, row: 0 };
pub const ROOM: Refusal = Refusal { number: 8, row: 0 };
pub const RECORD: Refusal = Refusal { number: 9, row: 0 };
pub const REPORT: Refusal = Refusal { number: 10, row: 0 };
pub const STRAY: Refusal = Refusal { number: 11, row: 0 };
pub const SIZE: Refusal = Refusal { number: 12, row: 0 };
pub const VERSION: Refusal = Refusal { number: 13, row: 0 };
pub const DOSING: Refusal = Refusal { number: 14, row: 0 };
pub const SPANS: Refusal = Refusal { number: 15, row: 0 };

pub fn zero(row: u8) -> Refusal {
    Refusal { number: 3, row }
}

pub fn long(row: u8) -> Refusal {
    Refusal { number: 4, row }
}

pub fn order(row: u8) -> Refusal {
    Refusal { number: 5, row }
}

pub fn tight(row: u8) -> Refusal {
    Refusal { number: 7, row }
}

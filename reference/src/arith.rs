//! Op on two numbers: what each one gives, and where it stops.

use crate::stop::Stop;

#[derive(Clone, Copy, Debug, PartialEq, Eq)]
pub enum Arith {
    Add,
    Subtract,
    Equal,
    Less,
}

/// What an Op comes to.
#[derive(Clone, Copy, Debug, PartialEq, Eq)]
pub enum Answer {
    Number(u64),
    /// Above 64 bits.
    TooLarge,
    BelowZero,
}

impl Arith {
    /// The Op with this B, which the rows pass allowed.
    pub fn new(number: u16) -> Arith {
        match number {
            0 => Arith::Add,
            1 => Arith::Subtract,
            2 => Arith::Equal,
            _ => Arith::Less,
        }
    }

    pub fn of(self, first: u64, second: u64) -> Answer {
        match self {
            Arith::Add => first.checked_add(second).map_or(Answer::TooLarge, Answer::Number),
            Arith::Subtract => first.checked_sub(second).map_or(Answer::BelowZero, Answer::Number),
            Arith::Equal => Answer::Number((first == second).into()),
            Arith::Less => Answer::Number((first < second).into()),
        }
    }
}

impl Answer {
    pub fn or_stop(self) -> Result<u64, Stop> {
        match self {
            Answer::Number(number) => Ok(number),
            Answer::TooLarge => Err(Stop::TooLarge),
            Answer::BelowZero => Err(Stop::BelowZero),
        }
    }
}

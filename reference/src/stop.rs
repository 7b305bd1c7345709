//! The stops of a call by name, with their numbers.

#[derive(Clone, Copy, Debug, PartialEq, Eq)]
pub enum Stop {
    Budget = 31,
    TooLarge = 32,
    KeyTaken = 33,
    NoSuchKey = 34,
    Stale = 35,
    Frames = 36,
    Records = 37,
    Entries = 38,
    BelowZero = 39,
}

/// All of them, rising, and what each one tells.
pub const STOPS: [(Stop, &str); 9] = [
    (Stop::Budget, "budget spent"),
    (Stop::TooLarge, "sum too large"),
    (Stop::KeyTaken, "key taken"),
    (Stop::NoSuchKey, "no such key"),
    (Stop::Stale, "stale reference"),
    (Stop::Frames, "a 17th frame"),
    (Stop::Records, "a 129th live record"),
    (Stop::Entries, "a 65th store entry"),
    (Stop::BelowZero, "difference below 0"),
];

impl Stop {
    /// As the text has it.
    pub fn number(self) -> u32 {
        self as u32
    }
}

#[cfg(test)]
mod tests {
    use super::STOPS;

    #[test]
    fn the_numbers_are_31_to_39() {
        let numbers = STOPS.map(|(stop, _)| stop.number());
        assert_eq!(numbers, [31, 32, 33, 34, 35, 36, 37, 38, 39]);
    }
}

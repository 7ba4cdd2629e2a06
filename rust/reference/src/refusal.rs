//! Refusals: a number for the rule that was broken and a place for where.

use std::fmt;

/// What a call answers when it gives no result.
#[derive(Clone, Copy, Debug, PartialEq, Eq)]
pub struct Refusal {
    /// Which rule, 1 to 27.
    pub number: u32,
    /// Where the first fault lies; what a place counts depends on the rule.
    pub place: u64,
}

impl Refusal {
    pub fn new(number: u32, place: usize) -> Refusal {
        Refusal {
            number,
            place: place as u64,
        }
    }
}

impl fmt::Display for Refusal {
    fn fmt(&self, f: &mut fmt::Formatter<'_>) -> fmt::Result {
        write!(f, "refused {} {}", self.number, self.place)
    }
}

//! The error of every call.

use std::error::Error;
use std::fmt;

/// A refusal: its number, and its place, which means what the sentence says.
#[derive(Clone, Copy, Debug, PartialEq, Eq)]
pub struct Refusal {
    pub number: u64,
    pub place: usize,
}

/// The table of refusals. A line that begins with a number has its sentence, with
/// `{place}` for the place; the script `./farey` of the repository reads the same
/// lines.
const SENTENCES: &str = include_str!("../refusals.txt");

impl Refusal {
    /// What is wrong, in words.
    pub fn sentence(&self) -> String {
        let number = self.number.to_string();
        let mut lines = SENTENCES.lines();
        match lines.find_map(|line| line.strip_prefix(&number)?.strip_prefix(' ')) {
            Some(sentence) => sentence.replace("{place}", &self.place.to_string()),
            None => format!("refusal {number}, place {}", self.place),
        }
    }
}

impl fmt::Display for Refusal {
    fn fmt(&self, f: &mut fmt::Formatter) -> fmt::Result {
        write!(
            f,
            "refused {} {}: {}",
            self.number,
            self.place,
            self.sentence()
        )
    }
}

impl Error for Refusal {}

//! How often each call was made, answered and refused.

use std::collections::BTreeMap;
use std::fmt::{self, Display};

use crate::outcome::Outcome;

/// A refusal's number, or 0 for an answer, and what it was about.
pub type Reason = (u64, &'static str);

/// The counts of one call.
#[derive(Default)]
pub struct Tally {
    pub calls: usize,
    pub met: BTreeMap<Reason, usize>,
    /// The largest count that was answered.
    pub largest: usize,
    /// How many words came with a plus, and with a minus.
    pub signs: [usize; 2],
}

impl Tally {
    pub fn add(&mut self, outcome: &Outcome) {
        self.calls += 1;
        let reason = (outcome.number(), outcome.about);
        *self.met.entry(reason).or_default() += 1;
        self.largest = self.largest.max(outcome.expected.unwrap_or(0));
        if let Some(sign) = outcome.sign {
            self.signs[usize::from(sign < 0)] += 1;
        }
    }

    /// The counts of other cases too.
    pub fn join(&mut self, other: Tally) {
        self.calls += other.calls;
        for (reason, count) in other.met {
            *self.met.entry(reason).or_default() += count;
        }
        self.largest = self.largest.max(other.largest);
        for (sum, count) in self.signs.iter_mut().zip(other.signs) {
            *sum += count;
        }
    }

    /// How often this number was met, whatever it was about.
    pub fn number(&self, number: u64) -> usize {
        let reasons = self.met.iter().filter(|((met, _), _)| *met == number);
        reasons.map(|(_, count)| count).sum()
    }
}

impl Display for Tally {
    fn fmt(&self, f: &mut fmt::Formatter) -> fmt::Result {
        let answered = self.number(0);
        write!(f, "{} calls, {answered} answered", self.calls)?;
        let (answers, refusals): (Vec<_>, Vec<_>) =
            self.met.iter().partition(|((number, _), _)| *number == 0);
        for ((_, about), count) in answers.iter().filter(|((_, about), _)| !about.is_empty()) {
            write!(f, ", {about}: {count}")?;
        }
        let [plus, minus] = self.signs;
        if plus + minus > 0 {
            write!(f, ", plus: {plus}, minus: {minus}")?;
        }
        write!(f, ", largest count {}; refused", self.largest)?;
        for (i, ((number, about), count)) in refusals.iter().enumerate() {
            let comma = if i > 0 { "," } else { "" };
            let space = if about.is_empty() { "" } else { " " };
            write!(f, "{comma} {number}{space}{about}: {count}")?;
        }
        Ok(())
    }
}

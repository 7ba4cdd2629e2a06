//! What a call must answer and leave, and what came of it.

use std::fmt::{self, Display};

use reference::Refusal;

use crate::spaces::{Number, Space, WORK};

/// What is expected of a call that is lent a work space.
pub struct Expected<R> {
    /// What fills the result spaces, or the refusal.
    pub answer: Result<R, Refusal>,
    /// Whether the call gets past the check of the work space's length.
    pub past_work: bool,
}

impl<R> Expected<R> {
    /// The order of refusals: those that go before the work space, then its
    /// length, then those that follow.
    pub fn in_order<I>(
        before: Result<I, Refusal>,
        work: &Space<u16>,
        after: impl FnOnce(I) -> Result<R, Refusal>,
    ) -> Expected<R> {
        let past = before.and_then(|found| work.enough(WORK).map(|()| found));
        let past_work = past.is_ok();
        Expected {
            answer: past.and_then(after),
            past_work,
        }
    }

    /// What fills a result space: nothing where the call refuses.
    pub fn part<T>(&self, of: impl Fn(&R) -> &[T]) -> &[T] {
        self.answer.as_ref().map_or(&[], of)
    }
}

/// The answer of a call: its count, or a refusal.
pub type Answer = Result<usize, farey::Refusal>;

/// A refusal of the reference in the engine's types.
fn refused(refusal: Refusal) -> farey::Refusal {
    farey::Refusal {
        number: refusal.number.into(),
        place: refusal.place as usize,
    }
}

/// One call that was made.
pub struct Outcome {
    pub expected: Answer,
    pub came: Answer,
    /// What the expected answer is about, where its number leaves that open.
    pub about: &'static str,
    /// The sign that is expected, of a call that gives one.
    pub sign: Option<i64>,
    /// Everything that isn't as expected.
    pub differences: Vec<String>,
    /// What was lent, told only if there is a difference.
    pub input: String,
}

impl Outcome {
    /// Compares the answers.
    pub fn new(expected: Result<usize, Refusal>, came: Answer) -> Outcome {
        let expected = expected.map_err(refused);
        let mut differences = Vec::new();
        if came != expected {
            differences.push("the answer".to_string());
        }
        Outcome {
            expected,
            came,
            about: "",
            sign: None,
            differences,
            input: String::new(),
        }
    }

    /// Compares the answer and the work space of a call that has one: all zero
    /// past the check of its length, else untouched.
    pub fn with_work<R>(
        expected: &Expected<R>,
        count: impl Fn(&R) -> usize,
        came: Answer,
        work: &Space<u16>,
    ) -> Outcome {
        let answer = match &expected.answer {
            Ok(found) => Ok(count(found)),
            Err(refusal) => Err(*refusal),
        };
        let mut outcome = Outcome::new(answer, came);
        if expected.past_work {
            outcome.filled("work", work, 0, &vec![0; work.length()]);
        } else {
            outcome.unchanged("work", work);
        }
        if outcome.number() == 11 {
            outcome.about = if expected.past_work { "result" } else { "work" };
        }
        outcome
    }

    /// The number of the expected refusal, or 0.
    pub fn number(&self) -> u64 {
        self.expected.map_or_else(|refusal| refusal.number, |_| 0)
    }

    /// Compares a space that `part` must fill from `at` on, and nothing else.
    pub fn filled<T: Number>(&mut self, name: &str, space: &Space<T>, at: usize, part: &[T]) {
        if let Some(difference) = space.difference(at, part) {
            self.differences.push(format!("{name}: {difference}"));
        }
    }

    /// Compares a space that must be as it was.
    pub fn unchanged<T: Number>(&mut self, name: &str, space: &Space<T>) {
        self.filled(name, space, 0, &[]);
    }

    /// Keeps what was lent, if there is a difference.
    pub fn on(mut self, input: impl FnOnce() -> String) -> Outcome {
        if !self.differences.is_empty() {
            self.input = input();
        }
        self
    }
}

impl Display for Outcome {
    fn fmt(&self, f: &mut fmt::Formatter) -> fmt::Result {
        let said = |answer: &Answer| match answer {
            Ok(count) => format!("answered, count {count}"),
            Err(refusal) => refusal.to_string(),
        };
        writeln!(f, "expected: {}", said(&self.expected))?;
        writeln!(f, "came:     {}", said(&self.came))?;
        for difference in &self.differences {
            writeln!(f, "differs:  {difference}")?;
        }
        write!(f, "{}", self.input)
    }
}

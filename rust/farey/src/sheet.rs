//! Many pairs against one symbol, in sheets.

use crate::calls::{self, SHEET};
use crate::refusal::Refusal;
use crate::symbol::{certain, work, Symbol, Word};

/// The letters that a sheet is lent at first; where they are too few for its words,
/// it is asked again with as many as these have.
const LETTERS: usize = 16_384;

/// The answer for a pair: a word, or none, or refusal 8 or 9 of its matrices.
pub type Answer = Result<Option<Word>, Refusal>;

/// A line of a sheet.
enum Line {
    /// Where the word stands, its length and its sign.
    Word(usize, usize, i64),
    Refused(Refusal),
}

impl Line {
    fn new(four: &[i64]) -> Line {
        match four[0] {
            0 => Line::Word(four[1] as usize, four[2] as usize, four[3]),
            number => Line::Refused(Refusal {
                number: number as u64,
                place: four[1] as usize,
            }),
        }
    }

    /// The letters of the pair's word, whether it had room or not.
    fn letters(&self) -> usize {
        match *self {
            Line::Word(_, length, _) => length,
            Line::Refused(Refusal { number: 11, place }) => place,
            Line::Refused(_) => 0,
        }
    }

    /// The answer, from the word space after the call.
    fn answer(self, out: &[i16]) -> Answer {
        match self {
            Line::Word(start, length, sign) => Ok(Some(Word {
                sign,
                letters: out[start..][..length].to_vec(),
            })),
            Line::Refused(Refusal { number: 10, .. }) => Ok(None),
            Line::Refused(refusal) => Err(refusal),
        }
    }
}

impl Symbol {
    /// The answers of `word` for many pairs (a, b), in their order. The pairs go to
    /// the engine in sheets of up to 256, for each of which the symbol is checked
    /// and its tables are built once. A pair with refusal 8 or 9 has it for its
    /// answer, and the others have theirs.
    ///
    /// ```
    /// use farey::{Symbol, Word};
    ///
    /// let gamma0_2 = Symbol::new(&[(0, 1), (1, 1)], &[1, -2, 1])?;
    /// let one = [1, 0, 0, 1];
    /// let answers = gamma0_2.words(&[
    ///     (one, [1, 0, 2, 1]),
    ///     (one, [0, -1, 1, 0]),
    ///     (one, [2, 0, 0, 1]),
    ///     (one, [-1, -1, 0, -1]),
    /// ]);
    /// assert_eq!(answers[0], Ok(Some(Word { sign: 1, letters: vec![2, 1] })));
    /// assert_eq!(answers[1], Ok(None));
    /// let refusal = answers[2].as_ref().unwrap_err();
    /// assert_eq!((refusal.number, refusal.place), (9, 1));
    /// assert_eq!(answers[3], Ok(Some(Word { sign: -1, letters: vec![1] })));
    /// # Ok::<(), farey::Refusal>(())
    /// ```
    pub fn words(&self, pairs: &[([i64; 4], [i64; 4])]) -> Vec<Answer> {
        let (mut work, mut out) = (work(), vec![0; LETTERS]);
        let mut answers = Vec::with_capacity(pairs.len());
        for sheet in pairs.chunks(SHEET) {
            let entries: Vec<i64> = sheet.iter().flat_map(|&(a, b)| [a, b]).flatten().collect();
            let mut lines = vec![0; 4 * sheet.len()];
            let mut ask = |out: &mut [i16]| {
                let asked = calls::sheet(
                    self.vertices(),
                    self.table(),
                    &entries,
                    &mut work,
                    &mut lines,
                    out,
                );
                certain(asked);
                lines.chunks_exact(4).map(Line::new).collect::<Vec<Line>>()
            };
            let mut found = ask(&mut out);
            let needed = found.iter().map(Line::letters).sum();
            if needed > out.len() {
                // Now there is space for the words of all pairs.
                out = vec![0; needed];
                found = ask(&mut out);
            }
            answers.extend(found.into_iter().map(|line| line.answer(&out)));
        }
        answers
    }
}

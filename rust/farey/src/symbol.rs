//! Symbols that own their tables, and what can be asked of them.

use crate::calls::{self, COSETS, DRAWING, GENERATORS, TABLE, WORK};
use crate::refusal::Refusal;

/// An accepted Farey symbol. Two are equal when their tables are; `is_same` asks
/// whether they generate the same subgroup.
#[derive(Clone, Debug, PartialEq, Eq)]
pub struct Symbol {
    v: usize,
    table: Vec<i64>,
}

/// What a side is paired as.
#[derive(Clone, Copy, Debug, PartialEq, Eq)]
pub enum Kind {
    Free,
    Even,
    Odd,
}

/// A generator with the matrix (a b; c d) as [a, b, c, d].
#[derive(Clone, Copy, Debug, PartialEq, Eq)]
pub struct Generator {
    pub kind: Kind,
    pub matrix: [i64; 4],
}

/// The figures. The level has a refusal of its own, 17. So has the genus, 18, but
/// the engine promises that the genus of a symbol is a number.
#[derive(Clone, Debug, PartialEq, Eq)]
pub struct Figures {
    pub index: usize,
    pub e2: usize,
    pub e3: usize,
    pub cusps: usize,
    pub genus: Result<u64, Refusal>,
    pub level: Result<u64, Refusal>,
}

/// The image of each coset under multiplication on the right by S, R and T.
#[derive(Clone, Debug, PartialEq, Eq)]
pub struct Tables {
    pub s: Vec<u32>,
    pub r: Vec<u32>,
    pub t: Vec<u32>,
}

/// A word in a symbol's generators that takes a matrix a to a matrix b: the
/// product of its letters from left to right, times a, is `sign` times b.
///
/// In PSL2(Z), where a matrix and its negative are one, `letters` is all there is
/// to it; in SL2(Z) `sign` tells whether the word gives b or -b. Words are equal
/// where both are.
#[derive(Clone, Debug, PartialEq, Eq)]
pub struct Word {
    /// 1 or -1.
    pub sign: i64,
    /// j for the j-th generator, counted from 1, and -j for its inverse.
    pub letters: Vec<i16>,
}

/// For each coset the number of its cusp, from 0, in the order of `widths`, and
/// its steps of T from the cusp's smallest coset: so many lead from there to it.
/// T keeps the cusp and adds one step, back to 0 after the width.
#[derive(Clone, Debug, PartialEq, Eq)]
pub struct CosetCusps {
    pub cusps: Vec<u32>,
    pub steps: Vec<u32>,
}

/// A side of the polygon as it is drawn in the upper half plane.
#[derive(Clone, Copy, Debug, PartialEq)]
pub enum Shape {
    /// A vertical line at this place.
    Line(f64),
    /// Half a circle with this centre and this radius.
    Arc(f64, f64),
}

/// A drawn side and what it is paired as.
#[derive(Clone, Copy, Debug, PartialEq)]
pub struct Side {
    pub shape: Shape,
    pub kind: Kind,
}

/// The box of a drawing: it holds every arc's ends and every line's place, and
/// no more.
#[derive(Clone, Copy, Debug, PartialEq)]
pub struct Bounds {
    pub left: f64,
    pub right: f64,
    pub bottom: f64,
    pub top: f64,
}

/// The sides from left to right, and their box.
#[derive(Clone, Debug, PartialEq)]
pub struct Drawing {
    pub sides: Vec<Side>,
    pub bounds: Bounds,
}

/// The kind of a side or a generator by its number.
fn kind(number: i64) -> Kind {
    match number {
        1 => Kind::Free,
        2 => Kind::Even,
        _ => Kind::Odd,
    }
}

/// A fresh work space.
pub(crate) fn work() -> Vec<u16> {
    vec![0; WORK]
}

/// Eight numbers, as the engine gives them.
fn figures(out: [u64; 8]) -> Figures {
    Figures {
        index: out[0] as usize,
        e2: out[1] as usize,
        e3: out[2] as usize,
        cusps: out[3] as usize,
        genus: figure(out[4], out[5]),
        level: figure(out[6], out[7]),
    }
}

/// A figure from its number and its value.
fn figure(number: u64, value: u64) -> Result<u64, Refusal> {
    match number {
        0 => Ok(value),
        _ => Err(Refusal { number, place: 0 }),
    }
}

/// An answer that can't be a refusal: the symbol is accepted, and the spaces are
/// long enough for every symbol.
pub(crate) fn certain<T>(answer: Result<T, Refusal>) -> T {
    answer.unwrap_or_else(|refusal| unreachable!("{refusal}"))
}

impl Symbol {
    /// The symbol with these vertices, each a numerator and a denominator, and
    /// these pairings; refusals 1 to 7.
    pub fn new(vertices: &[(i64, i64)], pairings: &[i64]) -> Result<Symbol, Refusal> {
        let entries = vertices.iter().flat_map(|&(num, den)| [num, den]);
        let table = entries.chain(pairings.iter().copied()).collect();
        Symbol::from_table(vertices.len(), table)
    }

    /// The symbol in a table: 2v vertex entries and v + 1 pairings.
    pub fn from_table(v: usize, table: Vec<i64>) -> Result<Symbol, Refusal> {
        calls::check(v, &table)?;
        Ok(Symbol { v, table })
    }

    /// The symbol whose table a call puts to the front of the space it is lent,
    /// with its vertices for the count.
    pub(crate) fn made(
        call: impl FnOnce(&mut [i64]) -> Result<usize, Refusal>,
    ) -> Result<Symbol, Refusal> {
        let mut table = vec![0; TABLE];
        let v = call(&mut table)?;
        table.truncate(3 * v + 1);
        Ok(Symbol { v, table })
    }

    /// The number of finite vertices.
    pub fn vertices(&self) -> usize {
        self.v
    }

    /// The vertex entries and then the pairings.
    pub fn table(&self) -> &[i64] {
        &self.table
    }

    /// The generators; letter j of a word stands for the j-th, counted from 1.
    pub fn generators(&self) -> Vec<Generator> {
        let mut out = vec![0; GENERATORS];
        let count = certain(calls::generators(
            self.v,
            &self.table,
            &mut work(),
            &mut out,
        ));
        let rows = out[..5 * count].chunks_exact(5);
        rows.map(|row| Generator {
            kind: kind(row[0]),
            matrix: [row[1], row[2], row[3], row[4]],
        })
        .collect()
    }

    /// The figures of the subgroup that they generate.
    pub fn figures(&self) -> Figures {
        let mut out = [0; 8];
        certain(calls::figures(self.v, &self.table, &mut work(), &mut out));
        figures(out)
    }

    /// The widths of the cusps, by the smallest coset of each.
    pub fn widths(&self) -> Vec<u32> {
        let mut out = vec![0; COSETS];
        let count = certain(calls::widths(self.v, &self.table, &mut work(), &mut out));
        out.truncate(count);
        out
    }

    /// The coset tables.
    pub fn tables(&self) -> Tables {
        let (mut s, mut r, mut t) = (vec![0; COSETS], vec![0; COSETS], vec![0; COSETS]);
        let made = calls::tables(self.v, &self.table, &mut work(), &mut s, &mut r, &mut t);
        let index = certain(made);
        for table in [&mut s, &mut r, &mut t] {
            table.truncate(index);
        }
        Tables { s, r, t }
    }

    /// The cusp of each coset, and its place there.
    ///
    /// ```
    /// use farey::Symbol;
    ///
    /// let gamma0_2 = Symbol::new(&[(0, 1), (1, 1)], &[1, -2, 1])?;
    /// let found = gamma0_2.coset_cusps();
    /// assert_eq!(gamma0_2.tables().t, [0, 2, 1]);
    /// assert_eq!((found.cusps, found.steps), (vec![0, 1, 1], vec![0, 0, 1]));
    /// # Ok::<(), farey::Refusal>(())
    /// ```
    pub fn coset_cusps(&self) -> CosetCusps {
        let (mut cusps, mut steps) = (vec![0; COSETS], vec![0; COSETS]);
        let made = calls::cusps(self.v, &self.table, &mut work(), &mut cusps, &mut steps);
        let index = certain(made);
        cusps.truncate(index);
        steps.truncate(index);
        CosetCusps { cusps, steps }
    }

    /// The symbol in which the labels x and y have exchanged partners: their first
    /// sides stay, and their second sides trade labels. Refusal 23, with place 0 or
    /// 1, where one of the two numbers is no label, or they are the same.
    ///
    /// Index, e2, e3 and the vertices stay; cusps, genus and level may change, as
    /// here, from Γ(2) to a torus with one cusp.
    ///
    /// ```
    /// use farey::Symbol;
    ///
    /// let gamma_2 = Symbol::new(&[(0, 1), (1, 1), (2, 1)], &[1, 2, 2, 1])?;
    /// let torus = gamma_2.exchanged(1, 2)?;
    /// assert_eq!(torus.table()[6..], [1, 2, 1, 2]);
    /// assert_eq!((gamma_2.figures().genus, torus.figures().genus), (Ok(0), Ok(1)));
    /// # Ok::<(), farey::Refusal>(())
    /// ```
    pub fn exchanged(&self, x: i64, y: i64) -> Result<Symbol, Refusal> {
        Symbol::made(|out| calls::exchange(self.v, &self.table, x, y, out))
    }

    /// The figures and the widths of the cusps that `exchanged` would have; no
    /// symbol is made. Refusal 23 as there.
    ///
    /// ```
    /// use farey::Symbol;
    ///
    /// let gamma_2 = Symbol::new(&[(0, 1), (1, 1), (2, 1)], &[1, 2, 2, 1])?;
    /// let (figures, widths) = gamma_2.preview(1, 2)?;
    /// assert_eq!((figures.genus, figures.level), (Ok(1), Ok(6)));
    /// assert_eq!(widths, [6]);
    /// # Ok::<(), farey::Refusal>(())
    /// ```
    pub fn preview(&self, x: i64, y: i64) -> Result<(Figures, Vec<u32>), Refusal> {
        let (mut widths, mut out) = (vec![0; COSETS], [0; 8]);
        let count = calls::preview(
            self.v,
            &self.table,
            x,
            y,
            &mut work(),
            &mut widths,
            &mut out,
        )?;
        widths.truncate(count);
        Ok((figures(out), widths))
    }

    /// The sides of the polygon for a drawing, and their box; refusal 22 where a
    /// vertex entry is over 33,554,432 in size.
    ///
    /// ```
    /// use farey::{Shape, Symbol};
    ///
    /// let drawing = Symbol::gamma0(2)?.drawing()?;
    /// let shapes: Vec<Shape> = drawing.sides.iter().map(|side| side.shape).collect();
    /// assert_eq!(shapes, [Shape::Line(0.0), Shape::Arc(0.5, 0.5), Shape::Line(1.0)]);
    /// assert_eq!(drawing.bounds.top, 0.5);
    /// # Ok::<(), farey::Refusal>(())
    /// ```
    pub fn drawing(&self) -> Result<Drawing, Refusal> {
        let mut out = vec![0.0; DRAWING];
        let mut bounds = [0.0; 4];
        let count = calls::drawing(self.v, &self.table, &mut out, &mut bounds)?;
        let rows = out[..4 * count].chunks_exact(4);
        let sides = rows.map(|row| Side {
            shape: match row[0] == 0.0 {
                true => Shape::Line(row[1]),
                false => Shape::Arc(row[1], row[2]),
            },
            kind: kind(row[3] as i64),
        });
        let [left, right, bottom, top] = bounds;
        Ok(Drawing {
            sides: sides.collect(),
            bounds: Bounds {
                left,
                right,
                bottom,
                top,
            },
        })
    }

    /// A word in the generators whose value times a is b or -b, with the sign that
    /// tells which; or `None`: then there is no such word, of whatever length.
    /// Whether there is one is judged up to sign: one for b is one for -b, with
    /// the other sign. It is the only reduced word that does so, and none is
    /// shorter: a word is reduced when no generator stands beside its own inverse,
    /// an even one never follows itself and is never inverted, and no odd letter
    /// follows an equal one. Refusals 8 and 9.
    ///
    /// ```
    /// use farey::{Symbol, Word};
    ///
    /// let gamma0_2 = Symbol::new(&[(0, 1), (1, 1)], &[1, -2, 1])?;
    /// let (one, minus_t) = ([1, 0, 0, 1], [-1, -1, 0, -1]);
    /// assert_eq!(gamma0_2.word(one, minus_t)?, Some(Word { sign: -1, letters: vec![1] }));
    /// assert_eq!(gamma0_2.word(one, [-1, 0, 0, -1])?, Some(Word { sign: -1, letters: vec![] }));
    /// # Ok::<(), farey::Refusal>(())
    /// ```
    pub fn word(&self, a: [i64; 4], b: [i64; 4]) -> Result<Option<Word>, Refusal> {
        let (mut work, mut sign) = (work(), 0);
        let mut ask = |out: &mut [i16]| {
            calls::signed_query(self.v, &self.table, &a, &b, &mut work, out, 0, &mut sign)
        };
        // The first call asks for the length alone, the second for the word.
        let letters = match ask(&mut []) {
            Ok(_) => Vec::new(),
            Err(Refusal { number: 10, .. }) => return Ok(None),
            Err(Refusal { number: 11, place }) => {
                let mut out = vec![0; place];
                ask(&mut out)?;
                out
            }
            Err(refusal) => return Err(refusal),
        };
        Ok(Some(Word { sign, letters }))
    }

    /// Whether the two generate the same subgroup: every generator of each is, up
    /// to sign, a word in the other's. Their vertices and labels may differ.
    pub fn is_same(&self, other: &Symbol) -> bool {
        certain(calls::same(
            self.v,
            &self.table,
            other.v,
            &other.table,
            &mut work(),
        ))
    }
}

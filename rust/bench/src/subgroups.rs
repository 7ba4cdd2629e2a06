//! Intersections and containment as functions: pairs of cosets, found again by a hash
//! table, or by the engine's means, a chain of pairs for each coset of the first group.
//!
//! Containment walks the cosets of the one in those of the other, as sameness does, and ends
//! at the first coset that would stand with two.

use crate::listing::{tables, Tables};
use crate::polygon::Polygon;
use crate::symbol::Symbol;
use crate::Refusal;

/// The most points of an intersection.
const MOST: usize = 3_066;
/// Slots of the hash table: more than twice the pairs, and a power of two.
const SLOTS: usize = 8_192;
const NONE: u16 = u16::MAX;

/// How a pair is found again.
trait Found {
    /// The number of a pair, or the next one, `count`, if it is new.
    fn number(&mut self, pairs: &[(u16, u16)], x: u16, y: u16) -> usize;
}

struct Hash([u16; SLOTS]);

impl Found for Hash {
    fn number(&mut self, pairs: &[(u16, u16)], x: u16, y: u16) -> usize {
        let key = u32::from(x) << 16 | u32::from(y);
        let mut slot = (key.wrapping_mul(0x9e37_79b1) >> 19) as usize;
        loop {
            match self.0[slot] {
                NONE => {
                    self.0[slot] = pairs.len() as u16;
                    return pairs.len();
                }
                number if pairs[number as usize] == (x, y) => return number.into(),
                _ => slot = (slot + 1) % SLOTS,
            }
        }
    }
}

/// For each coset of the first group its last pair, and for each pair the one before it.
struct Chains {
    last: Vec<u16>,
    earlier: Vec<u16>,
}

impl Found for Chains {
    fn number(&mut self, pairs: &[(u16, u16)], x: u16, y: u16) -> usize {
        let mut pair = self.last[x as usize];
        while pair != NONE {
            if pairs[pair as usize].1 == y {
                return pair.into();
            }
            pair = self.earlier[pair as usize];
        }
        self.earlier.push(self.last[x as usize]);
        self.last[x as usize] = pairs.len() as u16;
        pairs.len()
    }
}

/// The tables of the intersection of the groups of v and t, m and u; refusals 1 to 7, of
/// the first before the second, and 24.
pub fn intersection(v: i64, t: &[i64], m: i64, u: &[i64]) -> Result<Tables, Refusal> {
    let (one, other) = both(v, t, m, u)?;
    listed(&one, &other, Hash([NONE; SLOTS]))
}

/// The same with chains.
pub fn intersection_by_chains(v: i64, t: &[i64], m: i64, u: &[i64]) -> Result<Tables, Refusal> {
    let (one, other) = both(v, t, m, u)?;
    let chains = Chains {
        last: vec![NONE; one.s.len()],
        earlier: Vec::with_capacity(MOST + 2),
    };
    listed(&one, &other, chains)
}

/// Whether the group of v and t contains that of m and u, or a refusal 1 to 7.
pub fn contains(v: i64, t: &[i64], m: i64, u: &[i64]) -> Result<bool, Refusal> {
    let (above, below) = (Symbol::new(v, t)?, Symbol::new(m, u)?);
    let (above, below) = (Polygon::new(&above), Polygon::new(&below));
    // The position of the upper group that goes with each of the lower one.
    let mut with = vec![NONE; below.steps.len()];
    let home = below.home();
    with[home as usize] = above.home();
    let mut waiting = vec![home];
    while let Some(position) = waiting.pop() {
        let here = &below.steps[position as usize];
        let there = &above.steps[with[position as usize] as usize];
        for (to, its) in [(here.s.to, there.s.to), (here.q.to, there.q.to)] {
            let known = &mut with[to as usize];
            if *known == NONE {
                *known = its;
                waiting.push(to);
            } else if *known != its {
                return Ok(false);
            }
        }
    }
    Ok(true)
}

fn both(v: i64, t: &[i64], m: i64, u: &[i64]) -> Result<(Tables, Tables), Refusal> {
    let (one, other) = (Symbol::new(v, t)?, Symbol::new(m, u)?);
    Ok((tables(&Polygon::new(&one)), tables(&Polygon::new(&other))))
}

fn listed(one: &Tables, other: &Tables, mut found: impl Found) -> Result<Tables, Refusal> {
    let mut pairs: Vec<(u16, u16)> = Vec::with_capacity(MOST + 2);
    found.number(&pairs, 0, 0);
    pairs.push((0, 0));
    let (mut s, mut r) = (Vec::with_capacity(MOST), Vec::with_capacity(MOST));
    let mut i = 0;
    while i < pairs.len() {
        let (x, y) = pairs[i];
        let by_s = (one.s[x as usize], other.s[y as usize]);
        let by_r = (one.r[x as usize], other.r[y as usize]);
        for ((x, y), table) in [(by_s, &mut s), (by_r, &mut r)] {
            let (x, y) = (x as u16, y as u16);
            let number = found.number(&pairs, x, y);
            if number == pairs.len() {
                pairs.push((x, y));
            }
            table.push(number as u32);
        }
        if pairs.len() > MOST {
            return Err((24, 0));
        }
        i += 1;
    }
    let t = s.iter().map(|&image| r[image as usize]).collect();
    Ok(Tables { s, r, t })
}

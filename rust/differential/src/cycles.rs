//! `read_cycles` and `write_cycles`: cycle notation. Reading: 27 and 12, 14 and 15, then
//! 11 for each table. Writing: 12 to 15, then 11 for the text.

use farey::cycles as calls;
use reference::cycles;
use reference::random::cycles::text;
use reference::random::pairs::shallow_pair;
use reference::random::Rng;
use reference::symbol::MAX_VERTICES;

use crate::import;
use crate::outcome::Outcome;
use crate::spaces::Space;

/// A text that is lent, whole or in front of more of it that isn't.
fn lent(rng: &mut Rng) -> Space<u8> {
    let bytes = match rng.below(60) {
        0 => {
            let large = shallow_pair(rng, MAX_VERTICES);
            let written = cycles::write(&large.s, &large.r).expect("a pair");
            written.into_bytes()
        }
        _ => text(rng),
    };
    Space::holding(rng, &bytes)
}

/// A call of `read_cycles` on this text, in tables of lengths around the index.
pub fn reading(rng: &mut Rng, text: &Space<u8>) -> Outcome {
    let read = cycles::read(text.read()).map(|tables| {
        let (s, r) = tables;
        let narrow = |table: Vec<i64>| table.into_iter().map(|x| x as u32).collect();
        [narrow(s), narrow(r)] as [Vec<u32>; 2]
    });
    let needed = read.as_ref().map_or(20, |tables| tables[0].len());
    let (mut s, mut r) = (Space::around(rng, needed), Space::around(rng, needed));
    let expected = read.and_then(|tables| {
        s.enough(tables[0].len())?;
        r.enough(tables[1].len())?;
        Ok(tables)
    });
    let came = calls::read(text.read(), s.write(), r.write());
    let count = expected.as_ref().map(|tables| tables[0].len());
    let mut outcome = Outcome::new(count.map_err(|&refusal| refusal), came);
    outcome.unchanged("text", text);
    let part = |i: usize| expected.as_ref().map_or(&[][..], |tables| &tables[i]);
    outcome.filled("s", &s, 0, part(0));
    outcome.filled("r", &r, 0, part(1));
    let end = text.length();
    outcome.about = match outcome.expected {
        Err(farey::Refusal { number: 11, place }) if s.length() < place => "s",
        Err(farey::Refusal { number: 11, .. }) => "r",
        Err(farey::Refusal { number: 27, place }) if place == end => "at the end",
        Err(farey::Refusal { number: 27, .. }) => "inside",
        _ => "",
    };
    outcome.on(|| {
        let (s, r) = (s.length(), r.length());
        format!(
            "text {:?}, s {s}, r {r}",
            text.read().escape_ascii().to_string()
        )
    })
}

pub fn read_case(rng: &mut Rng) -> Outcome {
    let text = lent(rng);
    reading(rng, &text)
}

pub fn write_case(rng: &mut Rng) -> Outcome {
    let [s, r] = import::tables(rng);
    let signed = |table: &[u32]| table.iter().map(|&x| x.into()).collect::<Vec<i64>>();
    let text = cycles::write(&signed(&s), &signed(&r));
    let (s, r) = (Space::holding(rng, &s), Space::holding(rng, &r));
    let mut out = Space::around(rng, text.as_ref().map_or(20, String::len));
    let expected = text.and_then(|text| {
        out.enough(text.len())?;
        Ok(text)
    });
    let came = calls::write(s.read(), r.read(), out.write());
    let count = expected.as_ref().map(String::len);
    let mut outcome = Outcome::new(count.map_err(|&refusal| refusal), came);
    outcome.unchanged("s", &s);
    outcome.unchanged("r", &r);
    outcome.filled("out", &out, 0, expected.as_deref().unwrap_or("").as_bytes());
    outcome.on(|| format!("s {:?}, r {:?}, out {}", s.read(), r.read(), out.length()))
}

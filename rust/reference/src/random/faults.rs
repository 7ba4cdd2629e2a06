//! Faults on purpose: numbers that break one of the checks on a symbol, and
//! texts that break the rule on typed numbers.

use super::rng::Rng;
use crate::symbol::{EVEN, MAX_ENTRY, MAX_VERTICES, ODD};
use crate::text::MAX_TEXT;

/// The checks that numbers in a text can fail; check 2 needs a table whose
/// length disagrees with v, and a text of that kind is refused before.
pub const SYMBOL_FAULTS: [u32; 6] = [1, 3, 4, 5, 6, 7];

/// Puts a fault into the numbers (v first) of a symbol. If the symbol was sound
/// and true is returned, the refusal has the number asked for. False means that
/// this symbol is no place for such a fault, and nothing has changed.
pub fn put_fault(rng: &mut Rng, numbers: &mut Vec<i64>, fault: u32) -> bool {
    if fault == 7 {
        *numbers = vec![1, 0, 1];
        numbers.extend(rng.pick(&[[EVEN, EVEN], [1, 1], [2, 2]]));
        return true;
    }
    // An earlier fault may have changed v.
    let v = match usize::try_from(numbers[0]) {
        Ok(v) if (1..=MAX_VERTICES).contains(&v) && numbers.len() == 3 * v + 2 => v,
        _ => return false,
    };
    match fault {
        1 => {
            numbers[0] = rng.pick(&[
                0,
                -1,
                -2,
                MAX_VERTICES as i64 + 1,
                MAX_VERTICES as i64 + 2,
                65_536,
                (1 << 32) + 1,
                i64::MAX,
                i64::MIN,
            ]);
            if rng.chance(50) {
                let kept = 1 + rng.below(numbers.len());
                numbers.truncate(kept);
            }
            true
        }
        3 => {
            let i = rng.below(2 * v);
            let mut values = vec![MAX_ENTRY + 1, -MAX_ENTRY - 1, i64::MAX, i64::MIN];
            if i % 2 == 1 {
                values.extend([0, -1, -2]);
            }
            numbers[1 + i] = rng.pick(&values);
            true
        }
        4 => {
            let vertex = rng.below(v);
            if v >= 2 && rng.chance(40) {
                // Two neighbours the wrong way round, or one of them twice.
                let i = 1 + 2 * vertex.min(v - 2);
                let (a, b) = (numbers[i], numbers[i + 1]);
                if rng.chance(50) {
                    numbers[i] = numbers[i + 2];
                    numbers[i + 1] = numbers[i + 3];
                }
                numbers[i + 2] = a;
                numbers[i + 3] = b;
                return true;
            }
            // A lone vertex keeps the rule whatever its numerator is.
            let denominator = v == 1 || rng.chance(50);
            let entry = &mut numbers[1 + 2 * vertex + usize::from(denominator)];
            *entry += if *entry < MAX_ENTRY { 1 } else { -1 };
            true
        }
        5 => {
            // A shift by an integer that moves all integer vertices past 0.
            let (first, last) = (numbers[1], numbers[2 * v - 1]);
            let shift = if rng.chance(50) {
                rng.range(1, 4).saturating_sub(first)
            } else {
                rng.range(-4, -1).saturating_sub(last)
            };
            let shifted: Vec<i64> = (0..v)
                .map(|i| {
                    numbers[1 + 2 * i].saturating_add(shift.saturating_mul(numbers[2 + 2 * i]))
                })
                .collect();
            if shifted
                .iter()
                .any(|num| !(-MAX_ENTRY..=MAX_ENTRY).contains(num))
            {
                return false;
            }
            for (i, num) in shifted.into_iter().enumerate() {
                numbers[1 + 2 * i] = num;
            }
            true
        }
        6 => {
            let pairings = &mut numbers[1 + 2 * v..];
            let side = rng.below(v + 1);
            let labels: Vec<i64> = pairings.iter().copied().filter(|&p| p > 0).collect();
            if !labels.is_empty() && rng.chance(60) {
                // A label once, or three or more times.
                let label = rng.pick(&labels);
                if pairings[side] == label {
                    pairings[side] = rng.pick(&[EVEN, ODD]);
                } else {
                    pairings[side] = label;
                }
            } else {
                let new = v as i64 + 2;
                pairings[side] = rng.pick(&[0, -1, -4, new, new + 1, i64::MAX, i64::MIN]);
            }
            true
        }
        _ => false,
    }
}

/// Overwrites a few numbers without asking what comes of it.
pub fn poke(rng: &mut Rng, numbers: &mut [i64]) {
    for _ in 0..1 + rng.below(3) {
        let i = rng.below(numbers.len());
        let v = numbers[0];
        let other = numbers[rng.below(numbers.len())];
        numbers[i] = rng.pick(&[
            0,
            1,
            -1,
            2,
            -2,
            -3,
            -4,
            v,
            v.saturating_add(1),
            v.saturating_add(2),
            MAX_ENTRY,
            -MAX_ENTRY,
            MAX_ENTRY + 1,
            -MAX_ENTRY - 1,
            i64::MAX,
            i64::MIN,
            other,
            other.saturating_neg(),
            other.saturating_add(1),
        ]);
    }
}

/// A text as it is typed, with the offset of each number.
#[derive(Clone, Debug)]
pub struct Typed {
    pub bytes: Vec<u8>,
    pub offsets: Vec<usize>,
}

/// Types pieces with spaces and line ends between them. `plain` puts one space
/// between and a line end behind.
fn type_pieces(rng: &mut Rng, pieces: &[Vec<u8>], plain: bool) -> Typed {
    const GAPS: [&[u8]; 8] = [b" ", b" ", b" ", b"\n", b"\r\n", b"  ", b"\r", b"\n\n \r"];
    let mut typed = Typed {
        bytes: Vec::new(),
        offsets: Vec::new(),
    };
    if !plain && rng.chance(30) {
        typed.bytes.extend(rng.pick(&GAPS));
    }
    for (i, piece) in pieces.iter().enumerate() {
        if i > 0 {
            typed
                .bytes
                .extend(if plain { b" " } else { rng.pick(&GAPS) });
        }
        typed.offsets.push(typed.bytes.len());
        typed.bytes.extend(piece);
    }
    if plain || rng.chance(70) {
        typed
            .bytes
            .extend(if plain { b"\n" } else { rng.pick(&GAPS) });
    }
    typed
}

/// One number in digits, now and then with leading zeros or as -0.
fn digits(rng: &mut Rng, number: i64, plain: bool) -> Vec<u8> {
    let mut piece = number.to_string().into_bytes();
    if !plain && rng.chance(4) {
        let at = usize::from(number < 0);
        let zeros = 1 + rng.below(30);
        piece.splice(at..at, std::iter::repeat_n(b'0', zeros));
    }
    if !plain && number == 0 && rng.chance(10) {
        piece.insert(0, b'-');
    }
    piece
}

fn pieces(rng: &mut Rng, numbers: &[i64], plain: bool) -> Vec<Vec<u8>> {
    numbers
        .iter()
        .map(|&number| digits(rng, number, plain))
        .collect()
}

/// A readable text of the numbers.
pub fn typed(rng: &mut Rng, numbers: &[i64]) -> Typed {
    let plain = rng.chance(40);
    let pieces = pieces(rng, numbers, plain);
    type_pieces(rng, &pieces, plain)
}

/// The four ways in which a text is refused.
#[derive(Clone, Copy, Debug, PartialEq, Eq)]
pub enum TextFault {
    TooLong,
    NoNumber,
    TooFew,
    TooMany,
}

pub const TEXT_FAULTS: [TextFault; 4] = [
    TextFault::TooLong,
    TextFault::NoNumber,
    TextFault::TooFew,
    TextFault::TooMany,
];

/// Pieces that are no numbers.
const NO_NUMBERS: [&[u8]; 22] = [
    b"x",
    b"-",
    b"--1",
    b"+1",
    b"1-",
    b"1.0",
    b"1,",
    b"0x1",
    b"1e3",
    b"\t",
    b"1\t2",
    b"\x00",
    b"1\x00",
    b"\x0b",
    b"\x0c",
    b"\xa0",
    b"\xef\xbb\xbf1",
    b"\xff",
    b"9223372036854775808",
    b"-9223372036854775809",
    b"18446744073709551617",
    b"340282366920938463463374607431768211457",
];

/// A text with a fault, and the place that its refusal names. The numbers are
/// as many as the first of them announces.
pub fn faulty_text(rng: &mut Rng, numbers: &[i64], fault: TextFault) -> (Vec<u8>, usize) {
    let plain = rng.chance(30);
    let mut all = pieces(rng, numbers, plain);
    match fault {
        TextFault::TooLong => {
            let mut bytes = type_pieces(rng, &all, plain).bytes;
            let filler = rng.pick(b" \n\r0x");
            let length = MAX_TEXT + 1 + rng.pick(&[0, 0, 1, 100, 70_000]);
            bytes.resize(length.max(bytes.len()), filler);
            (bytes, MAX_TEXT)
        }
        TextFault::NoNumber => {
            let at = rng.below(all.len());
            all[at] = rng.pick(&NO_NUMBERS).to_vec();
            // More faults behind the first one change nothing.
            if rng.chance(30) {
                all.truncate(at + 1 + rng.below(all.len() - at));
            }
            if rng.chance(30) {
                all.push(rng.pick(&NO_NUMBERS).to_vec());
            }
            let typed = type_pieces(rng, &all, plain);
            (typed.bytes, typed.offsets[at])
        }
        TextFault::TooFew => {
            let kept = if rng.chance(50) {
                all.len() - 1
            } else {
                rng.below(all.len())
            };
            all.truncate(kept);
            let typed = type_pieces(rng, &all, plain);
            let length = typed.bytes.len();
            (typed.bytes, length)
        }
        TextFault::TooMany => {
            for _ in 0..1 + rng.below(4) {
                let extra = rng.range(-3, 3);
                all.push(digits(rng, extra, plain));
            }
            let typed = type_pieces(rng, &all, plain);
            (typed.bytes, typed.offsets[numbers.len()])
        }
    }
}

/// A readable text blown up with blanks to the full length that is still read.
pub fn full_text(rng: &mut Rng, numbers: &[i64]) -> Vec<u8> {
    let mut bytes = typed(rng, numbers).bytes;
    let filler = rng.pick(b" \n\r");
    let blanks = vec![filler; MAX_TEXT.saturating_sub(bytes.len())];
    if rng.chance(50) {
        bytes.splice(0..0, blanks);
    } else {
        bytes.extend(blanks);
    }
    bytes
}

/// Changes, drops or adds a few bytes without asking what comes of it.
pub fn scratch(rng: &mut Rng, bytes: &mut Vec<u8>) {
    for _ in 0..1 + rng.below(3) {
        let byte = if rng.chance(80) {
            rng.pick(b"0123456789--  \n\r\t+.x")
        } else {
            rng.bits() as u8
        };
        let at = rng.below(bytes.len() + 1);
        match rng.below(4) {
            0 => bytes.insert(at, byte),
            1 if at < bytes.len() => bytes[at] = byte,
            2 if at < bytes.len() => {
                bytes.remove(at);
            }
            3 if rng.chance(20) => bytes.truncate(at),
            _ => bytes.push(byte),
        }
    }
}

//! Numbers from bytes, with refusal 19, and numbers to bytes.

use crate::Refusal;

pub const MAX_TEXT: usize = 65_536;

/// A text whose first number n is from `least` to `most` has `each` n + `more`
/// numbers.
#[derive(Clone, Copy)]
pub struct Format {
    pub least: i64,
    pub most: i64,
    pub each: usize,
    pub more: usize,
}

pub const LISTING: Format = Format {
    least: 1,
    most: 1_023,
    each: 3,
    more: 2,
};
pub const QUERY: Format = Format {
    least: 1,
    most: 1_023,
    each: 3,
    more: 10,
};
pub const IMPORT: Format = Format {
    least: 1,
    most: 3_066,
    each: 2,
    more: 1,
};
pub const NAMED: Format = Format {
    least: 0,
    most: 2,
    each: 0,
    more: 2,
};

#[inline]
fn splits(byte: u8) -> bool {
    matches!(byte, b' ' | b'\n' | b'\r')
}

/// The numbers of a text. If the first one is out of range, only that one.
pub fn numbers(text: &[u8], format: Format) -> Result<Vec<i64>, Refusal> {
    if text.len() > MAX_TEXT {
        return Err((19, MAX_TEXT));
    }
    let mut found = Vec::with_capacity(format.each * format.most as usize + format.more);
    let mut wanted = usize::MAX;
    let mut extra = None;
    let mut at = 0;
    while at < text.len() {
        if splits(text[at]) {
            at += 1;
            continue;
        }
        let begin = at;
        let negative = text[at] == b'-';
        at += usize::from(negative);
        let first_digit = at;
        let mut size: u64 = 0;
        let mut fits = true;
        while at < text.len() && !splits(text[at]) {
            let digit = text[at].wrapping_sub(b'0');
            if digit > 9 {
                return Err((19, begin));
            }
            // Below 2^60 ten times a number and a digit more stay below 2^64.
            if size < 1 << 60 {
                size = 10 * size + u64::from(digit);
            } else {
                match size
                    .checked_mul(10)
                    .and_then(|s| s.checked_add(digit.into()))
                {
                    Some(next) => size = next,
                    None => fits = false,
                }
            }
            at += 1;
        }
        if at == first_digit || !fits || size > (1 << 63) - u64::from(!negative) {
            return Err((19, begin));
        }
        if found.len() == wanted {
            extra.get_or_insert(begin);
            continue;
        }
        let number = if negative {
            (size as i64).wrapping_neg()
        } else {
            size as i64
        };
        if found.is_empty() {
            wanted = if (format.least..=format.most).contains(&number) {
                format.each * number as usize + format.more
            } else {
                1
            };
        }
        found.push(number);
    }
    let range = format.least..=format.most;
    let counted = found.first().is_some_and(|n| range.contains(n));
    if found.is_empty() || (counted && found.len() < wanted) {
        return Err((19, text.len()));
    }
    match extra {
        Some(place) if counted => Err((19, place)),
        _ => Ok(found),
    }
}

/// 00, 01, .. 99 one behind the other.
const PAIRS: [u8; 200] = {
    let mut pairs = [0; 200];
    let mut i = 0;
    while i < 100 {
        pairs[2 * i] = b'0' + (i / 10) as u8;
        pairs[2 * i + 1] = b'0' + (i % 10) as u8;
        i += 1;
    }
    pairs
};

/// A blank and a number in digits, two at a time.
#[inline]
pub fn put(out: &mut Vec<u8>, number: i64) {
    let mut digits = [0u8; 21];
    let mut at = digits.len();
    let mut size = number.unsigned_abs();
    while size >= 100 {
        let pair = 2 * (size % 100) as usize;
        size /= 100;
        at -= 2;
        digits[at..at + 2].copy_from_slice(&PAIRS[pair..pair + 2]);
    }
    if size >= 10 {
        let pair = 2 * size as usize;
        at -= 2;
        digits[at..at + 2].copy_from_slice(&PAIRS[pair..pair + 2]);
    } else {
        at -= 1;
        digits[at] = b'0' + size as u8;
    }
    if number < 0 {
        at -= 1;
        digits[at] = b'-';
    }
    at -= 1;
    digits[at] = b' ';
    out.extend_from_slice(&digits[at..]);
}

/// A line of a name and numbers.
pub fn put_line(out: &mut Vec<u8>, name: &str, items: impl IntoIterator<Item = i64>) {
    out.extend_from_slice(name.as_bytes());
    for item in items {
        put(out, item);
    }
    out.push(b'\n');
}

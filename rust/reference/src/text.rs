//! From bytes to numbers. Everything that can be wrong with a text is refusal
//! 19; three faults are looked for in this order: the text is too long, some
//! piece is no number, the count of numbers is wrong.

use crate::refusal::Refusal;
use crate::symbol::MAX_VERTICES;

/// The longest text that is read at all.
pub const MAX_TEXT: usize = 65_536;
/// The largest number of points of a permutation pair.
pub const MAX_POINTS: i64 = 3_066;

/// What the first number of a text announces.
#[derive(Clone, Copy, Debug, PartialEq, Eq)]
pub enum Format {
    /// v, then 2v vertex entries, then v + 1 pairings.
    Listing,
    /// A listing text, then the four entries of A and the four of B.
    Query,
    /// A listing text, then two labels.
    Exchange,
    /// n, then n images of S, then n images of R.
    Import,
    /// The number of a family, then N.
    Named,
}

impl Format {
    /// How many numbers a text with this first number has, or `None` when the
    /// first number is out of range and the count therefore free.
    pub fn wanted(self, head: i64) -> Option<usize> {
        // The range of the first number, how many numbers each one of it wants,
        // and how many there are beside these.
        let (range, each, more) = match self {
            Format::Listing => (1..=MAX_VERTICES as i64, 3, 2),
            Format::Query => (1..=MAX_VERTICES as i64, 3, 10),
            Format::Exchange => (1..=MAX_VERTICES as i64, 3, 4),
            Format::Import => (1..=MAX_POINTS, 2, 1),
            Format::Named => (0..=2, 0, 2),
        };
        range.contains(&head).then(|| each * head as usize + more)
    }
}

fn splits(byte: u8) -> bool {
    matches!(byte, 32 | 10 | 13)
}

/// The value of one piece, if it is an optional minus followed by at least one
/// digit and its value fits 64 signed bits. Leading zeros are allowed.
fn value(piece: &[u8]) -> Option<i64> {
    let (negative, digits) = match piece {
        [b'-', rest @ ..] => (true, rest),
        _ => (false, piece),
    };
    if digits.is_empty() {
        return None;
    }
    let mut size: i128 = 0;
    for &digit in digits {
        if !digit.is_ascii_digit() {
            return None;
        }
        size = size * 10 + i128::from(digit - b'0');
        // Once past 2^63 a number only grows, so it is lost for good.
        if size > 1 << 63 {
            return None;
        }
    }
    i64::try_from(if negative { -size } else { size }).ok()
}

/// All pieces as (offset, value); the first piece that is no number refuses.
fn pieces(text: &[u8]) -> Result<Vec<(usize, i64)>, Refusal> {
    let mut found = Vec::new();
    let mut at = 0;
    while at < text.len() {
        if splits(text[at]) {
            at += 1;
            continue;
        }
        let length = text[at..]
            .iter()
            .position(|&byte| splits(byte))
            .unwrap_or(text.len() - at);
        match value(&text[at..at + length]) {
            Some(number) => found.push((at, number)),
            None => return Err(Refusal::new(19, at)),
        }
        at += length;
    }
    Ok(found)
}

/// The numbers of a text in one of the formats.
///
/// With a first number out of range all numbers are returned uncounted: the
/// rule on that number refuses next. A text without any number has too few.
pub fn numbers(text: &[u8], format: Format) -> Result<Vec<i64>, Refusal> {
    if text.len() > MAX_TEXT {
        return Err(Refusal::new(19, MAX_TEXT));
    }
    let found = pieces(text)?;
    let Some(&(_, head)) = found.first() else {
        return Err(Refusal::new(19, text.len()));
    };
    if let Some(wanted) = format.wanted(head) {
        if found.len() < wanted {
            return Err(Refusal::new(19, text.len()));
        }
        if found.len() > wanted {
            return Err(Refusal::new(19, found[wanted].0));
        }
    }
    Ok(found.into_iter().map(|(_, number)| number).collect())
}

/// The numbers of two symbols' texts that stand one after the other in one text.
///
/// The first v says where the second text begins. Where it is out of range this
/// is refused with 1 at once; where the second v is, the numbers behind it aren't
/// counted and the second part is v alone, which the checks of that symbol
/// refuse.
pub fn two_symbols(text: &[u8]) -> Result<(Vec<i64>, Vec<i64>), Refusal> {
    if text.len() > MAX_TEXT {
        return Err(Refusal::new(19, MAX_TEXT));
    }
    let found = pieces(text)?;
    let short = Refusal::new(19, text.len());
    let count = |rest: &[(usize, i64)]| match rest.first() {
        Some(&(_, v)) => Ok(Format::Listing.wanted(v)),
        None => Err(short),
    };
    let first = count(&found)?.ok_or(Refusal::new(1, 0))?;
    if found.len() < first {
        return Err(short);
    }
    let (one, rest) = found.split_at(first);
    let second = count(rest)?;
    if let Some(second) = second {
        if rest.len() < second {
            return Err(short);
        }
        if rest.len() > second {
            return Err(Refusal::new(19, rest[second].0));
        }
    }
    let other = &rest[..second.unwrap_or(1)];
    let values = |part: &[(usize, i64)]| part.iter().map(|&(_, number)| number).collect();
    Ok((values(one), values(other)))
}

/// The numbers of a symbol's text, and those behind it: as many as there are.
///
/// Where v is out of range it is refused with 1 at once, and nothing is counted.
pub fn symbol_and_more(text: &[u8]) -> Result<(Vec<i64>, Vec<i64>), Refusal> {
    if text.len() > MAX_TEXT {
        return Err(Refusal::new(19, MAX_TEXT));
    }
    let mut found: Vec<i64> = pieces(text)?.into_iter().map(|(_, n)| n).collect();
    let short = Refusal::new(19, text.len());
    let v = *found.first().ok_or(short)?;
    let wanted = Format::Listing.wanted(v).ok_or(Refusal::new(1, 0))?;
    if found.len() < wanted {
        return Err(short);
    }
    let more = found.split_off(wanted);
    Ok((found, more))
}

/// A count, and the numbers behind it: as many as there are. A negative number is no
/// count.
pub fn count_and_more(text: &[u8]) -> Result<(usize, Vec<i64>), Refusal> {
    if text.len() > MAX_TEXT {
        return Err(Refusal::new(19, MAX_TEXT));
    }
    let found = pieces(text)?;
    let Some((&(at, first), more)) = found.split_first() else {
        return Err(Refusal::new(19, text.len()));
    };
    let count = usize::try_from(first).map_err(|_| Refusal::new(19, at))?;
    Ok((count, more.iter().map(|&(_, number)| number).collect()))
}

#[cfg(test)]
mod tests {
    use super::*;

    fn place(text: &[u8], format: Format) -> u64 {
        let refusal = numbers(text, format).expect_err("this text is refused");
        assert_eq!(refusal.number, 19);
        refusal.place
    }

    #[test]
    fn plain_numbers() {
        assert_eq!(value(b"0"), Some(0));
        assert_eq!(value(b"-0"), Some(0));
        assert_eq!(value(b"-000012"), Some(-12));
        assert_eq!(value(&[b'0'; 400]), Some(0));
        assert_eq!(value(b"9223372036854775807"), Some(i64::MAX));
        assert_eq!(value(b"-9223372036854775808"), Some(i64::MIN));
    }

    #[test]
    fn pieces_that_are_no_numbers() {
        for piece in [
            &b"-"[..],
            b"--1",
            b"+1",
            b"1-",
            b"1.",
            b"0x1",
            b"1\t2",
            b"1\x00",
            b"\xc2\xa0",
            b"\xb2",
            b"9223372036854775808",
            b"-9223372036854775809",
            b"99999999999999999999999999999999999999999999999999999999999999",
        ] {
            assert_eq!(value(piece), None, "{piece:?}");
        }
    }

    #[test]
    fn length_comes_first() {
        let mut text = vec![b'x'; MAX_TEXT];
        assert_eq!(place(&text, Format::Listing), 0);
        text.push(b'x');
        assert_eq!(place(&text, Format::Listing), 65_536);
    }

    #[test]
    fn a_full_text_is_read() {
        let mut text = b"1 0 1 -2 -3".to_vec();
        text.resize(MAX_TEXT, b' ');
        assert_eq!(numbers(&text, Format::Listing), Ok(vec![1, 0, 1, -2, -3]));
        text.push(b'\n');
        assert_eq!(place(&text, Format::Listing), 65_536);
    }

    #[test]
    fn bad_pieces_go_before_the_count() {
        assert_eq!(place(b"2 0 1 1 1 1 -2 1 7 x", Format::Listing), 19);
        assert_eq!(place(b" 2\r\n0 +1", Format::Listing), 6);
        // Also when v is out of range.
        assert_eq!(place(b"0 a", Format::Listing), 2);
        // A tab doesn't split, so the piece that begins before it is at fault.
        assert_eq!(place(b"1 0\t1 -2 -3", Format::Listing), 2);
    }

    #[test]
    fn too_few_and_too_many() {
        assert_eq!(place(b"", Format::Listing), 0);
        assert_eq!(place(b" \r\n", Format::Query), 3);
        assert_eq!(place(b"1 0 1 -2\n", Format::Listing), 9);
        assert_eq!(place(b"1 0 1 -2 -3   5 6\n", Format::Listing), 14);
        assert_eq!(place(b"1 0 1 -2 -3", Format::Query), 11);
        assert_eq!(place(b"1 0 1 -2 -3 1 0 0 1 1 0 0 1 -9", Format::Query), 28);
        assert_eq!(place(b"1 0 1 -2 -3 1", Format::Exchange), 13);
        assert_eq!(place(b"1 0 1 -2 -3 1 2 3", Format::Exchange), 16);
        assert_eq!(place(b"2 0 1 0", Format::Import), 7);
        assert_eq!(place(b"2 0 1 0 1 4", Format::Import), 10);
        assert_eq!(place(b" 0\n", Format::Named), 3);
        assert_eq!(place(b"2", Format::Named), 1);
        assert_eq!(place(b"2 11  5 x", Format::Named), 8);
        assert_eq!(place(b"2 11  5 6", Format::Named), 6);
        assert_eq!(numbers(b"-0 011", Format::Named), Ok(vec![0, 11]));
    }

    #[test]
    fn without_a_range_no_count() {
        for text in [
            &b"0"[..],
            b"1024 5",
            b"-1 1 1 1 1 1",
            b"9223372036854775807",
        ] {
            assert!(numbers(text, Format::Listing).is_ok());
            assert!(numbers(text, Format::Query).is_ok());
        }
        assert!(numbers(b"3067 1", Format::Import).is_ok());
        for text in [&b"3"[..], b"-1 5", b"3 5 7", b"9223372036854775807 1 1"] {
            assert!(numbers(text, Format::Named).is_ok());
        }
        assert_eq!(place(b"3 5 x", Format::Named), 4);
        assert_eq!(place(b"3066 1", Format::Import), 6);
        assert_eq!(place(b"1023 1", Format::Listing), 6);
    }

    #[test]
    fn a_symbol_and_more() {
        let both = |text: &str| symbol_and_more(text.as_bytes());
        let refused = |number: u32, place: usize| Err(Refusal::new(number, place));
        let one = vec![1, 0, 1, -2, -3];
        assert_eq!(both("1 0 1 -2 -3"), Ok((one.clone(), vec![])));
        assert_eq!(both("1 0 1 -2 -3\n7 8\n"), Ok((one.clone(), vec![7, 8])));
        // Never too many.
        let many = format!("1 0 1 -2 -3{}", " 5".repeat(30_000));
        assert_eq!(both(&many), Ok((one, vec![5; 30_000])));
        // Too few: no number at all, or a symbol that isn't whole.
        assert_eq!(both(""), refused(19, 0));
        assert_eq!(both(" \r\n"), refused(19, 3));
        assert_eq!(both("1 0 1 -2 "), refused(19, 9));
        assert_eq!(both("1023 1 1"), refused(19, 8));
        // With v out of range nothing is counted, but a piece that is no number
        // goes before that.
        assert_eq!(both("0"), refused(1, 0));
        assert_eq!(both("1024 1"), refused(1, 0));
        assert_eq!(both("-1 0 1 -2 -3 5"), refused(1, 0));
        assert_eq!(both("0 5 x"), refused(19, 4));
        assert_eq!(both("1 0 1 -2 -3 1 0 0 1 1 0 0 9-"), refused(19, 26));
        assert_eq!(both("1 0 x"), refused(19, 4));
        assert_eq!(both(&"x".repeat(MAX_TEXT + 1)), refused(19, MAX_TEXT));
    }

    #[test]
    fn a_count_and_more() {
        let read = |text: &str| count_and_more(text.as_bytes());
        let refused = |place: usize| Err(Refusal::new(19, place));
        assert_eq!(read("0"), Ok((0, vec![])));
        assert_eq!(read("-0 5"), Ok((0, vec![5])));
        assert_eq!(read(" 1\r\n-1 007\n"), Ok((1, vec![-1, 7])));
        assert_eq!(
            read("9223372036854775807"),
            Ok((1 << 63) - 1).map(|count| (count, vec![]))
        );
        assert_eq!(read(&"5 ".repeat(32_768)), Ok((5, vec![5; 32_767])));
        assert_eq!(read(""), refused(0));
        assert_eq!(read(" \n\r"), refused(3));
        assert_eq!(read("1 -1 2x 3"), refused(5));
        assert_eq!(read(&"5 ".repeat(32_769)), refused(MAX_TEXT));
        // A piece that is no number goes before a count that is none.
        assert_eq!(read("\n -1 1 0"), refused(2));
        assert_eq!(read("-1 x"), refused(3));
    }

    #[test]
    fn two_texts() {
        let both = |text: &str| two_symbols(text.as_bytes());
        let refused = |number: u32, place: usize| Err(Refusal::new(number, place));
        let (one, other) = (vec![1, 0, 1, -2, -3], vec![1, 0, 1, -3, -3]);
        let text = "1 0 1 -2 -3\n1 0 1 -3 -3\n";
        assert_eq!(both(text), Ok((one.clone(), other.clone())));
        assert_eq!(both(&text.replace('\n', " ")), Ok((one.clone(), other)));
        // The end of the first text isn't one of a line.
        assert_eq!(both("1 0 1 -2 -3 0"), Ok((one.clone(), vec![0])));
        assert_eq!(both("1 0 1 -2 -3 1024 5 5"), Ok((one.clone(), vec![1_024])));
        assert_eq!(both("1 0 1 -2 -3 -1 5"), Ok((one, vec![-1])));
        assert_eq!(both(""), refused(19, 0));
        assert_eq!(both(" \n"), refused(19, 2));
        assert_eq!(both("1 0 1 -2"), refused(19, 8));
        assert_eq!(both("1 0 1 -2 -3"), refused(19, 11));
        assert_eq!(both("1 0 1 -2 -3 \n"), refused(19, 13));
        assert_eq!(both("1 0 1 -2 -3 1 0 1 -3"), refused(19, 20));
        assert_eq!(both("1 0 1 -2 -3 1 0 1 -3 -3  9 9"), refused(19, 25));
        // A first v out of range: nothing else is counted.
        assert_eq!(both("0"), refused(1, 0));
        assert_eq!(both("1024 1 1 1"), refused(1, 0));
        assert_eq!(both("-1 1 0 1 -2 -3"), refused(1, 0));
        // Pieces that are no numbers go before that, wherever they stand.
        assert_eq!(both("0 x"), refused(19, 2));
        assert_eq!(both("1 0 1 -2 x"), refused(19, 9));
        assert_eq!(both("1 0 1 -2 -3 0 +"), refused(19, 14));
        assert_eq!(both("1 0 1 -2 -3 1 0 1 -3 -3 9 x"), refused(19, 26));
        let long = format!("{text}{}", " ".repeat(MAX_TEXT - text.len()));
        assert!(both(&long).is_ok());
        assert_eq!(both(&format!("{long} ")), refused(19, MAX_TEXT));
        assert_eq!(both(&"x".repeat(MAX_TEXT + 1)), refused(19, MAX_TEXT));
    }
}

//! Cycle notation at scale: random texts in every style, and the place of 27 by a
//! second road, a list of all right texts of the indexes 1 to 4.

mod child;

use reference::cycles::{completes, pieces, read, verdict, whole, write};
use reference::permutations::Action;
use reference::random::cycles::{any_permutations, damaged, right_text, text, written};
use reference::random::pairs::{all_pairs, dice_pair, pair, shallow_pair};
use reference::random::Rng;
use reference::symbol::MAX_VERTICES;
use reference::Refusal;

/// The largest index whose right texts are listed.
const LISTED: usize = 4;

/// All sequences of cycles over points up to n that aren't in `used`, each written out.
fn sequences(n: usize, used: &[usize], cycle: &[usize], before: &str, out: &mut Vec<String>) {
    if cycle.is_empty() {
        out.push(before.to_string());
    } else {
        let points: Vec<String> = cycle.iter().map(usize::to_string).collect();
        let closed = format!("{before}({})", points.join(","));
        sequences(n, used, &[], &closed, out);
    }
    for point in (1..=n).filter(|point| !used.contains(point)) {
        let used = [used, &[point]].concat();
        sequences(n, &used, &[cycle, &[point]].concat(), before, out);
    }
}

/// All right texts of an index without blanks and without zeros in front, sorted.
fn language(n: usize) -> Vec<String> {
    let mut permutations = vec!["()".to_string()];
    sequences(n, &[], &[], "", &mut permutations);
    let single = |text: &String| text.matches('(').count() == 1;
    let mut texts = Vec::new();
    for s in &permutations {
        for r in &permutations {
            texts.push(format!("{n}{s};{r}"));
            if single(s) && single(r) {
                texts.push(format!("{n}{s}{r}"));
            }
        }
    }
    texts.sort();
    texts
}

/// The list of all right texts of small indexes.
struct Listed(Vec<Vec<String>>);

impl Listed {
    fn new() -> Listed {
        Listed((1..=LISTED).map(language).collect())
    }

    /// Pieces without their blanks and zeros in front, or `None` where a blank stands
    /// inside a cycle.
    fn bare(pieces: &[&[u8]]) -> Option<Vec<u8>> {
        let mut bare = Vec::new();
        let mut open = false;
        for &piece in pieces {
            match piece {
                b" " if open => return None,
                b" " => {}
                [b'0'..=b'9', ..] => {
                    let zeros = piece.iter().take_while(|&&digit| digit == b'0').count();
                    bare.extend(&piece[zeros.min(piece.len() - 1)..]);
                }
                _ => {
                    open = piece == b"(" || open && piece != b")";
                    bare.extend(piece);
                }
            }
        }
        Some(bare)
    }

    /// Whether some right text begins with these pieces, and whether they are one.
    fn looked_up(&self, pieces: &[&[u8]]) -> (bool, bool) {
        let Some(bare) = Listed::bare(pieces) else {
            return (false, false);
        };
        let Some(&first) = bare.first() else {
            return (true, false);
        };
        let n = usize::from(first.wrapping_sub(b'0'));
        let Some(texts) = n.checked_sub(1).and_then(|i| self.0.get(i)) else {
            return (false, false);
        };
        let at = texts.partition_point(|text| text.as_bytes() < &bare[..]);
        let found = texts.get(at).map_or(&b""[..], |text| text.as_bytes());
        (found.starts_with(&bare), found == bare)
    }

    /// The verdict on a text: right, 12 or 27 with its place; `None` for a larger index.
    fn verdict(&self, text: &[u8]) -> Option<Result<(), Refusal>> {
        let ranges = pieces(text);
        let all: Vec<&[u8]> = ranges.iter().map(|range| &text[range.clone()]).collect();
        let number = all.iter().find(|piece| **piece != b" ");
        if let Some(digits) = number.filter(|piece| piece[0].is_ascii_digit()) {
            let digits = String::from_utf8_lossy(digits);
            let index = digits.trim_start_matches('0').parse::<u128>().unwrap_or(0);
            if !(1..=3_066).contains(&index) {
                return Some(Err(Refusal::new(12, 0)));
            }
            if index > LISTED as u128 {
                return None;
            }
        }
        for (i, range) in ranges.iter().enumerate() {
            if !self.looked_up(&all[..=i]).0 {
                return Some(Err(Refusal::new(27, range.start)));
            }
        }
        Some(match self.looked_up(&all).1 {
            true => Ok(()),
            false => Err(Refusal::new(27, text.len())),
        })
    }

    fn compared(&self, text: &[u8]) -> Option<Result<(), Refusal>> {
        let expected = self.verdict(text)?;
        let came = verdict(text).map(|_| ());
        assert_eq!(came, expected, "{}", child::shown(text));
        Some(expected)
    }
}

/// How many right texts there are: with n points and no blanks.
#[test]
fn the_list_is_whole() {
    // The sequences of cycles over some of n points: each ordered choice of k points
    // is cut into cycles in 2^(k-1) ways; and `()`.
    for (n, permutations) in [(1, 3), (2, 8), (3, 41), (4, 318)] {
        let single = |n: usize| -> usize {
            let choices = |k: usize| (n - k + 1..=n).product::<usize>();
            1 + (1..=n).map(choices).sum::<usize>()
        };
        let texts = language(n);
        assert_eq!(texts.len(), permutations * permutations + single(n).pow(2));
        assert!(texts.windows(2).all(|pair| pair[0] < pair[1]));
        for text in texts.iter().step_by(7) {
            let right = whole(text.as_bytes()).expect("a right text");
            assert_eq!(right.index, n);
        }
    }
}

/// Every text of a few pieces, each with a list of its own.
#[test]
fn short_texts() {
    let listed = Listed::new();
    let alphabet: [&[u8]; 8] = [b" ", b"(", b")", b",", b";", b"1", b"2", b"\n"];
    let mut rightly = 0;
    let mut texts = vec![b"2".to_vec(), b"1".to_vec()];
    for _ in 0..6 {
        let mut longer = Vec::new();
        for text in &texts {
            rightly += usize::from(listed.compared(text) == Some(Ok(())));
            longer.extend(alphabet.iter().map(|piece| [text, *piece].concat()));
        }
        texts = longer;
    }
    assert!(rightly >= 20, "{rightly}");
}

/// Random right texts of small indexes, and each of them damaged, once and more often,
/// and cut short.
#[test]
fn damaged_texts() {
    let listed = Listed::new();
    let (mut right, mut index, mut inside, mut short) = (0, 0, 0, 0);
    for case in 0..60_000 {
        let mut rng = Rng::for_case(20_261_127, case);
        let [s, r] = any_permutations(&mut rng, LISTED);
        let sound = written(&mut rng, &s, &r).into_bytes();
        assert_eq!(listed.compared(&sound), Some(Ok(())));
        let once = damaged(&mut rng, &sound);
        let twice = damaged(&mut rng, &once);
        let cut = sound[..rng.below(sound.len() + 1)].to_vec();
        for text in [once, twice, cut] {
            match listed.compared(&text) {
                Some(Ok(())) => right += 1,
                Some(Err(Refusal { number: 12, .. })) => index += 1,
                Some(Err(refusal)) if refusal.place == text.len() as u64 => short += 1,
                Some(Err(_)) => inside += 1,
                None => {}
            }
        }
    }
    assert!(right > 5_000 && index > 500 && inside > 50_000 && short > 20_000);
}

/// Random texts of all sizes: a right one is read as what it was written from; and at
/// the place of 27 what stands before the piece can be completed, with it no more.
#[test]
fn texts_of_all_sizes() {
    for case in 0..3_000 {
        let mut rng = Rng::for_case(27, case);
        let [s, r] = any_permutations(&mut rng, 300);
        let sound = written(&mut rng, &s, &r);
        let checked = Action::new(&s, &r).map(|_| (s.clone(), r.clone()));
        assert_eq!(read(sound.as_bytes()), checked, "{sound}");
        let right = right_text(&mut rng);
        assert!(verdict(&right).is_ok(), "{}", child::shown(&right));
        let any = text(&mut rng);
        if let Err(Refusal { number: 27, place }) = verdict(&any) {
            let place = place as usize;
            assert!(completes(&any[..place]), "{}", child::shown(&any));
            if let Some(piece) = pieces(&any).into_iter().find(|piece| piece.start == place) {
                assert!(!completes(&any[..piece.end]), "{}", child::shown(&any));
            }
        }
    }
}

/// Exports: read, each gives its tables; of one blank, one semicolon, and no fixed
/// point; the smallest points ascend.
fn exported(s: &[i64], r: &[i64]) -> String {
    let text = write(s, r).expect("a pair");
    assert_eq!(read(text.as_bytes()), Ok((s.to_vec(), r.to_vec())));
    let (index, rest) = text.split_once(' ').expect("one blank");
    assert_eq!(index, s.len().to_string());
    assert!(!rest.contains(' '));
    let (one, other) = rest.split_once(';').expect("one semicolon");
    for permutation in [one, other] {
        if permutation == "()" {
            continue;
        }
        let inner = permutation
            .strip_prefix('(')
            .and_then(|x| x.strip_suffix(')'));
        let cycles: Vec<Vec<usize>> = inner
            .expect("cycles")
            .split(")(")
            .map(|cycle| {
                cycle
                    .split(',')
                    .map(|x| x.parse().expect("a point"))
                    .collect()
            })
            .collect();
        assert!(cycles.iter().all(|cycle| cycle.len() > 1));
        assert!(cycles
            .iter()
            .all(|cycle| cycle.iter().min() == cycle.first()));
        assert!(cycles.windows(2).all(|pair| pair[0][0] < pair[1][0]));
    }
    text
}

#[test]
fn round_trips() {
    for n in 1..=5 {
        for pair in all_pairs(n) {
            if Action::new(&pair.s, &pair.r).is_ok() {
                exported(&pair.s, &pair.r);
            }
        }
    }
    for case in 0..400 {
        let mut rng = Rng::for_case(28, case);
        let pair = pair(&mut rng);
        exported(&pair.s, &pair.r);
    }
    let mut rng = Rng::new(29);
    let mut longest = 0;
    for _ in 0..3 {
        for large in [
            shallow_pair(&mut rng, MAX_VERTICES),
            dice_pair(&mut rng, 3_066),
        ] {
            longest = longest.max(exported(&large.s, &large.r).len());
        }
    }
    // Two times 3,066 points in up to four digits, with a mark for each and two more
    // for each cycle: no export is as long as a program's text may be.
    assert!(longest > 30_000 && longest < 65_536, "{longest}");
}

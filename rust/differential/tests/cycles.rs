//! `farey_read_cycles` and `farey_write_cycles`: random texts, right and damaged, every
//! byte of the result spaces looked at; there and back by the wrapper; the longest texts.

use differential::cycles::{read_case, reading, write_case};
use differential::outcome::Outcome;
use differential::spaces::Space;
use farey::{read_cycles, write_cycles, Symbol};
use reference::congruence::{gamma, gamma0, gamma1};
use reference::cycles;
use reference::random::cycles::{any_permutations, damaged, right_text, written};
use reference::random::pairs::{all_pairs, dice_pair, pair, shallow_pair, Pair};
use reference::random::Rng;

const CASES: u64 = 10_000;

fn narrow(table: &[i64]) -> Vec<u32> {
    table.iter().map(|&x| x as u32).collect()
}

/// Cases of one call: no difference, and each of these numbers met often.
fn meets(call: fn(&mut Rng) -> Outcome, numbers: &[usize]) {
    let mut met = [0; 28];
    for stream in 0..CASES {
        let outcome = call(&mut Rng::for_case(20_261_117, stream));
        assert!(outcome.differences.is_empty(), "case {stream}\n{outcome}");
        met[outcome.number() as usize] += 1;
    }
    for &number in numbers {
        assert!(met[number] >= 40, "{number}: {met:?}");
    }
}

#[test]
fn random_readings() {
    meets(read_case, &[0, 11, 12, 14, 15, 27]);
}

#[test]
fn random_writings() {
    meets(write_case, &[0, 11, 12, 13, 14, 15]);
}

/// Small indexes: a text in some style, then with each byte in turn taken away and
/// overwritten by each byte that means something, and cut short at each byte.
#[test]
fn every_byte() {
    let mut asked = 0;
    for case in 0..40 {
        let mut rng = Rng::for_case(1_431, case);
        let [s, r] = any_permutations(&mut rng, 3);
        let text = written(&mut rng, &s, &r).into_bytes();
        for at in 0..text.len() {
            let mut texts = vec![text[..at].to_vec(), [&text[..at], &text[at + 1..]].concat()];
            for byte in b" (),;0123x\n" {
                let mut other = text.clone();
                other[at] = *byte;
                texts.push(other);
                texts.push([&text[..at], &[*byte], &text[at..]].concat());
            }
            for text in texts {
                let text = Space::holding(&mut rng, &text);
                let outcome = reading(&mut rng, &text);
                assert!(outcome.differences.is_empty(), "{outcome}");
                asked += 1;
            }
        }
    }
    assert!(asked > 5_000, "{asked}");
}

/// Indexes that are none, of any number of digits; points past 64 bits; texts far over
/// 65,536 bytes, which only the programs refuse.
#[test]
fn long_numbers_and_texts() {
    let mut rng = Rng::new(1_432);
    let mut compare = |text: &[u8], number: u64, place: usize| {
        let text = Space::holding(&mut rng, text);
        let outcome = reading(&mut rng, &text);
        assert!(outcome.differences.is_empty(), "{outcome}");
        let expected = farey::Refusal { number, place };
        match number {
            0 => assert_eq!(read_cycles(text.read()).map(|(s, _)| s.len()), Ok(place)),
            _ => assert_eq!(read_cycles(text.read()), Err(expected)),
        }
    };
    for digits in [1, 5, 19, 20, 21, 39, 300, 100_000] {
        compare(
            "9".repeat(digits).as_bytes(),
            if digits == 1 { 27 } else { 12 },
            digits * usize::from(digits == 1),
        );
        compare(format!("{}x", "0".repeat(digits)).as_bytes(), 12, 0);
        compare(format!("{}1;", "0".repeat(digits)).as_bytes(), 0, 1);
        let point = format!("2 ({}1,2);", "0".repeat(digits));
        compare(point.as_bytes(), 0, 2);
        let past = format!("2 (1,2{})", "0".repeat(digits));
        compare(past.as_bytes(), 27, 5);
        // 2^64 and 2^32 more than a point, and so on for as many digits.
        let round = format!("3 (18446744073709551617{},2)", "0".repeat(digits));
        compare(round.as_bytes(), 27, 3);
        let blanks = " ".repeat(digits);
        let spread = format!("{blanks}2{blanks}(1,2){blanks};{blanks}(){blanks}");
        compare(spread.as_bytes(), 0, 2);
        compare(format!("{spread}()").as_bytes(), 27, spread.len());
    }
    for (index, number, place) in [
        (3_066, 15, 1),
        (3_067, 12, 0),
        (65_537, 12, 0),
        (4_294_967_297u64, 12, 0),
    ] {
        compare(format!("{index};").as_bytes(), number, place);
    }
    compare(b"18446744073709551617;", 12, 0);
}

/// An export, read, gives its tables, and is what the reference writes; the symbol of
/// its text is that of the tables.
fn there_and_back(pair: &Pair) -> usize {
    let (s, r) = (narrow(&pair.s), narrow(&pair.r));
    let text = write_cycles(&s, &r).expect("a pair");
    assert_eq!(Ok(&text), cycles::write(&pair.s, &pair.r).as_ref());
    assert_eq!(read_cycles(text.as_bytes()), Ok((s.clone(), r.clone())));
    assert_eq!(
        Symbol::from_cycles(text.as_bytes()).map(|symbol| symbol.table().to_vec()),
        Symbol::from_permutations_wide(&s, &r).map(|symbol| symbol.table().to_vec())
    );
    text.len()
}

#[test]
fn round_trips() {
    for n in 1..=5 {
        let small = all_pairs(n);
        let sound = |pair: &&Pair| reference::permutations::Action::new(&pair.s, &pair.r).is_ok();
        small.iter().filter(sound).for_each(|pair| {
            there_and_back(pair);
        });
    }
    for case in 0..500 {
        there_and_back(&pair(&mut Rng::for_case(1_433, case)));
    }
    for n in [1, 2, 11, 31, 120, 419] {
        there_and_back(&gamma0(n));
    }
    there_and_back(&gamma1(24));
    there_and_back(&gamma(12));
    let mut rng = Rng::new(1_434);
    let mut longest = 0;
    for _ in 0..4 {
        longest = longest.max(there_and_back(&shallow_pair(&mut rng, 1_023)));
        longest = longest.max(there_and_back(&dice_pair(&mut rng, 3_066)));
    }
    assert!(longest > 30_000, "{longest}");
}

/// The longest export that there is: no point of 3,066 is fixed by S or by R. It has the
/// length that the header names.
#[test]
fn the_longest_text() {
    // Triangles in a ring, each joined to the next by one of its points; the third points
    // are joined in pairs.
    let triangles = 1_022u32;
    let (mut s, mut r) = (vec![0; 3_066], vec![0; 3_066]);
    for i in 0..triangles {
        for j in 0..3 {
            r[(3 * i + j) as usize] = 3 * i + (j + 1) % 3;
        }
        let next = (i + 1) % triangles;
        s[(3 * i + 1) as usize] = 3 * next;
        s[(3 * next) as usize] = 3 * i + 1;
        s[(3 * i + 2) as usize] = 3 * (i ^ 1) + 2;
    }
    let text = write_cycles(&s, &r).expect("a pair");
    assert_eq!(text.len(), 31_007);
    assert_eq!(read_cycles(text.as_bytes()), Ok((s, r)));
}

/// `cycles` of a symbol, and symbols of other people's texts.
#[test]
fn symbols() {
    for n in [1, 2, 11, 31] {
        let symbol = Symbol::gamma0(n).expect("a group");
        let text = symbol.cycles().expect("an index up to 3,066");
        let again = Symbol::from_cycles(text.as_bytes()).expect("its text");
        assert!(again.is_same(&symbol));
    }
    // 1,023 vertices and odd sides at all but one place: the index is over 3,066.
    let vertices: Vec<(i64, i64)> = (0..1_023).map(|x| (x, 1)).collect();
    let symbol = Symbol::new(&vertices, &[-3; 1_024]).expect("a symbol");
    let refusal = symbol.cycles().expect_err("4,090 points");
    assert_eq!((refusal.number, refusal.place), (12, 0));
    for case in 0..300 {
        let mut rng = Rng::for_case(1_435, case);
        let right = right_text(&mut rng);
        let text = if case % 3 == 0 {
            damaged(&mut rng, &right)
        } else {
            right
        };
        let read = read_cycles(&text);
        let made = Symbol::from_cycles(&text);
        match (read, made) {
            (Ok((s, r)), Ok(symbol)) => {
                let (s, r) = (
                    s.iter().map(|&x| x.into()).collect::<Vec<i64>>(),
                    r.iter().map(|&x| x.into()).collect::<Vec<i64>>(),
                );
                let numbered =
                    reference::permutations::Action::new(&s, &r).map(|action| action.numbered());
                let tables = symbol.tables();
                assert_eq!(numbered, Ok((tables.s, tables.r)));
            }
            (Ok(_), Err(refusal)) => assert_eq!(refusal.number, 16),
            (Err(one), Err(other)) => assert_eq!(one, other),
            (Err(refusal), Ok(_)) => panic!("{refusal}"),
        }
    }
}

//! The test material itself: it hits what it is meant to hit.

use std::collections::BTreeMap;

use reference::random::drafts::{draft, draft_of_size, size};
use reference::random::faults::{
    faulty_text, full_text, put_fault, typed, SYMBOL_FAULTS, TEXT_FAULTS,
};
use reference::random::matrices::{any_pair, put_matrix_fault};
use reference::random::{listing_case, query_case, Rng};
use reference::symbol::{check, MAX_ENTRY};
use reference::text::{numbers, Format};
use reference::word::check_matrices;
use reference::{listing, query, Refusal};

#[test]
fn drafts_are_sound_and_varied() {
    let mut rng = Rng::new(11);
    let (mut first, mut last, mut negative, mut at_limit, mut one) = (0, 0, 0, 0, 0);
    for _ in 0..3_000 {
        let draft = draft(&mut rng);
        let numbers = draft.numbers();
        assert_eq!(check(numbers[0], &numbers[1..]), Ok(()), "{draft:?}");
        first += usize::from(draft.vertices[0] == (0, 1));
        last += usize::from(draft.vertices[draft.v() - 1] == (0, 1));
        negative += usize::from(draft.vertices[0].0 < 0);
        at_limit += usize::from(
            draft
                .vertices
                .iter()
                .any(|&(a, b)| a.abs().max(b) == MAX_ENTRY),
        );
        one += usize::from(draft.v() == 1);
    }
    let counts = [first, last, negative, at_limit, one];
    assert!(counts.iter().all(|&count| count >= 10), "{counts:?}");
}

#[test]
fn each_symbol_fault_is_hit() {
    let mut rng = Rng::new(12);
    for fault in SYMBOL_FAULTS {
        let mut hits = 0;
        for _ in 0..400 {
            let v = size(&mut rng).min(100);
            let mut numbers = draft_of_size(&mut rng, v).numbers();
            if put_fault(&mut rng, &mut numbers, fault) {
                let refusal = check(numbers[0], &numbers[1..]).expect_err("a fault was put in");
                assert_eq!(refusal.number, fault, "{numbers:?}");
                hits += 1;
            }
        }
        assert!(hits >= 200, "fault {fault} was put in {hits} times");
    }
}

#[test]
fn of_two_faults_the_lower_number_counts() {
    let mut rng = Rng::new(13);
    for _ in 0..400 {
        let mut numbers = draft_of_size(&mut rng, 5).numbers();
        // 3 and 6 lie in different parts of the table.
        assert!(put_fault(&mut rng, &mut numbers, 6));
        assert_eq!(check(numbers[0], &numbers[1..]).unwrap_err().number, 6);
        assert!(put_fault(&mut rng, &mut numbers, 3));
        assert_eq!(check(numbers[0], &numbers[1..]).unwrap_err().number, 3);
    }
}

#[test]
fn each_text_fault_is_hit_at_its_place() {
    let mut rng = Rng::new(14);
    for fault in TEXT_FAULTS {
        for _ in 0..500 {
            let v = size(&mut rng).min(60);
            let list = draft_of_size(&mut rng, v).numbers();
            let (bytes, place) = faulty_text(&mut rng, &list, fault);
            let refusal = Refusal::new(19, place);
            assert_eq!(numbers(&bytes, Format::Listing), Err(refusal), "{fault:?}");
            assert_eq!(listing(&bytes), format!("{refusal}\n"));
        }
    }
}

#[test]
fn readable_texts_are_read() {
    let mut rng = Rng::new(15);
    for _ in 0..500 {
        let list = draft(&mut rng).numbers();
        let bytes = typed(&mut rng, &list).bytes;
        assert_eq!(numbers(&bytes, Format::Listing), Ok(list.clone()));
        let bytes = full_text(&mut rng, &list);
        assert_eq!(bytes.len(), 65_536);
        assert_eq!(numbers(&bytes, Format::Listing), Ok(list));
    }
}

#[test]
fn matrix_faults_are_hit() {
    let mut rng = Rng::new(16);
    for _ in 0..500 {
        for fault in [8, 9] {
            let (a, b) = any_pair(&mut rng, false);
            let mut pair: [i64; 8] = [a, b].concat().try_into().unwrap();
            put_matrix_fault(&mut rng, &mut pair, fault);
            let a = [pair[0], pair[1], pair[2], pair[3]];
            let b = [pair[4], pair[5], pair[6], pair[7]];
            let refusal = check_matrices(a, b).expect_err("a fault was put in");
            assert_eq!(refusal.number, fault);
        }
    }
}

/// How often each answer occurs, by its first words.
fn answers(out: impl Iterator<Item = String>) -> BTreeMap<String, usize> {
    let mut counts = BTreeMap::new();
    for text in out {
        let mut words = text.split([' ', '\n']);
        let name = words.next().unwrap_or_default();
        let key = match name {
            "refused" | "word" => format!("{name} {}", words.next().unwrap_or_default()),
            _ if text.contains("level refused 17 0\n") => "level refused 17".to_string(),
            _ => name.to_string(),
        };
        *counts.entry(key).or_insert(0) += 1;
    }
    counts
}

/// A run of the usual length meets every answer that a text can bring about.
#[test]
fn cases_meet_every_answer() {
    let seed = 20_240_229;
    let counts = answers((0..2_000).map(|case| listing(&listing_case(seed, case))));
    for key in [
        "index",
        "level refused 17",
        "refused 1",
        "refused 3",
        "refused 4",
        "refused 5",
        "refused 6",
        "refused 7",
        "refused 19",
    ] {
        assert!(
            counts.get(key).is_some_and(|&n| n >= 5),
            "{key}: {counts:?}"
        );
    }
    println!("listing: {counts:?}");
    let counts = answers((0..2_000).map(|case| query(&query_case(seed, case))));
    for key in [
        "word +",
        "word -",
        "refused 1",
        "refused 3",
        "refused 4",
        "refused 5",
        "refused 6",
        "refused 7",
        "refused 8",
        "refused 9",
        "refused 10",
        "refused 11",
        "refused 19",
    ] {
        assert!(
            counts.get(key).is_some_and(|&n| n >= 2),
            "{key}: {counts:?}"
        );
    }
    println!("query: {counts:?}");
}

#[test]
fn cases_repeat() {
    for case in [0, 13, 20, 77, 1_234] {
        assert_eq!(listing_case(5, case), listing_case(5, case));
        assert_eq!(query_case(5, case), query_case(5, case));
    }
    assert_ne!(listing_case(5, 100), listing_case(6, 100));
}

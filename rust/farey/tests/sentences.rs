//! The sentences of the refusals are those of `refusals.txt`, with the place put
//! in.

use farey::Refusal;

#[test]
fn each_refusal_has_its_sentence() {
    let listed = include_str!("../refusals.txt");
    let mut count = 0;
    let begins = |line: &&str| line.starts_with(|c: char| c.is_ascii_digit());
    for line in listed.lines().filter(begins) {
        let (number, sentence) = line.split_once(' ').expect("a number and a sentence");
        let number = number.parse().expect("a number");
        for place in [0, 47] {
            let expected = sentence.replace("{place}", &place.to_string());
            let refusal = Refusal { number, place };
            assert_eq!(refusal.sentence(), expected);
            assert_eq!(
                refusal.to_string(),
                format!("refused {number} {place}: {expected}")
            );
        }
        count += 1;
    }
    assert!(count >= 27);
}

#[test]
fn a_number_without_a_sentence() {
    let refusal = Refusal {
        number: 1_000,
        place: 3,
    };
    assert_eq!(refusal.sentence(), "refusal 1000, place 3");
}

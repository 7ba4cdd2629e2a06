//! From two permutations to a symbol, its figures, generators and coset tables,
//! and words: the library from Rust.
//!
//!     tools/prove staticlib engine
//!     cargo run --manifest-path rust/Cargo.toml -p farey --example subgroup
//!
//! The group has index 7, and no congruence describes it. The output is in
//! subgroup.output.

use farey::{calls, Kind, Refusal, Shape, Symbol, Word};

/// Numbers with a space before each.
fn spaced<T: ToString>(numbers: &[T]) -> String {
    let pieces = numbers.iter().map(|n| format!(" {}", n.to_string()));
    pieces.collect()
}

fn yes_or_no(yes: bool) -> &'static str {
    if yes {
        "yes"
    } else {
        "no"
    }
}

fn name(kind: Kind) -> &'static str {
    match kind {
        Kind::Free => "free",
        Kind::Even => "even",
        Kind::Odd => "odd",
    }
}

fn main() -> Result<(), Refusal> {
    assert_eq!(calls::version(), 200);
    let (s, r) = ([1, 0, 4, 6, 2, 5, 3], [2, 3, 5, 6, 4, 0, 1]);
    println!("length {}", calls::import_length(&s, &r)?);
    let symbol = Symbol::from_permutations(&s, &r)?;
    println!("symbol{}", spaced(symbol.table()));
    println!("index {}", symbol.figures().index);
    println!("widths{}", spaced(&symbol.widths()));
    for (i, generator) in symbol.generators().iter().enumerate() {
        let kind = name(generator.kind);
        println!("{} {kind}{}", i + 1, spaced(&generator.matrix));
    }
    let tables = symbol.tables();
    println!(
        "S{}\nR{}\nT{}",
        spaced(&tables.s),
        spaced(&tables.r),
        spaced(&tables.t)
    );
    let found = symbol.coset_cusps();
    println!(
        "cusps{}\nsteps{}",
        spaced(&found.cusps),
        spaced(&found.steps)
    );
    // The word times 1 is the matrix itself, or its negative.
    let told = |Word { sign, letters }: Word| {
        let sign = if sign == 1 { '+' } else { '-' };
        format!("word {sign}{}", spaced(&letters))
    };
    let (one, six, other) = ([1, 0, 0, 1], [1, 6, 0, 1], [-17, -12, -24, -17]);
    for to in [six, other] {
        let answer = symbol.word(one, to)?;
        println!("{}", answer.map_or("none".to_string(), told));
    }
    // The same two as a sheet, and a matrix of determinant 2.
    for answer in symbol.words(&[(one, six), (one, other), (one, [2, 0, 0, 1])]) {
        match answer {
            Ok(Some(word)) => println!("{}", told(word)),
            Ok(None) => println!("refused 10 0"),
            Err(refusal) => println!("refused {} {}", refusal.number, refusal.place),
        }
    }
    // The same pairs, yes or no without a word; and one of them by itself.
    for answer in symbol.same_cosets(&[(one, six), (one, other), (one, [2, 0, 0, 1])]) {
        match answer {
            Ok(shared) => println!("coset {}", yes_or_no(shared)),
            Err(refusal) => println!("refused {} {}", refusal.number, refusal.place),
        }
    }
    println!("coset {}", yes_or_no(symbol.same_coset(&one, &six)?));
    // One matrix, with entries up to 10^18: whether it is in the group, its word, and
    // the length of one without room.
    println!("matrix {}", yes_or_no(symbol.contains_matrix(&six)?));
    if let Some(word) = symbol.matrix_word(&one, 16)? {
        println!("matrix {} {}", word.letters.len(), word.sign);
    }
    if let Err(refusal) = symbol.matrix_word(&[1, 600_000_000_000_000_000, 0, 1], 16) {
        println!("matrix refused {} {}", refusal.number, refusal.place);
    }
    let relabelled = Symbol::new(&[(-1, 1), (0, 1), (1, 1)], &[-2, -3, 4, 4])?;
    println!("same {}", yes_or_no(symbol.is_same(&relabelled)));
    // The rule that splits the leftmost open side: whichever symbol it finds, it
    // is one of the same subgroup.
    let leftmost = Symbol::from_permutations_leftmost(&s, &r)?;
    println!(
        "same from the left {}",
        yes_or_no(symbol.is_same(&leftmost))
    );
    let drawing = symbol.drawing()?;
    for side in &drawing.sides {
        let kind = name(side.kind);
        match side.shape {
            Shape::Line(place) => println!("line {place:.3} {kind}"),
            Shape::Arc(centre, radius) => println!("arc {centre:.3} {radius:.3} {kind}"),
        }
    }
    let held = drawing.bounds;
    println!(
        "box {:.3} {:.3} {:.3} {:.3}",
        held.left, held.right, held.bottom, held.top
    );
    Ok(())
}

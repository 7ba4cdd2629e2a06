//! The pages: what README.md, docs/TUTORIAL.md and docs/HANDBOOK.md show of files
//! and of the programs' answers is so, by the reference, by the programs and by
//! `./farey`. Their other blocks are run by `test_pages.py` and `test_recipes.py` of
//! `python/tests`.
//!
//! | block                 | what is checked                                          |
//! |-----------------------|----------------------------------------------------------|
//! | `text PATH`           | the file of that path holds just this                    |
//! | `console`             | `$ COMMAND`, and then all that the command prints;       |
//! |                       | several of them one after the other                      |
//! | a refusal's example   | the program answers it so; the list is made by           |
//! |                       | tools/refusals of rust/farey/refusals.txt                |

mod child;

use std::fs;
use std::process::Command;

use child::{farey, repository, Program};
use reference::{cycles, named_leftmost, named_wide, to_cycles};
use reference::{
    exchange, import, import_wide, intersection, listing, named, query, same, sheet, tower,
};

/// A block between two fences: what stands behind the first one, and the lines.
struct Block {
    info: String,
    text: String,
}

/// A refusal's example: the file and a line of the answer to it.
struct Row {
    number: u32,
    example: String,
    answer: String,
}

fn page(path: &str) -> String {
    fs::read_to_string(repository().join(path)).unwrap_or_else(|e| panic!("{path}: {e}"))
}

const PAGES: [&str; 3] = ["README.md", "docs/TUTORIAL.md", "docs/HANDBOOK.md"];

fn handbook() -> String {
    page("docs/HANDBOOK.md")
}

fn file(path: &str) -> Vec<u8> {
    fs::read(repository().join(path)).unwrap_or_else(|e| panic!("{path}: {e}"))
}

fn blocks(page: &str) -> Vec<Block> {
    let mut blocks = Vec::new();
    let mut open: Option<Block> = None;
    for line in page.lines() {
        match (line.strip_prefix("```"), &mut open) {
            (Some(info), None) => {
                open = Some(Block {
                    info: info.to_string(),
                    text: String::new(),
                })
            }
            (Some(_), Some(_)) => blocks.extend(open.take()),
            (None, Some(block)) => {
                block.text.push_str(line);
                block.text.push('\n');
            }
            (None, None) => {}
        }
    }
    assert!(open.is_none(), "a block isn't closed");
    blocks
}

/// The examples of the table of refusals.
fn rows() -> Vec<Row> {
    let mut number = 0;
    let mut rows = Vec::new();
    for line in page("rust/farey/refusals.txt").lines() {
        if let Some(begun) = line.split(' ').next().and_then(|word| word.parse().ok()) {
            number = begun;
        } else if let Some(shown) = line.strip_prefix("  example: ") {
            let (example, answer) = shown.split_once(": ").expect("a file and its answer");
            rows.push(Row {
                number,
                example: example.to_string(),
                answer: answer.to_string(),
            });
        }
    }
    rows
}

/// What the reference says, and what the program says.
fn answers(program: &str, text: &[u8]) -> [String; 2] {
    let reference: fn(&[u8]) -> String = match program {
        "listing" => listing,
        "query" => query,
        "import" => import,
        "import-wide" => import_wide,
        "named" => named,
        "same" => same,
        "sheet" => sheet,
        "exchange" => exchange,
        "intersection" => intersection,
        "tower" => tower,
        "cycles" => cycles,
        "to-cycles" => to_cycles,
        _ => panic!("there is no program {program}"),
    };
    // `./farey cycles` takes one line end away before the program reads the text.
    let text = match program {
        "cycles" => text.strip_suffix(b"\n").unwrap_or(text),
        _ => text,
    };
    let expected = reference(text);
    match Program::of(program) {
        Some(named) => [expected, named.output(text)],
        None => [expected.clone(), expected],
    }
}

/// What the reference says of a group by its name, and what the programs say:
/// `named`, `intersection` of its symbol with itself, and the import by a rule.
fn by_name(family: usize, n: &str, leftmost: bool) -> [String; 2] {
    let text = format!("{family} {n}\n").into_bytes();
    let (import, expected) = match leftmost {
        true => ("import", named_leftmost(&text)),
        false => ("import-wide", named_wide(&text)),
    };
    let [_, symbol] = answers("named", &text);
    if symbol.starts_with("refused ") {
        return [expected, symbol];
    }
    let [_, tables] = answers("intersection", symbol.repeat(2).as_bytes());
    let [_, answer] = answers(import, tables.as_bytes());
    [expected, answer]
}

/// The answers to the words behind the first `./farey` of a command: a program and
/// its file, perhaps behind `<`, or two files, or a group's name.
fn answers_to(words: &str) -> [String; 2] {
    let words = words.strip_prefix("./farey ").expect("./farey and words");
    let words: Vec<&str> = words.split(' ').filter(|&word| word != "<").collect();
    let families = ["gamma0", "gamma1", "gamma"];
    match words[..] {
        [program @ ("same" | "intersection"), one, other] => {
            answers(program, &[file(one), file(other)].concat())
        }
        [name, n, ref options @ ..] if families.contains(&name) => {
            let family = families.iter().position(|&family| family == name);
            assert!(options.is_empty() || options == ["--leftmost"], "{words:?}");
            by_name(family.expect("one of them"), n, !options.is_empty())
        }
        [program, path] => answers(program, &file(path)),
        _ => panic!("no program for {words:?}"),
    }
}

/// The answers to a command, perhaps with `| ./farey PROGRAM` behind it: by the
/// reference, by the programs, and by the command itself. `./farey` alone lists Γ0(2).
fn run(command: &str) -> [String; 3] {
    let whole = match command {
        "./farey" => "./farey listing examples/gamma0-2.txt",
        _ => command,
    };
    let mut stages = whole.split(" | ");
    let mut came = answers_to(stages.next().expect("there is a command"));
    for stage in stages {
        assert_eq!(came[0], came[1], "{command}");
        let program = stage.strip_prefix("./farey ").expect("./farey once more");
        came = answers(program, came[0].as_bytes());
    }
    let [reference, by_programs] = came;
    let by_script = match farey() {
        Some(_) => output_of(command),
        None => reference.clone(),
    };
    [reference, by_programs, by_script]
}

/// What a command prints, in the folder of the repository.
fn output_of(command: &str) -> String {
    let mut shell = Command::new("sh");
    shell.args(["-c", command]).current_dir(repository());
    let came = shell.output().expect("there is a shell");
    assert!(came.status.success(), "{command}");
    String::from_utf8(came.stdout).expect("an answer is text")
}

#[test]
fn files_are_shown_as_they_are() {
    let mut shown = 0;
    for block in PAGES.iter().flat_map(|path| blocks(&page(path))) {
        if let Some(path) = block.info.strip_prefix("text ") {
            assert_eq!(block.text.as_bytes(), file(path), "{path}");
            shown += 1;
        }
    }
    assert!(shown >= 3, "only {shown} files are shown");
}

/// The commands of a block, each with what it prints.
fn commands(block: &Block) -> Vec<(String, String)> {
    let mut commands: Vec<(String, String)> = Vec::new();
    for line in block.text.lines() {
        match (line.strip_prefix("$ "), commands.last_mut()) {
            (Some(command), _) => commands.push((command.to_string(), String::new())),
            (None, Some((_, printed))) => *printed += &format!("{line}\n"),
            (None, None) => panic!("a block begins with {line:?} and not with a command"),
        }
    }
    commands
}

#[test]
fn commands_print_what_is_shown() {
    let mut programs = Vec::new();
    for path in PAGES {
        let blocks = blocks(&page(path));
        let shown: Vec<_> = blocks.iter().filter(|b| b.info == "console").collect();
        assert!(!shown.is_empty(), "{path} has no commands");
        for (command, expected) in shown.into_iter().flat_map(commands) {
            for came in run(&command) {
                assert_eq!(came, expected, "{command}");
            }
            programs.extend(command.split(' ').nth(1).map(str::to_string));
        }
    }
    for program in [
        "listing",
        "query",
        "import",
        "import-wide",
        "gamma0",
        "gamma1",
        "gamma",
        "same",
        "sheet",
        "exchange",
        "intersection",
        "tower",
        "cycles",
        "to-cycles",
    ] {
        assert!(
            programs.iter().any(|name| name == program),
            "no example of {program}"
        );
    }
}

/// Each refusal but 18, which no symbol has, has an example, and the handbook
/// shows it.
#[test]
fn refusals_have_examples() {
    let page = handbook();
    let rows = rows();
    let numbers: Vec<u32> = rows.iter().map(|row| row.number).collect();
    assert_eq!(numbers, (1..18).chain(19..28).collect::<Vec<u32>>());
    for row in rows {
        for part in [row.example, row.answer] {
            assert!(page.contains(&format!("`{part}`")), "{part}");
        }
    }
}

#[test]
fn refusals_are_met() {
    for row in rows() {
        let (_, kind) = row.example.rsplit_once('.').expect("a file's name");
        // `./farey draw` is run by the Python tests.
        if kind == "drawing" {
            continue;
        }
        let program = match kind {
            "txt" => "listing",
            "query" => "query",
            "pair" => "import",
            "group" => "named",
            "exchange" => "exchange",
            "intersection" => "intersection",
            "tower" => "tower",
            "cycles" => "cycles",
            _ => panic!("{}: no program reads this", row.example),
        };
        assert!(
            row.answer.contains(&format!("refused {} ", row.number)),
            "{}",
            row.answer
        );
        for came in answers(program, &file(&row.example)) {
            let found = came.lines().any(|line| line == row.answer);
            assert!(found, "{}: no line {}", row.example, row.answer);
            // 17 is about its own line alone; any other refusal is all there is.
            assert_eq!(
                came.lines().count() == 1,
                row.number != 17,
                "{}",
                row.example
            );
        }
    }
}

//! What the contract of an exported call promises of the spaces that it is lent, and
//! that what is exported (the crate `engine_c`) has the contracts of the engine.
//!
//! A contract `Call (plan ..) number place` (the crate `call`) promises of a lent space
//! what a step of the plan says of it. Of a space that the plan isn't handed, or that
//! no step is about, it would promise nothing, and the prover wouldn't mind. So each
//! `&mut` parameter but `place` must be an argument of the plan, which must hand it on,
//! through other definitions or not, to a step of the frame (`work`, `stores`, ..).

mod child;

use std::collections::BTreeMap;
use std::fs;
use std::path::Path;

use child::repository;

/// A part of an expression: a name, or what stands in parentheses or braces.
enum Part {
    Name(String),
    /// `.entry`: a part of the value before it
    Field(String),
    /// what joins applications: an operator, or a word such as `in`
    Join,
    Inside(Vec<Part>),
}

/// The parts of an expression.
fn parts(text: &str) -> Vec<Part> {
    let mut open = vec![Vec::new()];
    let mut rest = text;
    while let Some(c) = rest.chars().next() {
        let name = |c: char| c.is_alphanumeric() || "'-_·".contains(c);
        let mut end = c.len_utf8();
        match c {
            '(' | '{' | '[' => open.push(Vec::new()),
            ')' | '}' | ']' if open.len() > 1 => {
                let closed = open.pop().expect("an open one");
                open.last_mut().expect("a list").push(Part::Inside(closed));
            }
            _ if c.is_whitespace() => {}
            _ => {
                let same =
                    |d: char| name(d) == name(c) && !d.is_whitespace() && !"(){}[]".contains(d);
                let field = c == '.' && rest[1..].starts_with(name);
                let from = if field { 1 } else { 0 };
                let word = &rest[from..];
                let stop = word.find(|d| if field { !name(d) } else { !same(d) });
                let word = &word[..stop.unwrap_or(word.len())];
                end = from + word.len();
                open.last_mut().expect("a list").push(match word {
                    _ if field => Part::Field(word.to_string()),
                    "let" | "in" | "record" | "λ" => Part::Join,
                    _ if name(c) => Part::Name(word.to_string()),
                    _ => Part::Join,
                });
            }
        }
        rest = &rest[end..];
    }
    open.into_iter().flatten().collect()
}

/// The applications in which a name is an argument as it is, and not by a field: the
/// head, which argument it is from the left, and how many there are.
fn uses(parts: &[Part], name: &str, found: &mut Vec<(String, usize, usize)>) {
    for application in parts.split(|part| matches!(part, Part::Join)) {
        let atoms: Vec<(&Part, bool)> = application
            .iter()
            .enumerate()
            .filter(|(_, part)| !matches!(part, Part::Field(_)))
            .map(|(k, part)| (part, matches!(application.get(k + 1), Some(Part::Field(_)))))
            .collect();
        for (at, (part, by_field)) in atoms.iter().enumerate() {
            match (part, &atoms[0].0) {
                (Part::Inside(inner), _) => uses(inner, name, found),
                (Part::Name(own), Part::Name(head)) if at > 0 && own == name && !by_field => {
                    found.push((head.clone(), at - 1, atoms.len() - 1))
                }
                _ => {}
            }
        }
    }
}

/// A part of an application, with the fields that are taken of it.
type WithFields<'a> = (&'a Part, Vec<&'a str>);

/// Whether a part is `name.field.now`.
fn holds((part, fields): &WithFields, name: &str, field: &str) -> bool {
    matches!(part, Part::Name(own) if own == name) && fields[..] == [field, "now"]
}

/// The applications of which two neighbouring arguments are what a space holds at entry
/// and at exit: the head, which argument the first is, and how many there are.
fn both_ends(parts: &[Part], name: &str, found: &mut Vec<(String, usize, usize)>) {
    for application in parts.split(|part| matches!(part, Part::Join)) {
        let mut atoms: Vec<WithFields> = Vec::new();
        for part in application {
            match (part, atoms.last_mut()) {
                (Part::Field(field), Some((_, fields))) => fields.push(field),
                (Part::Inside(inner), _) => {
                    both_ends(inner, name, found);
                    atoms.push((part, Vec::new()));
                }
                _ => atoms.push((part, Vec::new())),
            }
        }
        for (at, ends) in atoms.windows(2).enumerate().skip(1) {
            if holds(&ends[0], name, "entry") && holds(&ends[1], name, "exit") {
                if let Part::Name(head) = atoms[0].0 {
                    found.push((head.clone(), at - 1, atoms.len() - 1));
                }
            }
        }
    }
}

/// Whether each equation of a definition has a step from its argument `at` to the next
/// one: `Clears w w'`, or `Gives x w w'`.
fn goes_from_to(specs: &Specs, name: &str, at: usize, of: usize) -> bool {
    let equations = defined(&specs.all, name);
    !equations.is_empty()
        && equations.iter().all(|(names, body)| {
            let ends = || format!("{} {}", names[at], names[at + 1]);
            names.len() == of
                && (body.contains(&format!("Clears {}", ends()))
                    || (body.contains("Gives ") && body.contains(&format!(" {} ", ends()))))
        })
}

/// Whether some step is about an argument of a definition: the definition hands it to
/// one of the steps of the frame, or to another definition of which that is so; or both
/// its ends to a definition whose steps go from the one to the other.
fn is_stepped(specs: &Specs, name: &str, at: usize, of: usize, deep: usize) -> bool {
    assert!(deep < 20, "{name}: definitions without an end");
    if specs.frame.contains(&format!("\nabbrev pub {name} :")) {
        return true;
    }
    let equations = defined(&specs.all, name);
    // The parameters of a module come before those of a definition in it.
    let met = equations.iter().filter(|(names, _)| names.len() <= of);
    let mut some = false;
    for (names, body) in met {
        let Some(own) = (at + names.len()).checked_sub(of).map(|at| &names[at]) else {
            return false;
        };
        let mut found = Vec::new();
        uses(&parts(body), own, &mut found);
        let mut ends = Vec::new();
        both_ends(&parts(body), own, &mut ends);
        if !found
            .iter()
            .any(|(head, at, of)| is_stepped(specs, head, *at, *of, deep + 1))
            && !ends
                .iter()
                .any(|(head, at, of)| goes_from_to(specs, head, *at, *of))
        {
            return false;
        }
        some = true;
    }
    some
}

/// What stands in the parentheses that open at the front of a text.
fn inside(text: &str) -> &str {
    let mut depth = 0;
    for (at, c) in text.char_indices() {
        match c {
            '(' => depth += 1,
            ')' => depth -= 1,
            _ => {}
        }
        if depth == 0 {
            return &text[1..at];
        }
    }
    panic!("parentheses that don't close: {text}");
}

/// The arguments of an application, with its head.
fn arguments(text: &str) -> Vec<String> {
    let mut parts = vec![String::new()];
    let mut depth = 0;
    for c in text.chars() {
        match c {
            '(' => depth += 1,
            ')' => depth -= 1,
            _ => {}
        }
        match c.is_whitespace() && depth == 0 {
            true => parts.push(String::new()),
            false => parts.last_mut().expect("a part").push(c),
        }
    }
    parts.retain(|part| !part.is_empty());
    parts
}

/// An exported function: its name, the names of its `&mut` parameters but `place`,
/// and the plan of its contract, if it has one.
struct Exported {
    name: String,
    lent: Vec<String>,
    plan: Option<Vec<String>>,
}

fn exported(source: &str) -> Vec<Exported> {
    let behind = source.split("pub extern \"C\" fn ").skip(1);
    behind
        .map(|text| {
            let at = text.find('(').expect("parameters");
            let parameters = inside(&text[at..]);
            let (contract, _) = text.split_once("\n{").expect("a body");
            let lent = parameters
                .split(',')
                .filter_map(|parameter| parameter.trim().split_once(": &mut "))
                .map(|(name, _)| name.to_string())
                .filter(|name| name != "place")
                .collect();
            let plan = contract
                .find("Call (")
                .map(|at| arguments(inside(&contract[at + "Call ".len()..])));
            Exported {
                name: text[..at].to_string(),
                lent,
                plan,
            }
        })
        .collect()
}

/// The definitions: those of the crate `call`, and all.
struct Specs {
    frame: String,
    all: String,
}

/// The equations of a definition: its arguments, and its steps, which is what stands
/// behind `steps =` up to the count, or all of it where it is no record.
fn defined(specs: &str, name: &str) -> Vec<(Vec<String>, String)> {
    let begin = format!("{name} ");
    let begins = |line: &str| line.trim_start().starts_with(&begin) && !line.contains(" : ");
    let Some(block) = specs.split("\n\n").find(|block| block.lines().any(begins)) else {
        return Vec::new();
    };
    let mut equations: Vec<String> = Vec::new();
    for line in block.lines() {
        match equations.last_mut() {
            _ if begins(line) => equations.push(line.to_string()),
            Some(equation) => *equation += &format!("\n{line}"),
            None => {}
        }
    }
    let parsed = equations.iter().filter_map(|equation| {
        let (front, body) = equation.split_once('=')?;
        let body = match body.split_once("steps =") {
            Some((_, steps)) => steps.split("count =").next().unwrap_or(steps),
            None => body,
        };
        Some((arguments(front)[1..].to_vec(), body.to_string()))
    });
    parsed.collect()
}

/// What is wrong with the contract of a function, by the definitions of plans.
fn faults(function: &Exported, specs: &Specs) -> Vec<String> {
    let Some(plan) = &function.plan else {
        return Vec::new();
    };
    let (name, given) = (&plan[0], &plan[1..]);
    let Some((names, _)) = defined(&specs.all, name).pop() else {
        return vec![format!("{}: there is no plan {name}", function.name)];
    };
    if given.len() != names.len() {
        return vec![format!("{}: {name} takes other arguments", function.name)];
    }
    let mut found = Vec::new();
    for lent in &function.lent {
        match given.iter().position(|argument| argument == lent) {
            None => found.push(format!(
                "{}: {lent} isn't handed to the plan",
                function.name
            )),
            Some(at) if !is_stepped(specs, name, at, given.len(), 0) => found.push(format!(
                "{}: no step of {name} is about {}",
                function.name, names[at]
            )),
            Some(_) => {}
        }
    }
    found
}

fn sources(folder: &Path, end: &str) -> String {
    let mut files: Vec<_> = fs::read_dir(folder)
        .unwrap_or_else(|e| panic!("{}: {e}", folder.display()))
        .map(|entry| entry.expect("the folder can be read").path())
        .filter(|path| path.extension().is_some_and(|extension| extension == end))
        .collect();
    files.sort();
    let texts = files
        .iter()
        .map(|path| fs::read_to_string(path).expect("the file can be read"));
    texts.collect::<Vec<_>>().join("\n\n")
}

/// Of each function `farey_..` all that stands before its body, by its name:
/// parameters, result and clauses.
fn heads(source: &str) -> BTreeMap<String, String> {
    let behind = source.split("fn farey_").skip(1);
    behind
        .map(|text| {
            let (head, _) = text.split_once("\n{").expect("a body");
            let (name, _) = head.split_once('(').expect("parameters");
            let words: Vec<&str> = head.split_whitespace().collect();
            (name.to_string(), words.join(" "))
        })
        .collect()
}

#[test]
fn exports_have_the_contracts_of_the_engine() {
    let of = |name: &str| heads(&sources(&repository().join("crates").join(name), "rt"));
    let (engine, exports) = (of("engine/src"), of("engine_c/src"));
    assert!(exports.len() >= 31, "only {}", exports.len());
    assert_eq!(exports, engine);
}

#[test]
fn plans_name_each_lent_space() {
    let crates = repository().join("crates");
    let functions = exported(&sources(&crates.join("engine_c/src"), "rt"));
    assert!(functions.len() >= 31, "only {}", functions.len());
    let mut all = String::new();
    for entry in fs::read_dir(&crates).expect("the crates") {
        let folder = entry.expect("the folder can be read").path().join("specs");
        if folder.is_dir() {
            all += &sources(&folder, "antt");
            all += "\n\n";
        }
    }
    let frame = sources(&crates.join("call/specs"), "antt");
    let specs = Specs { frame, all };
    let wrong: Vec<String> = functions.iter().flat_map(|f| faults(f, &specs)).collect();
    assert_eq!(wrong, Vec::<String>::new());
    let planned = functions.iter().filter(|f| f.plan.is_some()).count();
    println!("{planned} of {} contracts are plans", functions.len());
    assert!(planned >= 30);
}

/// Contracts that promise nothing of a space are found.
#[test]
fn a_space_that_is_left_out_is_found() {
    let function = |contract: &str| {
        let parameters = "    w: &mut [u16],\n    s: &mut [u32],\n    place: &mut usize,\n";
        let text = format!("pub extern \"C\" fn farey_x(\n    v: usize,\n{parameters}) -> u64\n");
        let text = text + &format!("    ensures {{ {contract} result place.new }}\n{{\n}}\n");
        exported(&text).pop().expect("a function")
    };
    let plan = |steps: &str| {
        let frame = "-- the frame\nabbrev pub work : Lent → List Step\nwork w = w\n\nabbrev pub stores : List ℕ → Lent → List Step\n";
        let own = "x_call v w s = record {\n  steps = ";
        let all = format!("{own}{steps};\n  count = v;\n}}\n\nwritten v o = stores (table_s v) o\n\ndropped v o = asks (few v)\n");
        let frame = frame.to_string();
        Specs { frame, all }
    };
    for steps in [
        "work w ++ stores (table_s v) s",
        "stores (table_s w.entry.now) s ++ work w",
        "work w ++ (asks (few v) ++ written v s)",
    ] {
        assert_eq!(
            faults(&function("Call (x_call v w s)"), &plan(steps)),
            [""; 0]
        );
    }
    let good = "work w ++ stores (table_s v) s";
    let about = "farey_x: no step of x_call is about s";
    for (contract, steps, said) in [
        (
            "Call (x_call v w s.old)",
            good,
            "farey_x: s isn't handed to the plan",
        ),
        (
            "Call (x_call v w v)",
            good,
            "farey_x: s isn't handed to the plan",
        ),
        (
            "Call (y_call v w s)",
            good,
            "farey_x: there is no plan y_call",
        ),
        (
            "Call (x_call v w)",
            good,
            "farey_x: x_call takes other arguments",
        ),
        ("Call (x_call v w s)", "work w", about),
        (
            "Call (x_call v w s)",
            "work w ++ asks (length_check v (length s.entry.now))",
            about,
        ),
        (
            "Call (x_call v w s)",
            "work w ++ stores s.entry.now w",
            about,
        ),
        ("Call (x_call v w s)", "work w ++ dropped v s", about),
    ] {
        assert_eq!(faults(&function(contract), &plan(steps)), [said]);
    }
    // A contract of clauses is not of this form.
    assert!(function("Other (x_call v w)").plan.is_none());
}

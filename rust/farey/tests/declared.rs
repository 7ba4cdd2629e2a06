//! The lines of `calls` and `cycles` that declare the engine's functions say of each
//! what `include/farey.h` says.

use std::collections::BTreeMap;
use std::path::Path;

/// C's name of a type.
fn in_c(kind: &str) -> &'static str {
    match kind {
        "usize" => "size_t",
        "u8" => "uint8_t",
        "u16" => "uint16_t",
        "u32" => "uint32_t",
        "u64" => "uint64_t",
        "i16" => "int16_t",
        "i64" => "int64_t",
        "f64" => "double",
        _ => panic!("no type of the header: {kind}"),
    }
}

/// The parameter of C that a parameter is: of a slice its pointer and its length.
fn parameter(text: &str) -> String {
    let (name, kind) = text.split_once(": ").expect("a name and a type");
    let (lent, front) = match (kind.strip_prefix("&mut "), kind.strip_prefix('&')) {
        (Some(kind), _) => (kind, ""),
        (None, Some(kind)) => (kind, "const "),
        (None, None) => return format!("{} {name}", in_c(kind)),
    };
    let inside = lent
        .strip_prefix('[')
        .and_then(|kind| kind.strip_suffix(']'));
    match inside.map(|kind| {
        kind.split_once("; ")
            .map_or((kind, true), |(kind, _)| (kind, false))
    }) {
        Some((kind, true)) => format!("{front}{} *{name}, size_t {name}_len", in_c(kind)),
        Some((kind, false)) => format!("{front}{} *{name}", in_c(kind)),
        None => format!("{front}{} *{name}", in_c(lent)),
    }
}

/// Text with one blank where there were more, or ends of lines.
fn plain(text: &str) -> String {
    text.split_whitespace().collect::<Vec<_>>().join(" ")
}

/// What stands between parentheses behind each name that begins with `farey_` and
/// stands behind `before`.
fn between<'a>(text: &'a str, before: &str) -> Vec<(&'a str, &'a str)> {
    let behind = text.split(before).skip(1);
    behind
        .filter(|part| part.starts_with("farey_"))
        .map(|part| {
            let (name, rest) = part.split_once('(').expect("parameters");
            (name, rest.split_once(')').expect("their end").0)
        })
        .collect()
}

#[test]
fn as_the_header_declares_them() {
    let here = std::env::var("CARGO_MANIFEST_DIR").expect("cargo runs the tests");
    let header = Path::new(&here).join("../../include/farey.h");
    let header = std::fs::read_to_string(header).expect("the header");
    let declared: BTreeMap<String, String> = between(&header, "\nuint64_t ")
        .into_iter()
        .map(|(name, parameters)| (name.to_string(), plain(parameters)))
        .collect();
    let sources = [
        include_str!("../src/calls.rs"),
        include_str!("../src/cycles.rs"),
    ];
    let mut found = BTreeMap::from([("farey_version".to_string(), "void".to_string())]);
    for source in sources {
        let (lines, _) = source.split_once("#[cfg(test)]").unwrap_or((source, ""));
        for (name, parameters) in between(lines, " = ") {
            let parameters = plain(parameters);
            let mut in_c: Vec<String> = parameters.split(", ").map(parameter).collect();
            in_c.push("size_t *place".to_string());
            let before = found.insert(name.to_string(), in_c.join(", "));
            assert_eq!(before, None, "{name} twice");
        }
    }
    assert_eq!(found, declared);
    assert!(found.len() >= 31, "only {} functions", found.len());
}

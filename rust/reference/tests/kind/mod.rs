//! The examples of one program: every input has its output beside it.

// Each test file that takes this module in uses a part of it.
#![allow(dead_code)]

use std::collections::BTreeSet;
use std::fs;
use std::path::PathBuf;

use crate::child::{repository, Program};

/// One program's examples.
pub struct Kind {
    pub folder: &'static str,
    pub input: &'static str,
    pub output: &'static str,
    pub reference: fn(&[u8]) -> String,
    /// How many there are at least.
    pub least: usize,
}

pub struct Example {
    pub name: String,
    pub text: Vec<u8>,
    pub expected: String,
}

/// The names of the files in a folder that end this way.
fn names(folder: &PathBuf, extension: &str) -> BTreeSet<String> {
    let files = fs::read_dir(folder).unwrap_or_else(|e| panic!("{}: {e}", folder.display()));
    files
        .map(|file| file.expect("the folder can be read").path())
        .filter(|path| path.extension().is_some_and(|end| end == extension))
        .map(|path| {
            let stem = path.file_stem().expect("a file has a name");
            stem.to_str().expect("names are plain").to_string()
        })
        .collect()
}

impl Kind {
    /// All examples; an input without its output, or the other way round, is a
    /// failure.
    pub fn examples(&self) -> Vec<Example> {
        let folder = repository().join(self.folder);
        let inputs = names(&folder, self.input);
        assert_eq!(inputs, names(&folder, self.output), "{}", self.folder);
        assert!(inputs.len() >= self.least, "{}", self.folder);
        let read = |name: &str, extension: &str| {
            let path = folder.join(format!("{name}.{extension}"));
            fs::read(&path).unwrap_or_else(|e| panic!("{}: {e}", path.display()))
        };
        inputs
            .into_iter()
            .map(|name| Example {
                text: read(&name, self.input),
                expected: String::from_utf8(read(&name, self.output)).expect("plain text"),
                name,
            })
            .collect()
    }

    pub fn by_the_reference(&self) {
        for Example {
            name,
            text,
            expected,
        } in self.examples()
        {
            assert_eq!((self.reference)(&text), expected, "{name}");
        }
    }

    /// By the program or the job of this name.
    pub fn by_the_program(&self, name: &str) {
        let Some(program) = Program::of(name) else {
            return;
        };
        for example in self.examples() {
            program.must_print(&example.text, &example.expected);
        }
    }

    pub fn expected(&self, name: &str) -> String {
        let example = self.examples().into_iter().find(|one| one.name == name);
        example
            .unwrap_or_else(|| panic!("no example {name}"))
            .expected
    }
}

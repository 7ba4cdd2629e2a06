//! When it proves, and what it says meanwhile.

use super::*;

#[test]
fn proves_once_and_says_how_far_it_is() {
    let folder = Folder::new("once");
    let first = folder.run(&["listing"]);
    assert_eq!(text(&first.stdout), "first\n");
    must_say(
        &text(&first.stderr),
        &[
            "farey: proved low, 1 of 2\n",
            "farey: proved listing, 2 of 2\n",
        ],
    );
    // Once to prove, and once to see that nothing is left to prove.
    assert_eq!((folder.proofs(), folder.asked()), (1, 2));
    let again = folder.run(&["listing"]);
    assert_eq!(text(&again.stdout), "first\n");
    assert_eq!(text(&again.stderr), "");
    assert_eq!((folder.proofs(), folder.asked()), (1, 2));
}

/// A crate is named before its proof has ended.
#[test]
fn says_what_is_next() {
    let folder = Folder::new("next");
    folder.put("slow", "");
    let came = folder.run(&["listing"]);
    assert_eq!(text(&came.stdout), "first\n");
    must_say(
        &text(&came.stderr),
        &[
            "farey: listing is made of 2 crates;",
            "farey: 0 of 2 are done, next: low\n",
            "farey: proved low, 1 of 2\n",
            "farey: 1 of 2 are done, next: listing\n",
            "farey: proved listing, 2 of 2\n",
        ],
    );
}

/// All of these are there, in this order.
fn must_say(said: &str, parts: &[&str]) {
    let mut rest = said;
    for part in parts {
        let Some((_, behind)) = rest.split_once(part) else {
            panic!("{part:?} isn't in its place in {said:?}");
        };
        rest = behind;
    }
}

#[test]
fn two_at_once_prove_once() {
    let folder = Folder::new("twice");
    let both = [(); 2].map(|()| folder.command(&["listing"]).spawn().expect("it starts"));
    for child in both {
        let came = child.wait_with_output().expect("it ends");
        assert_eq!(text(&came.stdout), "first\n", "{}", text(&came.stderr));
        assert!(came.status.success());
    }
    assert_eq!(folder.proofs(), 1);
}

#[test]
fn two_in_a_pipe_prove_one_after_the_other() {
    let folder = Folder::new("pipe");
    let mut first = folder.command(&["query"]).spawn().expect("it starts");
    let between = first.stdout.take().expect("stdout is piped");
    let second = folder.command(&["listing"]).stdin(between).output();
    let second = second.expect("it starts");
    let first = first.wait_with_output().expect("it ends");
    assert!(first.status.success(), "{}", text(&first.stderr));
    assert!(second.status.success(), "{}", text(&second.stderr));
    assert_eq!(text(&second.stdout), "first\n");
    assert_eq!(folder.proofs(), 2);
}

#[test]
fn an_edit_during_the_proof_is_proved() {
    let folder = Folder::new("edit");
    folder.put("edit", "second");
    let came = folder.run(&["listing"]);
    assert_eq!(text(&came.stdout), "second\n", "{}", text(&came.stderr));
    assert_eq!(folder.proofs(), 2);
    assert_eq!(text(&folder.run(&["listing"]).stdout), "second\n");
    assert_eq!(folder.proofs(), 2);
}

/// The sources are the same before and after the proof, and what was proved are
/// others.
#[test]
fn an_edit_that_is_edited_back_is_not_taken_for_the_source() {
    let folder = Folder::new("back");
    folder.put("brief", "brief");
    let came = folder.run(&["listing"]);
    assert_eq!(text(&came.stdout), "first\n", "{}", text(&came.stderr));
    assert!(text(&came.stderr).contains("farey: the sources were edited"));
    assert_eq!(folder.proofs(), 2);
    assert_eq!(text(&folder.run(&["listing"]).stdout), "first\n");
    assert_eq!(folder.proofs(), 2);
}

#[test]
fn sources_that_never_stay_have_no_answer() {
    let folder = Folder::new("edits");
    folder.put("edits", "second\nthird\nfourth\nfifth\n");
    let came = folder.run(&["listing"]);
    assert_eq!(text(&came.stdout), "");
    assert_eq!(came.status.code(), Some(1));
    let said = text(&came.stderr);
    assert!(
        said.contains("farey: the sources don't stay as they are"),
        "{said}"
    );
    assert_eq!(folder.proofs(), 3);
}

#[test]
fn only_what_is_edited_is_proved_again() {
    let folder = Folder::new("later");
    folder.run(&["listing"]);
    // Another time and the same contents.
    thread::sleep(Duration::from_millis(20));
    folder.put("crates/low/src/lib.rt", "first");
    assert_eq!(text(&folder.run(&["listing"]).stdout), "first\n");
    assert_eq!(folder.proofs(), 1);
    folder.put("crates/low/src/lib.rt", "second");
    assert_eq!(text(&folder.run(&["listing"]).stdout), "second\n");
    assert_eq!(folder.proofs(), 2);
}

/// `sha256sum` with a note of each time that it runs, in `sums`.
fn note_sums(folder: &Folder) {
    let found = Command::new("sh")
        .args(["-c", "command -v sha256sum"])
        .output();
    let real = text(&found.expect("there is a shell").stdout);
    let noted = folder.at("sums");
    let script = format!(
        "#!/bin/sh\necho once >> '{}'\nexec {} \"$@\"\n",
        noted.display(),
        real.trim_end()
    );
    folder.put("bin/sha256sum", &script);
    let runnable = fs::Permissions::from_mode(0o755);
    fs::set_permissions(folder.at("bin/sha256sum"), runnable).expect("it can be made a program");
}

/// Once contents were compared, and nothing is younger than two seconds, sizes and
/// times tell that all is as it was: nothing is read.
#[test]
fn contents_are_read_once() {
    let folder = Folder::new("seen");
    note_sums(&folder);
    folder.run(&["listing"]);
    thread::sleep(Duration::from_millis(2_300));
    folder.run(&["listing"]);
    let sums = folder.lines("sums");
    assert!(sums > 0);
    for _ in 0..3 {
        assert_eq!(text(&folder.run(&["listing"]).stdout), "first\n");
    }
    assert_eq!(folder.lines("sums"), sums);
    // A file more, though an empty one, is seen.
    folder.put("crates/low/src/more.rt", "");
    folder.run(&["listing"]);
    assert!(folder.lines("sums") > sums);
    assert_eq!(folder.proofs(), 1);
}

/// Puts another text of the same length in the place of the source, with the old
/// time of its last edit: the time at which its status changed is another one.
fn edit_unnoticed(folder: &Folder, text: &str) {
    let source = folder.at("crates/low/src/lib.rt");
    let old = fs::metadata(&source).expect("it is there");
    fs::write(&source, text).expect("it can be written");
    let file = fs::File::options().write(true).open(&source);
    let file = file.expect("it opens");
    file.set_modified(old.modified().expect("a time"))
        .expect("a time can be set");
    drop(file);
    let new = fs::metadata(&source).expect("it is there");
    assert_eq!(new.len(), old.len());
    assert_eq!(
        new.modified().expect("a time"),
        old.modified().expect("a time")
    );
}

/// An edit of the same length with the old time is proved: long after the last
/// proof, when what was seen then is kept, and at once after it.
#[test]
fn an_edit_with_the_old_time_is_proved() {
    for pause in [0, 2_300] {
        let folder = Folder::new(&format!("time-{pause}"));
        folder.run(&["listing"]);
        thread::sleep(Duration::from_millis(pause));
        assert_eq!(text(&folder.run(&["listing"]).stdout), "first\n");
        assert_eq!(folder.at("target/farey/seen-listing").is_file(), pause > 0);
        edit_unnoticed(&folder, "other");
        assert_eq!(text(&folder.run(&["listing"]).stdout), "other\n", "{pause}");
        assert_eq!(folder.proofs(), 2);
    }
}

/// What another word is made of may be edited: this one isn't proved for it.
#[test]
fn sources_of_another_word() {
    let folder = Folder::new("sources");
    folder.run(&["listing"]);
    fs::create_dir_all(folder.at("crates/query/src")).expect("a folder can be made");
    folder.put("crates/query/src/main.rt", "more");
    let asked = folder.asked();
    assert_eq!(text(&folder.run(&["listing"]).stdout), "first\n");
    assert_eq!(folder.asked(), asked);
}

/// The sources are as they were, and the program isn't: another one, or none.
#[test]
fn another_program_is_made_again() {
    let folder = Folder::new("other");
    folder.run(&["listing"]);
    folder.put("target/bin/listing", "#!/bin/sh\necho other\n");
    assert_eq!(text(&folder.run(&["listing"]).stdout), "first\n");
    assert_eq!(folder.proofs(), 2);
    fs::remove_file(folder.at("target/bin/listing")).expect("it can be removed");
    assert_eq!(text(&folder.run(&["listing"]).stdout), "first\n");
    assert_eq!(folder.proofs(), 3);
}

/// By a link, and by a relative path where the shell looks elsewhere too.
#[test]
fn runs_from_anywhere() {
    let folder = Folder::new("anywhere");
    let link = folder.at("bin/link");
    symlink(folder.at("farey"), &link).expect("a link can be made");
    let above = folder.0.parent().expect("a folder above");
    let name = folder.0.file_name().expect("a name").to_string_lossy();
    let lines = [
        format!("{} listing", link.display()),
        format!("{name}/farey listing"),
    ];
    for line in lines {
        let came = folder
            .with_rt("sh")
            .args(["-c", &line])
            .current_dir(above)
            .env("CDPATH", above)
            .output()
            .expect("there is a shell");
        assert_eq!(
            text(&came.stdout),
            "first\n",
            "{line}: {}",
            text(&came.stderr)
        );
    }
    assert_eq!(folder.proofs(), 1);
}

#[test]
fn without_a_proof_there_is_no_answer() {
    let folder = Folder::new("unproved");
    folder.run(&["listing"]);
    folder.put("crates/low/src/lib.rt", "wrong");
    folder.put("unproved", "");
    let came = folder.run(&["listing"]);
    assert_eq!(text(&came.stdout), "");
    assert_eq!(came.status.code(), Some(1));
    let said = text(&came.stderr);
    assert!(
        said.contains("farey: the crate low is not proved"),
        "{said}"
    );
}

//! Standard input that fails, that ends early, or that pauses.

use super::*;

#[test]
fn a_directory_as_input() {
    for subject in Subject::reading() {
        let folder = File::open(repository()).expect("a folder opens");
        let mut command = subject.command();
        command.stdin(folder).stdout(Stdio::piped());
        let came = ended(command.spawn().expect("the program starts"));
        subject.must_not_answer(&came, "a directory");
    }
}

#[test]
fn no_input() {
    for subject in Subject::reading() {
        let mut command = subject.command();
        command.stdin(Stdio::null()).stdout(Stdio::piped());
        let came = ended(
            without(&mut command, 0)
                .spawn()
                .expect("the program starts"),
        );
        subject.must_not_answer(&came, "standard input closed");
    }
}

/// A pipe that doesn't wait: it has a first piece of the text, cut anywhere, and
/// the second one doesn't come before the program has ended.
#[test]
fn a_piece_without_waiting() {
    for subject in Subject::reading() {
        for cut in subject.cuts() {
            let (reader, writer) = new_pipe();
            set_non_blocking(&reader);
            let mut writer = File::from(writer);
            let first = &subject.text[..cut];
            writer.write_all(first.as_bytes()).expect("there is room");
            let mut command = subject.command();
            command.stdin(reader).stdout(Stdio::piped());
            let came = ended(command.spawn().expect("the program starts"));
            subject.must_not_answer(&came, &format!("cut at {cut}"));
            // So long there was somebody who could have written more.
            drop(writer);
        }
    }
}

/// 65,536 bytes and no end yet: only one more read can tell that there is more.
#[test]
fn a_full_buffer_without_an_end() {
    for subject in Subject::reading() {
        let (reader, writer) = new_pipe();
        set_non_blocking(&reader);
        let mut writer = File::from(writer);
        let rest = " ".repeat(MAX_TEXT - subject.text.len());
        let text = format!("{}{rest}", subject.text);
        writer.write_all(text.as_bytes()).expect("there is room");
        let mut command = subject.command();
        command.stdin(reader).stdout(Stdio::piped());
        let came = ended(command.spawn().expect("the program starts"));
        subject.must_not_answer(&came, "a full buffer");
        drop(writer);
    }
}

/// A pipe that waits: the second piece comes when the first has been read.
#[test]
fn two_pieces_with_waiting() {
    for subject in Subject::reading() {
        let expected = (subject.reference)(subject.text.as_bytes());
        for cut in subject.cuts() {
            let (reader, writer) = new_pipe();
            let seen = reader.try_clone().expect("a descriptor can be copied");
            let mut writer = File::from(writer);
            let (first, second) = subject.text.split_at(cut);
            writer.write_all(first.as_bytes()).expect("there is room");
            let mut command = subject.command();
            command.stdin(reader).stdout(Stdio::piped());
            let child = command.spawn().expect("the program starts");
            drop(command);
            wait_until_read(&seen);
            writer.write_all(second.as_bytes()).expect("it is read");
            drop((writer, seen));
            let came = ended(child);
            let on = format!("{}, cut at {cut}", subject.called());
            assert_eq!(String::from_utf8_lossy(&came.stdout), expected, "{on}");
            assert_eq!(came.stderr, "", "{on}");
            assert!(came.status.success(), "{on}");
        }
    }
}

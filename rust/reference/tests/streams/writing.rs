//! Standard output that fails, that is full, or whose reader went away.

use super::*;

#[test]
fn no_output() {
    for subject in Subject::all() {
        let mut command = subject.command();
        command.stdout(Stdio::null());
        let came = ended(with_text(without(&mut command, 1), subject.text));
        subject.must_tell(&came, "standard output closed");
    }
}

#[test]
fn a_full_device() {
    for subject in Subject::all() {
        let full = OpenOptions::new().write(true).open("/dev/full");
        let mut command = subject.command();
        command.stdout(full.expect("/dev/full opens"));
        let came = ended(with_text(&mut command, subject.text));
        subject.must_tell(&came, "a full device");
    }
}

#[test]
fn a_reader_that_went_away() {
    for subject in Subject::all() {
        for ignored in [false, true] {
            let (reader, writer) = new_pipe();
            drop(reader);
            let mut command = subject.command();
            command.stdout(writer);
            if ignored {
                // SAFETY: `signal` may be called between fork and exec.
                unsafe {
                    command.pre_exec(|| {
                        signal(SIGPIPE, SIG_IGN);
                        Ok(())
                    })
                };
            }
            let came = ended(with_text(&mut command, subject.text));
            if ignored || !subject.by_script {
                // A program ignores the signal by itself, and so is told that the write failed.
                subject.must_tell(&came, "a reader that went away");
            } else {
                // The system ends the script, and a shell shows that as status 141.
                assert_eq!(came.status.signal(), Some(SIGPIPE), "{}", subject.called());
                assert_eq!(came.stderr, "", "{}", subject.called());
            }
        }
    }
}

/// A pipe that doesn't wait for its reader: the answer doesn't fit.
#[test]
fn a_full_pipe_without_waiting() {
    for subject in Subject::at_length() {
        let text = subject.long_text();
        let expected = (subject.reference)(text.as_bytes());
        assert!(expected.len() > SMALL as usize, "{expected}");
        let (reader, writer) = new_pipe();
        set_non_blocking(&writer);
        // SAFETY: this call touches no memory of ours.
        let room = unsafe { fcntl(writer.as_raw_fd(), F_SETPIPE_SZ, SMALL) };
        assert_eq!(room, SMALL);
        let mut command = subject.command();
        command.stdout(writer);
        let child = with_text(&mut command, &text);
        drop(command);
        let came = ended(child);
        subject.must_tell(&came, "a full pipe");
        let mut written = Vec::new();
        File::from(reader)
            .read_to_end(&mut written)
            .expect("the pipe can be read");
        assert!(written.len() < expected.len(), "{}", subject.called());
        assert!(expected.as_bytes().starts_with(&written));
    }
}

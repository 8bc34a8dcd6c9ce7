//! Runs a program under test, one process for each text.

use std::env;
use std::io::{ErrorKind, Write};
use std::path::{Path, PathBuf};
use std::process::{Child, ChildStdin, Command, Stdio};
use std::thread;

// What a pipe takes at once even where its memory is short: a text of no more is
// written before the answer is read.
const PIPE_BYTES: usize = 4_096;

/// Everything that the verdict program prints for a text on standard input.
pub fn verdict_output(text: &[u8]) -> Vec<u8> {
    output("VERDICT", "verdict", text)
}

/// Everything that `sharper` prints for a text.
pub fn sharper_output(text: &[u8]) -> Vec<u8> {
    output("SHARPER", "sharper", text)
}

/// Everything that `quote` prints for a text of ranges.
pub fn quote_output(text: &[u8]) -> Vec<u8> {
    output("QUOTE", "quote", text)
}

/// Everything that the program that prints a whole reading prints for a text.
pub fn reading_output(text: &[u8]) -> Vec<u8> {
    output("READING", "test_reading", text)
}

/// Everything that the program that replays calls prints for a script.
pub fn replay_output(text: &[u8]) -> Vec<u8> {
    output("REPLAY", "replay", text)
}

/// Everything that the program that makes one call on a machine made by hand prints
/// for a machine and a call.
pub fn probe_output(text: &[u8]) -> Vec<u8> {
    output("PROBE", "probe", text)
}

/// Everything that the program that audits a log prints for a whole input.
pub fn audit_output(text: &[u8]) -> Vec<u8> {
    output("AUDIT", "audit", text)
}

fn output(variable: &str, name: &str, text: &[u8]) -> Vec<u8> {
    let mut child = start(&path(variable, name));
    let input = child.stdin.take().expect("a piped standard input");
    let output = if text.len() <= PIPE_BYTES {
        feed(input, text);
        child.wait_with_output().expect("the program's output")
    } else {
        // Fed from a thread of its own: a program may answer while it still reads.
        thread::scope(|scope| {
            scope.spawn(|| feed(input, text));
            child.wait_with_output().expect("the program's output")
        })
    };
    // No exit status is settled: only a death by signal is a failure.
    assert!(
        output.status.code().is_some(),
        "{name} died ({}) on \"{}\"",
        output.status,
        text.escape_ascii()
    );
    output.stdout
}

/// The first line in which what is printed is not as expected.
pub fn first_difference(expected: &str, actual: &str) -> String {
    let pairs = expected.lines().zip(actual.lines());
    let same = pairs.take_while(|(one, other)| one == other).count();
    let line = |text: &str| text.lines().nth(same).unwrap_or("nothing").to_string();
    let (expected, actual) = (line(expected), line(actual));
    format!("line {}: expected {expected}, printed {actual}", same + 1)
}

/// The program that the variable names, or the built one. A relative path starts
/// from the manifest's folder.
pub fn path(variable: &str, name: &str) -> PathBuf {
    let named = env::var(variable).unwrap_or_else(|_| format!("../crates/{name}/out/{name}"));
    Path::new(env!("CARGO_MANIFEST_DIR")).join(named)
}

fn start(path: &Path) -> Child {
    Command::new(path)
        .stdin(Stdio::piped())
        .stdout(Stdio::piped())
        .spawn()
        .unwrap_or_else(|error| panic!("cannot start {}: {error}", path.display()))
}

// A program may stop reading at a bad line or after its last byte, so a closed
// pipe is no failure.
fn feed(mut input: ChildStdin, text: &[u8]) {
    if let Err(error) = input.write_all(text) {
        assert_eq!(error.kind(), ErrorKind::BrokenPipe, "{error}");
    }
}

//! Standard input that is closed, empty, endless, or comes in pieces: every
//! program answers as for the bytes that it got, and ends.

use std::io::Write;
use std::path::{Path, PathBuf};
use std::process::{Command, Stdio};
use std::thread;
use std::time::Duration;

use edzl_tests::oracle;
use edzl_tests::program::path;

const TABLE: &[u8] = b"DEADLINE PERIOD BUDGET\n4 4 1\n5 6 2\n8 10 6\n";
const RANGES: &[u8] = b"LEAST_PERIOD MOST_PERIOD LEAST_BUDGET MOST_BUDGET DEADLINE\n\
    4 8 1 2 4\n6 6 2 2 5\n8 10 5 8 8\n";

// The programs, and what each prints for an empty text and for one that is too long.
fn programs() -> [(PathBuf, Vec<u8>, Vec<u8>); 7] {
    [
        (
            path("VERDICT", "verdict"),
            b"REFUSED 2\n".to_vec(),
            b"REFUSED 1\n".to_vec(),
        ),
        (
            path("SHARPER", "sharper"),
            b"REFUSED 2\n".to_vec(),
            b"REFUSED 1\n".to_vec(),
        ),
        (
            path("QUOTE", "quote"),
            b"REFUSED 2\n".to_vec(),
            b"REFUSED 1\n".to_vec(),
        ),
        (
            path("READING", "test_reading"),
            oracle::reading_output(b"").into_bytes(),
            oracle::reading_output(&[b'y'; 5_000]).into_bytes(),
        ),
        (
            path("REPLAY", "replay"),
            b"BAD LINE 1\n".to_vec(),
            b"REFUSED 1\n".to_vec(),
        ),
        (
            path("PROBE", "probe"),
            b"BAD LINE 1\n".to_vec(),
            b"BAD LINE 1\n".to_vec(),
        ),
        (
            path("AUDIT", "audit"),
            b"BAD LINE 1\n".to_vec(),
            b"BAD LINE 1\n".to_vec(),
        ),
    ]
}

// What a program prints when the shell gives it this redirection or pipe.
fn through_shell(program: &Path, before: &str, after: &str) -> Vec<u8> {
    let line = format!("{before} \"{}\" {after}", program.display());
    let output = Command::new("sh")
        .args(["-c", &line])
        .stdin(Stdio::null())
        .output()
        .expect("a shell");
    output.stdout
}

#[test]
fn closed_input_is_an_empty_text() {
    for (program, empty, _) in programs() {
        assert_eq!(through_shell(&program, "", "<&-"), empty);
    }
}

#[test]
fn empty_input_is_an_empty_text() {
    for (program, empty, _) in programs() {
        assert_eq!(through_shell(&program, "", "</dev/null"), empty);
    }
}

#[test]
fn endless_input_is_too_long() {
    for (program, _, long) in programs() {
        assert_eq!(through_shell(&program, "yes |", ""), long);
    }
}

// A whole machine and call, and then lines without end.
#[test]
fn endless_input_after_a_call() {
    let machine = Path::new(env!("CARGO_MANIFEST_DIR")).join("../examples/probe.machine");
    let endless = format!("{{ cat \"{}\"; yes; }} |", machine.display());
    let printed = through_shell(&path("PROBE", "probe"), &endless, "");
    assert_eq!(printed, b"BAD LINE 36\n");
}

// Lines without end where a table would stand, and after a log, where they are broken, and
// after a line that offends. A program that does not end prints nothing in time.
#[test]
fn endless_input_of_an_audit() {
    let log = Path::new(env!("CARGO_MANIFEST_DIR")).join("../examples/foreign.log");
    let log = log.display();
    let endless = |start: &str, line: &str| {
        let before = format!("{{ {start}; yes \"{line}\"; }} | timeout 20");
        through_shell(&path("AUDIT", "audit"), &before, "")
    };
    assert_eq!(endless("echo CORES 2", "y"), b"REFUSED 1 0\n");
    assert_eq!(endless(&format!("cat \"{log}\""), "y"), b"REFUSED 18 7\n");
    let offending = format!("cat \"{log}\"; echo 0 0 1");
    assert_eq!(endless(&offending, "0 0 0"), b"OFFENDS 7\n");
}

// The text in pieces of this many bytes, with a pause after each.
fn in_pieces(program: &Path, text: &[u8], size: usize) -> Vec<u8> {
    let mut child = Command::new(program)
        .stdin(Stdio::piped())
        .stdout(Stdio::piped())
        .spawn()
        .expect("the program");
    let mut input = child.stdin.take().expect("a piped standard input");
    for piece in text.chunks(size) {
        input.write_all(piece).expect("an open pipe");
        input.flush().expect("an open pipe");
        thread::sleep(Duration::from_millis(2));
    }
    drop(input);
    child.wait_with_output().expect("its output").stdout
}

#[test]
fn pieces_make_one_text() {
    for size in [1, 7, 23] {
        let verdict = in_pieces(&path("VERDICT", "verdict"), TABLE, size);
        assert_eq!(verdict, oracle::verdict_output(TABLE).into_bytes());
        let sharper = in_pieces(&path("SHARPER", "sharper"), TABLE, size);
        assert_eq!(sharper, oracle::sharper_output(TABLE).into_bytes());
        let reading = in_pieces(&path("READING", "test_reading"), TABLE, size);
        assert_eq!(reading, oracle::reading_output(TABLE).into_bytes());
        let quote = in_pieces(&path("QUOTE", "quote"), RANGES, size);
        assert_eq!(quote, b"CORES ANSWER\n1 NONE\n2 SOME\n3 ALL\n");
    }
    let script = [b"CORES 2\n", TABLE, b"CALLS\nRELEASE 1 1\nSLOT 2\n"].concat();
    let replay = in_pieces(&path("REPLAY", "replay"), &script, 5);
    assert_eq!(replay, b"DONE\n1 1 0 1 1\n");
    let log = [
        b"CORES 2\n",
        TABLE,
        b"LOG\nRELEASED FINISHED RAN\n7 0 3\n0 0 6\n",
    ]
    .concat();
    for size in [1, 7, 33] {
        let audit = in_pieces(&path("AUDIT", "audit"), &log, size);
        assert_eq!(audit, b"ACCEPTED\n");
    }
    let zeros = "0 0 0 0 0 0 0 0\n".repeat(31);
    let text = format!("MACHINE 1 1\n9 2 5 1 5 2 9 0\n{zeros}NONE\nSLOT 1\n");
    let printed = format!("1 0 0 1 1\nMACHINE 1 1\n9 2 5 1 4 1 8 1\n{zeros}NONE\n");
    for size in [1, 13, 100] {
        let probe = in_pieces(&path("PROBE", "probe"), text.as_bytes(), size);
        assert_eq!(probe, printed.as_bytes());
    }
}

#[test]
fn a_long_text_in_pieces_is_too_long() {
    let text = vec![b' '; 4_097];
    let programs = [
        path("VERDICT", "verdict"),
        path("SHARPER", "sharper"),
        path("QUOTE", "quote"),
    ];
    for program in programs {
        assert_eq!(in_pieces(&program, &text, 512), b"REFUSED 1\n");
    }
}

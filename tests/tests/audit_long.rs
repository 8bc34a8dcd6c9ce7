//! Logs of any length (docs/HANDBOOK.md, "Auditing a log"): some hundred thousand lines, in
//! memory that does not grow, and lines of some megabytes that have no end.

use std::io::Write;
use std::process::{Command, Stdio};
use std::thread;

use edzl_tests::audit::audit;
use edzl_tests::log::{Line, Log};
use edzl_tests::logs::{Dispatcher, play};
use edzl_tests::program;
use edzl_tests::random::Random;
use edzl_tests::settings;
use edzl_tests::tasks::Task;

const LINES: usize = 300_000;

const LONG_LINE: usize = 5_000_000;

// Five tasks on 2 cores, released and finished all the time.
const TABLE: [Task; 5] = [
    Task::new(6, 2, 3),
    Task::new(6, 2, 3),
    Task::new(9, 4, 6),
    Task::new(14, 3, 11),
    Task::new(1_000, 20, 500),
];

const START: &[u8] = b"CORES 2\nPERIOD BUDGET DEADLINE\n6 2 3\nLOG\nRELEASED FINISHED RAN\n";

fn printed(input: &[u8]) -> String {
    String::from_utf8_lossy(&program::audit_output(input)).into_owned()
}

fn long_log() -> Log {
    let seed = settings::number("SEED", settings::SEED);
    let mut random = Random::new(seed, 1);
    play(&mut random, Dispatcher::Foreign, 2, &TABLE, LINES)
}

// The whole log; then with one line more, which offends, is broken or is not ended; then
// with a line that offends in the middle.
#[test]
fn a_log_of_many_lines() {
    let mut log = long_log();
    let whole = log.input();
    let and = |line: &[u8]| [whole.as_slice(), line].concat();
    let next = LINES + 1;
    assert_eq!(audit(&whole).to_string(), "ACCEPTED");
    assert_eq!(printed(&whole), "ACCEPTED\n");
    assert_eq!(printed(&and(b"0 0 32\n")), format!("OFFENDS {next}\n"));
    assert_eq!(printed(&and(b"0 0\n")), format!("REFUSED 18 {next}\n"));
    assert_eq!(printed(&and(b"0 0 0")), format!("REFUSED 18 {next}\n"));
    log.lines[LINES / 2] = Line::new(0, 0, 32);
    assert_eq!(
        printed(&log.input()),
        format!("OFFENDS {}\n", LINES / 2 + 1)
    );
}

// Digits, spaces and zeros without an end, in each part of an input.
#[test]
fn lines_of_megabytes() {
    for byte in [b'7', b' ', b'0'] {
        let line = vec![byte; LONG_LINE];
        let after = |text: &[u8]| printed(&[text, &line].concat());
        let log = [START, b"1 0 1\n"].concat();
        assert_eq!(after(&log), "REFUSED 18 2\n");
        assert_eq!(after(&[START, b"1 0 1\n0 0 2\n"].concat()), "OFFENDS 2\n");
        assert_eq!(after(&START[..START.len() - 1]), "REFUSED 18 0\n");
        assert_eq!(
            after(b"CORES 2\nPERIOD BUDGET DEADLINE\n6 2 3\n"),
            "REFUSED 1 0\n"
        );
        assert_eq!(after(b"CORES "), "BAD LINE 1\n");
        let ended = [&log, &line, &b"\n0 0 0\n"[..]].concat();
        assert_eq!(printed(&ended), "REFUSED 18 2\n");
    }
}

// What is printed where the program may take so many kilobytes of memory and gets the log's
// start and then so many times the lines.
fn within(kilobytes: u64, lines: &[u8], times: usize) -> String {
    let audit = program::path("AUDIT", "audit");
    let limited = format!("ulimit -v {kilobytes} && exec \"{}\"", audit.display());
    let mut child = Command::new("sh")
        .args(["-c", &limited])
        .stdin(Stdio::piped())
        .stdout(Stdio::piped())
        .spawn()
        .expect("a shell");
    let mut input = child.stdin.take().expect("a piped standard input");
    let output = thread::scope(|scope| {
        scope.spawn(move || {
            let parts = [START].into_iter().chain((0..times).map(|_| lines));
            for part in parts {
                // The program may have stopped reading.
                if input.write_all(part).is_err() {
                    break;
                }
            }
        });
        child.wait_with_output().expect("the program's output")
    });
    String::from_utf8_lossy(&output.stdout).into_owned()
}

// 48 megabytes of lines within 32 megabytes of memory, and a line as long.
#[test]
fn memory_does_not_grow() {
    let lines = b"1 0 1\n0 0 1\n0 0 0\n0 0 0\n0 0 0\n0 0 0\n".repeat(30_000);
    assert_eq!(within(32_000, &lines, 46), "ACCEPTED\n");
    let zeros = vec![b'0'; 1_000_000];
    assert_eq!(within(32_000, &zeros, 48), "REFUSED 18 1\n");
}

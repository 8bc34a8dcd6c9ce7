//! Literal inputs of an audit (document 02, change 11, and docs/HANDBOOK.md, "Auditing a
//! log"), each with the one line that it gets, by the simulated audit and by the program.

use edzl_tests::audit::{audit, follow};
use edzl_tests::program;

// Document 01, case j, on 2 cores: tasks 1 and 2 are alike, and task 3 turns urgent.
const CASE_J: &str = "CORES 2\nPERIOD BUDGET DEADLINE\n6 2 3\n6 2 3\n6 5 6\n";

// Case i's two tasks on 1 core: both are urgent at once, and one of them is late.
const CASE_I: &str = "CORES 1\nPERIOD BUDGET DEADLINE\n5 5 5\n5 5 5\n";

const NAMES: &str = "RELEASED FINISHED RAN\n";

// Lines that are not three well-formed values, without their ends.
const BROKEN: [&str; 28] = [
    "01 0 1",
    "1 00 1",
    "1 0 01",
    "10000000000 0 0",
    "00000000001 0 1",
    "0 4294967296 0",
    "0 0 4294967296",
    "9999999999 0 0",
    "0 0 18446744073709551616",
    "-1 0 0",
    "+1 0 1",
    "1 0 1 ",
    " 1 0 1",
    "1  0 1",
    "1 0  1",
    "1\t0 1",
    "1 0 1 0",
    "1 0",
    "1",
    "",
    " ",
    "  ",
    "1 0 x",
    "0x1 0 1",
    "1 0 1\r",
    "1,0,1",
    "1 0 1\0",
    "1.0 0 1",
];

fn check_input(input: &[u8], printed: &str) {
    let shown = input.escape_ascii();
    let expected = format!("{printed}\n");
    assert_eq!(format!("{}\n", audit(input)), expected, "{shown}");
    let output = program::audit_output(input);
    assert_eq!(String::from_utf8_lossy(&output), expected, "{shown}");
}

// A log without its names line, on a table and m.
fn check_on(start: &str, lines: &str, printed: &str) {
    check_input(format!("{start}LOG\n{NAMES}{lines}").as_bytes(), printed);
}

fn check(lines: &str, printed: &str) {
    check_on(CASE_J, lines, printed);
}

// A whole log, its names line too.
fn check_log(log: &str, printed: &str) {
    check_input(format!("{CASE_J}LOG\n{log}").as_bytes(), printed);
}

// In line 2 task 3 is urgent, and one of the two others runs beside it. In line 3 the other
// of them is urgent too. In line 7 all gaps are 0, in line 6 they are 1.
#[test]
fn case_j() {
    check("7 0 3\n0 0 5\n0 0 6\n0 0 4\n0 0 4\n0 0 4\n", "ACCEPTED");
    check("7 0 3\n0 0 6\n0 0 5\n0 0 4\n0 0 4\n0 0 4\n", "ACCEPTED");
    check("7 0 3\n0 0 3\n", "OFFENDS 2");
    check("7 0 5\n", "OFFENDS 1");
    check("7 0 6\n", "OFFENDS 1");
    let six = "7 0 3\n0 0 5\n0 0 6\n0 0 4\n0 0 4\n0 0 4\n";
    check(&format!("{six}7 0 3\n"), "ACCEPTED");
    check(&format!("{six}0 0 0\n0 0 0\n7 0 3\n"), "ACCEPTED");
    check(
        &six.replace("0 0 4\n0 0 4\n0 0 4", "0 0 4\n0 0 4\n1 0 5"),
        "OFFENDS 6",
    );
}

// A job that has run its C slots closes by itself: a finish of it comes too late.
#[test]
fn finished_is_no_report() {
    check("7 0 3\n0 0 5\n0 1 6\n", "OFFENDS 3");
    check("7 0 3\n0 1 5\n", "OFFENDS 2");
    check(
        "7 0 3\n0 1 6\n0 0 4\n0 0 4\n0 0 4\n0 0 4\n0 0 0\n",
        "ACCEPTED",
    );
    check("7 0 3\n0 0 5\n0 0 6\n0 0 4\n0 0 4\n0 4 4\n", "OFFENDS 6");
    check("7 0 3\n0 0 5\n0 0 6\n0 0 4\n0 0 4\n0 4 0\n", "ACCEPTED");
}

#[test]
fn so_many_run_as_must() {
    check("7 0 1\n", "OFFENDS 1");
    check("7 0 7\n", "OFFENDS 1");
    check("7 0 0\n", "OFFENDS 1");
    check("1 0 0\n", "OFFENDS 1");
    check("1 0 1\n", "ACCEPTED");
    check("1 0 3\n", "OFFENDS 1");
    check("1 0 2\n", "OFFENDS 1");
    check("0 0 1\n", "OFFENDS 1");
    check("0 0 0\n", "ACCEPTED");
    // Two of three finish: one is open, and one runs.
    check("7 3 4\n", "ACCEPTED");
    check("7 3 6\n", "OFFENDS 1");
    check("7 7 0\n", "ACCEPTED");
    check("7 7 4\n", "OFFENDS 1");
}

#[test]
fn tasks_that_the_table_lacks() {
    for lines in [
        "8 0 0\n",
        "4294967295 0 0\n",
        "0 8 0\n",
        "0 0 8\n",
        "15 0 3\n",
    ] {
        check(lines, "OFFENDS 1");
    }
    check("7 0 11\n", "OFFENDS 1");
    check("7 8 3\n", "OFFENDS 1");
    check("0 2147483648 0\n", "OFFENDS 1");
    check("0 0 2147483648\n", "OFFENDS 1");
    check("4294967296 0 0\n", "REFUSED 18 1");
}

// A finish keeps the gap, and the line of a release may finish the task.
#[test]
fn releases_and_finishes_in_one_line() {
    check("1 1 0\n1 0 0\n", "OFFENDS 2");
    check("1 1 0\n1 0 1\n", "OFFENDS 2");
    check("1 1 0\n0 1 0\n", "OFFENDS 2");
    check("1 1 1\n", "OFFENDS 1");
    let pause = "0 0 0\n".repeat(5);
    check(&format!("1 1 0\n{pause}1 1 0\n"), "ACCEPTED");
    let pause = "0 0 0\n".repeat(4);
    check(&format!("1 1 0\n{pause}1 1 0\n"), "OFFENDS 6");
    check("1 0 1\n1 0 1\n", "OFFENDS 2");
    check("0 1 0\n", "OFFENDS 1");
    // The finish of the open job comes after the release, which is refused.
    check("1 0 1\n1 1 0\n", "OFFENDS 2");
}

#[test]
fn lines_in_turn() {
    check("0 0 1\n0 0\n", "OFFENDS 1");
    check("0 0 0\n0 0\n", "REFUSED 18 2");
    check("0 0\n0 0 1\n", "REFUSED 18 1");
    check("0 0 0\n0 0 1", "REFUSED 18 2");
    check("0 0 1\n0 0 1", "OFFENDS 1");
    check("8 0 0\n4294967296 0 0\n", "OFFENDS 1");
    check("0 0 0\n0 0 0\n0 0 1\n0 0 2\n", "OFFENDS 3");
    check_log("RELEASED FINISHED\n0 0 1\n", "REFUSED 18 0");
}

#[test]
fn broken_values() {
    for line in BROKEN {
        check(&format!("{line}\n"), "REFUSED 18 1");
        check(&format!("1 0 1\n{line}\n0 0 0\n"), "REFUSED 18 2");
    }
    check("1 0 1", "REFUSED 18 1");
    check("1 0 1\n0", "REFUSED 18 2");
    check("1 0 1\n\n", "REFUSED 18 2");
    check("1 0 1\n\n0 0 1\n", "REFUSED 18 2");
    check("1 0 1\nLOG\n", "REFUSED 18 2");
    check("1 0 1\nRELEASED FINISHED RAN\n", "REFUSED 18 2");
}

#[test]
fn names_lines() {
    check_log("RELEASED FINISHED RAN\n", "ACCEPTED");
    let broken = [
        "",
        "\n",
        "RELEASED FINISHED RAN",
        "RELEASED RAN FINISHED\n",
        "FINISHED RELEASED RAN\n",
        "RAN FINISHED RELEASED\n",
        "RELEASED FINISHED RAN \n",
        " RELEASED FINISHED RAN\n",
        "RELEASED FINISHED RAN\r\n",
        "RELEASED  FINISHED RAN\n",
        "RELEASED FINISHED\n",
        "RELEASED FINISHED RAN RAN\n",
        "RELEASED RELEASED RAN\n",
        "released finished ran\n",
        "RELEASED FINISHED RAM\n",
        "\nRELEASED FINISHED RAN\n",
        "LOG\nRELEASED FINISHED RAN\n",
        "1 0 1\n",
        "R",
    ];
    for names in broken {
        check_log(names, "REFUSED 18 0");
    }
}

// Task 2 is late in line 5, closes and does not offend. Both are alike in urgency and left
// all the time, so that either may run, whatever it owes.
#[test]
fn late_jobs_close() {
    let five = "3 0 1\n0 0 1\n0 0 1\n0 0 1\n0 0 1\n";
    check_on(CASE_I, &format!("{five}3 0 2\n"), "ACCEPTED");
    check_on(CASE_I, &format!("{five}3 2 1\n"), "ACCEPTED");
    check_on(CASE_I, &format!("{five}0 2 0\n"), "OFFENDS 6");
    check_on(CASE_I, &format!("{five}0 0 2\n"), "OFFENDS 6");
    check_on(CASE_I, &format!("{five}0 0 0\n"), "ACCEPTED");
    let turns = "3 0 1\n0 0 2\n0 0 1\n0 0 2\n0 0 1\n";
    check_on(CASE_I, &format!("{turns}3 0 1\n"), "ACCEPTED");
    check_on(CASE_I, "3 0 1\n0 0 1\n0 0 1\n0 0 1\n3 0 1\n", "OFFENDS 5");
}

#[test]
fn the_late_job_of_line_5() {
    let lines = "3 0 1\n0 0 1\n0 0 1\n0 0 1\n0 0 1\n3 0 2\n";
    let mut reports = Vec::new();
    let input = format!("{CASE_I}LOG\n{NAMES}{lines}");
    follow(input.as_bytes(), |_, slot| {
        reports.push((slot.finished, slot.late))
    });
    let none = (0, 0);
    assert_eq!(reports, [none, none, none, none, (1, 2), none]);
}

// Task 1 is due first and not urgent, task 2 is due later and urgent from the line of its
// release on. With a third that is urgent and due between them, left decides among the two.
#[test]
fn urgency_and_left() {
    let table = "CORES 1\nPERIOD BUDGET DEADLINE\n9 1 3\n9 5 5\n9 4 4\n";
    check_on(table, "3 0 2\n", "ACCEPTED");
    check_on(table, "3 0 1\n", "OFFENDS 1");
    check_on(table, "7 0 4\n", "ACCEPTED");
    check_on(table, "7 0 2\n", "OFFENDS 1");
    check_on(table, "7 6 1\n", "ACCEPTED");
    // Left 2 and 4 of tasks 1 and 2, both not urgent: the first runs.
    let table = "CORES 1\nPERIOD BUDGET DEADLINE\n9 1 2\n9 1 4\n9 2 4\n";
    check_on(table, "3 0 1\n0 0 2\n", "ACCEPTED");
    check_on(table, "3 0 2\n", "OFFENDS 1");
    // Tasks 2 and 3 are alike in both: the one that owes less may run.
    check_on(table, "6 0 2\n0 0 4\n0 0 4\n", "ACCEPTED");
    check_on(table, "6 0 4\n0 0 4\n0 0 2\n", "ACCEPTED");
    check_on(table, "6 0 4\n0 0 2\n0 0 4\n", "ACCEPTED");
}

// Bits 0 to 31, the largest value, and 16 runners.
#[test]
fn thirty_two_tasks() {
    let table = format!("PERIOD BUDGET DEADLINE\n{}", "9 1 9\n".repeat(32));
    let start = format!("CORES 16\n{table}");
    check_on(
        &start,
        "4294967295 0 65535\n0 0 4294901760\n0 0 0\n",
        "ACCEPTED",
    );
    check_on(&start, "4294967295 0 4294901760\n0 0 65535\n", "ACCEPTED");
    check_on(&start, "4294967295 0 131071\n", "OFFENDS 1");
    check_on(&start, "4294967295 0 32767\n", "OFFENDS 1");
    check_on(&start, "4294967295 4294967295 0\n", "ACCEPTED");
    check_on(&start, "4294967296 0 0\n", "REFUSED 18 1");
    check_on(&start, "2147483648 0 2147483648\n0 0 0\n", "ACCEPTED");
    // The longest line that is well formed has 33 bytes.
    let longest = "4294967295 4294967295 4294967295";
    check_on(&start, &format!("{longest}\n"), "OFFENDS 1");
    check_on(&start, &format!("{longest}0\n"), "REFUSED 18 1");
    check_on(&start, longest, "REFUSED 18 1");
    let more = format!("CORES 16\n{table}9 1 9\n");
    check_on(&more, "0 0 0\n", "REFUSED 3 33");
}

//! The tables, ranges, scripts, machines and logs of `examples/`. Every expected output is
//! a literal.

use std::fs;
use std::path::Path;

use edzl_tests::program;

fn example(name: &str) -> Vec<u8> {
    let path = Path::new(env!("CARGO_MANIFEST_DIR")).join("../examples");
    fs::read(path.join(name)).expect(name)
}

fn check_table(name: &str, printed: &str) {
    let output = program::verdict_output(&example(name));
    assert_eq!(String::from_utf8_lossy(&output), printed, "{name}");
}

fn check_sharper(name: &str, printed: &str) {
    let output = program::sharper_output(&example(name));
    assert_eq!(String::from_utf8_lossy(&output), printed, "{name}");
}

fn check_ranges(name: &str, printed: &str) {
    let output = program::quote_output(&example(name));
    assert_eq!(String::from_utf8_lossy(&output), printed, "{name}");
}

fn check_script(name: &str, printed: &str) {
    let output = program::replay_output(&example(name));
    assert_eq!(String::from_utf8_lossy(&output), printed, "{name}");
}

fn check_machine(name: &str, printed: &str) {
    let output = program::probe_output(&example(name));
    assert_eq!(String::from_utf8_lossy(&output), printed, "{name}");
}

fn check_log(name: &str, printed: &str) {
    let output = program::audit_output(&example(name));
    assert_eq!(String::from_utf8_lossy(&output), printed, "{name}");
}

#[test]
fn tables() {
    check_table("example.table", "CORES COUNT ADMIT\n1 3 0\n2 1 1\n3 0 1\n");
    check_table(
        "three_tasks.table",
        "CORES COUNT ADMIT\n1 3 0\n2 3 0\n3 0 1\n",
    );
    check_table("one_task.table", "CORES COUNT ADMIT\n1 1 1\n");
    check_table("leading_zero.table", "REFUSED 4\n");
    check_table(
        "four_tasks.table",
        "CORES COUNT ADMIT\n1 4 0\n2 3 0\n3 2 1\n4 0 1\n",
    );
    check_table(
        "rounds.table",
        "CORES COUNT ADMIT\n1 3 0\n2 2 1\n3 1 1\n4 1 1\n",
    );
}

// The same tables by the slack test, which admits the four tasks on 2 cores too.
#[test]
fn tables_by_the_slack_test() {
    check_sharper("example.table", "CORES ROUNDS ADMIT\n1 1 0\n2 2 1\n3 2 1\n");
    check_sharper(
        "three_tasks.table",
        "CORES ROUNDS ADMIT\n1 1 0\n2 1 0\n3 2 1\n",
    );
    check_sharper("one_task.table", "CORES ROUNDS ADMIT\n1 1 1\n");
    check_sharper("leading_zero.table", "REFUSED 4\n");
    check_sharper(
        "four_tasks.table",
        "CORES ROUNDS ADMIT\n1 1 0\n2 3 1\n3 3 1\n4 2 1\n",
    );
    check_sharper(
        "rounds.table",
        "CORES ROUNDS ADMIT\n1 64 0\n2 3 1\n3 3 1\n4 3 1\n",
    );
}

#[test]
fn ranges() {
    check_ranges("early.ranges", "CORES ANSWER\n1 NONE\n2 SOME\n3 ALL\n");
}

#[test]
fn scripts() {
    check_script(
        "calls.replay",
        "DONE\nDONE\nDONE\n7 1 0 3 1 2 3\nREFUSED 9\nDONE\nDONE\nDONE\nDONE\nREFUSED 14\n12 8 0 2 3 1\nREFUSED 5\nREFUSED 17\n4 4 0 1 3\n",
    );
    check_script(
        "case_j.replay",
        "DONE\nDONE\nDONE\n3 0 0 2 1 2\n5 1 0 2 1 2\n6 2 0 2 1 2\n4 0 0 1 2\n4 0 0 1 2\n4 4 0 1 2\n",
    );
    check_script(
        "offers.replay",
        "DONE\nDONE\nREFUSED 13\nDONE\nDONE\nDONE\nDONE\n3 3 0 2 1 2\n12 4 0 2 1 2\nDONE\nDONE\n3 3 0 2 1 2\n8 0 0 1 1\nDONE\nDONE\n3 3 0 2 1 2\n8 8 0 1 1\nDONE\nDONE\n",
    );
    check_script(
        "needs.replay",
        "DONE\nDONE\n1 1 0 1 1\n2 2 0 1 1\n0 0 0 0\n0 0 0 0\n0 0 0 0\n0 0 0 0\n0 0 0 0\n0 0 0 0\n0 0 0 0\nDONE\nDONE\n2 0 0 1 1\n2 0 0 1 1\n1 1 0 1 1\n2 0 0 1 1\n2 0 2 1 1\n",
    );
    check_script(
        "refusals.replay",
        "REFUSED 8\nREFUSED 8\nREFUSED 15\nREFUSED 15\nREFUSED 11\nDONE\nREFUSED 15\nREFUSED 9\nDONE\nREFUSED 11\nREFUSED 9\nREFUSED 5\nREFUSED 13\nREFUSED 17\nREFUSED 14\nREFUSED 14\n0 0 0 0\n",
    );
    check_script(
        "ties.replay",
        "DONE\nDONE\n2 0 0 1 1\n2 0 0 1 1\n1 1 0 1 1\n2 2 0 1 1\n",
    );
}

// An open job whose gap is below its left: the machine is unsound, and as it was.
#[test]
fn machines() {
    let zeros = "0 0 0 0 0 0 0 0\n".repeat(31);
    check_machine(
        "probe.machine",
        &format!("REFUSED 0\nMACHINE 1 1\n6 3 5 1 4 2 3 0\n{zeros}NONE\n"),
    );
}

// Case j with tasks 1 and 2 exchanged where both are alike.
#[test]
fn logs() {
    check_log("foreign.log", "ACCEPTED\n");
}

// Every file of the folder is one of those above.
#[test]
fn no_example_is_left_out() {
    let path = Path::new(env!("CARGO_MANIFEST_DIR")).join("../examples");
    assert_eq!(fs::read_dir(path).expect("the folder").count(), 15);
}

//! What stands before the log in an input of an audit (docs/HANDBOOK.md, "Auditing a log"):
//! the first line, the table's text and its length, the line LOG, m, and the order in which
//! they are tried. By the simulated audit and by the program.

use edzl_tests::audit::audit;
use edzl_tests::program;

const NAMES: &str = "PERIOD BUDGET DEADLINE\n";
const TABLE: &str = "PERIOD BUDGET DEADLINE\n6 2 3\n6 2 3\n6 5 6\n";
const LOG: &str = "LOG\nRELEASED FINISHED RAN\n7 0 3\n";

fn check(input: &str, printed: &str) {
    let expected = format!("{printed}\n");
    let shown = input.escape_debug();
    assert_eq!(
        format!("{}\n", audit(input.as_bytes())),
        expected,
        "{shown}"
    );
    let output = program::audit_output(input.as_bytes());
    assert_eq!(String::from_utf8_lossy(&output), expected, "{shown}");
}

#[test]
fn first_lines() {
    let bad = [
        "",
        "\n",
        "CORES\n",
        "CORES \n",
        "CORES 02\n",
        "CORES 00\n",
        "CORES 2 \n",
        "CORES  2\n",
        " CORES 2\n",
        "CORES 2\r\n",
        "CORES 2 2\n",
        "CORES -1\n",
        "CORES x\n",
        "CORES\t2\n",
        "cores 2\n",
        "CORE 2\n",
        "CORES 4294967296\n",
        "CORES 10000000000\n",
        "LOG\n",
        "CORES 2",
        "C",
        "CORES2\n",
    ];
    for first in bad {
        check(&format!("{first}{TABLE}{LOG}"), "BAD LINE 1");
        check(first, "BAD LINE 1");
    }
    check(&format!("{TABLE}CORES 2\n{LOG}"), "BAD LINE 1");
}

// Each is a number, and none is 1 to 16; the table's refusals go before.
#[test]
fn cores_outside_the_range() {
    for cores in ["0", "17", "258", "65538", "2147483650", "4294967295"] {
        check(&format!("CORES {cores}\n{TABLE}{LOG}"), "REFUSED 7 0");
        check(&format!("CORES {cores}\n{NAMES}{LOG}"), "REFUSED 6 0");
        check(
            &format!("CORES {cores}\n{NAMES}6 2 3\n6 4 3\n{LOG}"),
            "REFUSED 5 2",
        );
        check(&format!("CORES {cores}\n{TABLE}LOG\n"), "REFUSED 7 0");
        check(&format!("CORES {cores}\n{TABLE}"), "BAD LINE 6");
    }
    check(
        &format!("CORES 16\n{TABLE}LOG\nRELEASED FINISHED RAN\n7 0 7\n"),
        "ACCEPTED",
    );
    check(
        &format!("CORES 1\n{TABLE}LOG\nRELEASED FINISHED RAN\n7 0 1\n"),
        "ACCEPTED",
    );
}

// Refusals of reading, with their places; what follows the line LOG plays no part.
#[test]
fn tables() {
    let refused = [
        ("", "REFUSED 2 0"),
        ("\n", "REFUSED 2 0"),
        ("6 2 3\n", "REFUSED 2 0"),
        ("PERIOD BUDGET\n6 2\n", "REFUSED 2 0"),
        (NAMES, "REFUSED 6 0"),
        ("PERIOD BUDGET DEADLINE\n6 2\n", "REFUSED 4 1"),
        ("PERIOD BUDGET DEADLINE\n6 2 3\n6 02 3\n", "REFUSED 4 2"),
        ("PERIOD BUDGET DEADLINE\n6 2 3\n\n", "REFUSED 4 2"),
        ("PERIOD BUDGET DEADLINE\n6 0 3\n", "REFUSED 5 1"),
        (
            "PERIOD BUDGET DEADLINE\n6 2 3\n6 2 3\n6 2 7\n",
            "REFUSED 5 3",
        ),
        ("PERIOD BUDGET DEADLINE\n1000001 2 3\n", "REFUSED 5 1"),
        ("CALLS\n", "REFUSED 2 0"),
    ];
    for (table, printed) in refused {
        for log in [LOG, "LOG\n", "LOG\nRELEASED FINISHED RAN\n0 0 1\n0 0\n"] {
            check(&format!("CORES 2\n{table}{log}"), printed);
        }
    }
    let full = format!("{NAMES}{}", "9 1 9\n".repeat(33));
    check(&format!("CORES 2\n{full}{LOG}"), "REFUSED 3 33");
    let columns = "DEADLINE BUDGET PERIOD\n3 2 6\n3 2 6\n6 5 6\n";
    check(&format!("CORES 2\n{columns}{LOG}"), "ACCEPTED");
}

// Two tasks that no test admits on 1 core, and log lines on them.
#[test]
fn a_table_that_is_not_admitted() {
    let start = format!("CORES 1\n{NAMES}5 5 5\n5 5 5\nLOG\nRELEASED FINISHED RAN\n");
    check(&start, "ACCEPTED");
    check(&format!("{start}3 0 2\n"), "ACCEPTED");
    check(&format!("{start}3 0 3\n"), "OFFENDS 1");
}

// The line after the last ended one, whatever is wrong with the table.
#[test]
fn missing_log_lines() {
    check("CORES 2\n", "BAD LINE 2");
    check("CORES 2\nPERIOD", "BAD LINE 2");
    check("CORES 2\nLOG", "BAD LINE 2");
    check(&format!("CORES 2\n{NAMES}"), "BAD LINE 3");
    check(&format!("CORES 2\n{NAMES}6 2"), "BAD LINE 3");
    check(&format!("CORES 2\n{TABLE}"), "BAD LINE 6");
    check(&format!("CORES 2\n{TABLE}LOG"), "BAD LINE 6");
    check("CORES 99\n\n\n\n", "BAD LINE 5");
    for line in [
        "LOG \n", " LOG\n", "LOG\r\n", "log\n", "LOGS\n", "LO\n", "CALLS\n",
    ] {
        check(&format!("CORES 2\n{TABLE}{line}"), "BAD LINE 7");
        let after = "RELEASED FINISHED RAN\n7 0 3\n";
        check(&format!("CORES 2\n{TABLE}{line}{after}"), "BAD LINE 9");
        check(&format!("CORES 2\n{TABLE}{line}{LOG}"), "REFUSED 4 4");
    }
}

// The first line LOG ends the table.
#[test]
fn second_log_lines() {
    check(&format!("CORES 2\nLOG\n{TABLE}{LOG}"), "REFUSED 2 0");
    check(&format!("CORES 2\n{TABLE}LOG\n{LOG}"), "REFUSED 18 0");
    check(&format!("CORES 2\n{TABLE}{LOG}LOG\n"), "REFUSED 18 2");
    check(&format!("CORES 2\n{NAMES}{LOG}{LOG}"), "REFUSED 6 0");
}

// A text of just so many bytes that starts as a table and ends with a line end.
fn text_of(bytes: usize, filling: &str) -> String {
    let missing = bytes - TABLE.len() - 1;
    let filled: String = filling.chars().cycle().take(missing).collect();
    format!("{TABLE}{filled}\n")
}

#[test]
fn texts_of_about_4_096_bytes() {
    for filling in ["x", " ", "1 1 1 ", "LOG "] {
        for (bytes, log, printed) in [
            (4_095, LOG, "REFUSED 4 4"),
            (4_096, LOG, "REFUSED 4 4"),
            (4_097, LOG, "REFUSED 1 0"),
            (4_100, LOG, "REFUSED 1 0"),
            (9_000, LOG, "REFUSED 1 0"),
            (4_096, "", "BAD LINE 7"),
            (4_097, "", "REFUSED 1 0"),
            (70_000, "", "REFUSED 1 0"),
            // Without its end the last line is no line LOG, and is part of the text.
            (4_093, "LOG", "BAD LINE 7"),
            (4_094, "LOG", "REFUSED 1 0"),
            (4_096, "LOG", "REFUSED 1 0"),
            (4_092, "LOG ", "BAD LINE 7"),
            (4_092, "LOG \n", "REFUSED 1 0"),
        ] {
            check(
                &format!("CORES 2\n{}{log}", text_of(bytes, filling)),
                printed,
            );
        }
    }
    // The length goes before all but the first line: m is 0 here, and the table is empty.
    let long = "\n".repeat(4_097);
    check(&format!("CORES 0\n{long}{LOG}"), "REFUSED 1 0");
    check(&format!("CORES 0\n{long}"), "REFUSED 1 0");
    check(&format!("CORES 00\n{long}{LOG}"), "BAD LINE 1");
    check(&format!("CORES 0\n{}{LOG}", &long[1..]), "REFUSED 2 0");
    check(&format!("CORES 0\n{}", &long[1..]), "BAD LINE 4098");
}

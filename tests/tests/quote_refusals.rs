//! Texts of ranges that are refused (document 02, change 9, in the handbook's format "Quotes
//! over ranges"), worked out by hand: each number, and which of two comes first.

use edzl_tests::program;

const NAMES: &str = "LEAST_PERIOD MOST_PERIOD LEAST_BUDGET MOST_BUDGET DEADLINE\n";

// A line that is not refused.
const GOOD: &str = "4 8 1 2 4\n";

// What is printed for a whole text.
fn check_text(text: &str, expected: &str) {
    let output = program::quote_output(text.as_bytes());
    assert_eq!(String::from_utf8_lossy(&output), expected, "{text:?}");
}

// The refusal of these value lines.
fn check_refused(lines: &str, number: u32) {
    let expected = format!("REFUSED {number}\n");
    check_text(&format!("{NAMES}{lines}"), &expected);
}

// Anything but the five names in their order, one space between two, and byte 10.
const OTHER_NAMES: [&str; 20] = [
    "",
    "\n",
    "LEAST_PERIOD MOST_PERIOD LEAST_BUDGET MOST_BUDGET DEADLINE",
    "LEAST_PERIOD MOST_PERIOD LEAST_BUDGET MOST_BUDGET DEADLINE \n",
    " LEAST_PERIOD MOST_PERIOD LEAST_BUDGET MOST_BUDGET DEADLINE\n",
    "LEAST_PERIOD  MOST_PERIOD LEAST_BUDGET MOST_BUDGET DEADLINE\n",
    "LEAST_PERIOD\tMOST_PERIOD LEAST_BUDGET MOST_BUDGET DEADLINE\n",
    "LEAST_PERIOD MOST_PERIOD LEAST_BUDGET MOST_BUDGET DEADLINE\r\n",
    "\nLEAST_PERIOD MOST_PERIOD LEAST_BUDGET MOST_BUDGET DEADLINE\n",
    "MOST_PERIOD LEAST_PERIOD LEAST_BUDGET MOST_BUDGET DEADLINE\n",
    "LEAST_BUDGET MOST_BUDGET LEAST_PERIOD MOST_PERIOD DEADLINE\n",
    "DEADLINE LEAST_PERIOD MOST_PERIOD LEAST_BUDGET MOST_BUDGET\n",
    "LEAST_PERIOD MOST_PERIOD LEAST_BUDGET MOST_BUDGET\n",
    "LEAST_PERIOD MOST_PERIOD LEAST_BUDGET MOST_BUDGET DEADLINE DEADLINE\n",
    "LEAST_PERIOD LEAST_PERIOD LEAST_BUDGET MOST_BUDGET DEADLINE\n",
    "least_period most_period least_budget most_budget deadline\n",
    "LEAST_PERIOD MOST_PERIOD LEAST_BUDGET MOST_BUDGET DEADLINe\n",
    "LEAST_PERIOD MOST_PERIOD LEAST_BUDGET MOST_BUDGET DEADLINES\n",
    "LEAST PERIOD MOST PERIOD LEAST BUDGET MOST BUDGET DEADLINE\n",
    "PERIOD BUDGET DEADLINE\n",
];

// Anything but five well-formed values, one space between two, and byte 10.
const BROKEN_LINES: [&str; 23] = [
    "\n",
    " \n",
    "4\n",
    "4 8 1 2\n",
    "4 8 1 2 4 4\n",
    "4 8 1 2 4 \n",
    " 4 8 1 2 4\n",
    "4  8 1 2 4\n",
    "4\t8 1 2 4\n",
    "4 8 1 2 4\r\n",
    "4 8 1 2 4",
    "4 8 1 2 ",
    "4 8 1 2",
    "04 8 1 2 4\n",
    "4 8 00 2 4\n",
    "4 8 1 2 04\n",
    "4 8 +1 2 4\n",
    "4 8 -1 2 4\n",
    "4 8 1.0 2 4\n",
    "4 8 x 2 4\n",
    "4 10000000 1 2 4\n",
    "4 4294967304 1 2 4\n",
    "LEAST_PERIOD MOST_PERIOD LEAST_BUDGET MOST_BUDGET DEADLINE\n",
];

#[test]
fn more_than_4096_bytes() {
    check_text(&" ".repeat(4_096), "REFUSED 2\n");
    check_text(&" ".repeat(4_097), "REFUSED 1\n");
    let lines = format!("{NAMES}{}", GOOD.repeat(32));
    let text = |length: usize| format!("{lines}{}", "x".repeat(length - lines.len()));
    check_text(&text(4_096), "REFUSED 3\n");
    check_text(&text(4_097), "REFUSED 1\n");
}

// Before anything that is wrong with a value line. The names that are not ended make one line
// with it.
#[test]
fn other_names_lines() {
    for names in OTHER_NAMES {
        for lines in [
            "",
            "4 8 1 2 4\n",
            "4 8 01 2 4\n",
            "8 4 1 2 4\n",
            "4 8 1 5 4\n",
        ] {
            check_text(&format!("{names}{lines}"), "REFUSED 2\n");
        }
    }
}

#[test]
fn lines_that_are_not_five_values() {
    for line in BROKEN_LINES {
        check_refused(line, 4);
        check_refused(&format!("{GOOD}{line}"), 4);
    }
}

// Anything after the 32nd value line. The 32nd line itself goes through 4, 16 and 5 first.
#[test]
fn a_33rd_line() {
    let lines = |last: &str, rest: &str| format!("{}{last}{rest}", GOOD.repeat(31));
    for rest in [
        "\n",
        "x",
        " ",
        "0",
        "4 8 1 2 4\n",
        "4 8 1 2 4",
        "8 4 1 2 4\n",
    ] {
        check_refused(&lines("4 8 1 2 4\n", rest), 3);
        check_refused(&lines("8 4 1 2 4\n", rest), 16);
        check_refused(&lines("4 8 1 5 4\n", rest), 5);
        check_refused(&lines("4 8 01 2 4\n", rest), 4);
    }
    check_refused(&lines("4 8 1 2 4", ""), 4);
}

#[test]
fn a_least_above_its_most() {
    check_refused("8 4 1 2 4\n", 16);
    check_refused("5 4 1 2 4\n", 16);
    check_refused("4 8 2 1 4\n", 16);
    check_refused("8 4 2 1 4\n", 16);
    check_refused(&format!("{GOOD}8 4 1 2 4\n"), 16);
    // A least may be its most.
    check_text(&format!("{NAMES}4 4 2 2 4\n"), "CORES ANSWER\n1 ALL\n");
}

// The highest budget with the lowest period breaks 1 ≤ C ≤ D ≤ T ≤ 1,000,000, and the lowest
// budget with the highest period does not. In the first line the two least fit, in the second
// and third the two most.
#[test]
fn number_5_at_the_dear_corner_alone() {
    check_refused("4 8 1 5 4\n", 5);
    check_refused("3 8 1 2 4\n", 5);
    check_refused("0 8 1 2 4\n", 5);
    check_refused("3 8 1 5 4\n", 5);
}

// The other way round. In the first line the two most fit, in the second and third the two
// least.
#[test]
fn number_5_at_the_cheap_corner_alone() {
    check_refused("4 8 0 2 4\n", 5);
    check_refused("4 1000001 1 2 4\n", 5);
    check_refused("1000000 1000001 1 2 4\n", 5);
    check_refused("4 9999999 0 2 4\n", 5);
}

#[test]
fn number_5_at_both_corners() {
    check_refused("0 0 0 0 0\n", 5);
    check_refused("4 8 0 0 4\n", 5);
    check_refused("4 8 5 6 4\n", 5);
    check_refused("2 3 1 2 4\n", 5);
    check_refused("1000001 1000002 1 2 4\n", 5);
    check_refused("4 8 1 2 0\n", 5);
    check_refused("4 8 1 2 9999999\n", 5);
    check_refused("9999999 9999999 9999999 9999999 9999999\n", 5);
}

// In one line 16 comes before 5, and 4 before both.
#[test]
fn two_numbers_in_one_line() {
    check_refused("8 4 1 5 4\n", 16);
    check_refused("8 4 0 2 4\n", 16);
    check_refused("4 8 5 4 4\n", 16);
    check_refused("4 8 1 0 4\n", 16);
    check_refused("4 3 1 2 4\n", 16);
    check_refused("1000001 1000000 1 2 4\n", 16);
    check_refused("8 4 01 2 4\n", 4);
    check_refused("8 4 1 2 4", 4);
    check_refused("4 8 1 05 4\n", 4);
}

// Whatever comes in an earlier line comes first.
#[test]
fn two_numbers_in_two_lines() {
    let lines = [
        ("4 8 01 2 4\n", 4),
        ("8 4 1 2 4\n", 16),
        ("4 8 2 1 4\n", 16),
        ("4 8 1 5 4\n", 5),
        ("4 8 0 2 4\n", 5),
    ];
    for (first, number) in lines {
        for (later, _) in lines {
            check_refused(&format!("{first}{later}"), number);
            check_refused(&format!("{GOOD}{first}{GOOD}{later}"), number);
        }
    }
}

#[test]
fn no_task() {
    check_refused("", 6);
}

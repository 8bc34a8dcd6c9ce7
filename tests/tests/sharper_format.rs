//! What the program of the slack test prints, byte by byte: the line of names, a line
//! for each m up to 16 or the number of tasks, and the line of a refusal. Every expected
//! output is a literal.

use edzl_tests::program;

const NAMES: &str = "PERIOD BUDGET DEADLINE\n";

// What is printed for these value lines.
fn check(lines: &str, printed: &[u8]) {
    let output = program::sharper_output(format!("{NAMES}{lines}").as_bytes());
    assert_eq!(
        output.escape_ascii().to_string(),
        printed.escape_ascii().to_string()
    );
}

// Such a line for every m of a range.
fn rows(cores: std::ops::RangeInclusive<u32>, rest: &str) -> String {
    cores.map(|m| format!("{m} {rest}\n")).collect()
}

// Sums 5, 5, 4 and spares 3, 3, 2: on 1 core all reach, and every slack stays 0. On 2
// the slacks are 1, 1, 0 and on 3 they are 2, 2, 1, and no window falls far enough to
// change a sum.
#[test]
fn the_example() {
    check(
        "4 1 4\n6 2 5\n10 6 8\n",
        b"CORES ROUNDS ADMIT\n1 1 0\n2 2 1\n3 2 1\n",
    );
}

#[test]
fn the_names_in_another_order() {
    let text = b"DEADLINE PERIOD BUDGET\n4 4 1\n5 6 2\n8 10 6\n";
    let printed = b"CORES ROUNDS ADMIT\n1 1 0\n2 2 1\n3 2 1\n";
    assert_eq!(program::sharper_output(text), printed);
}

// Without spare the only task reaches, with its slack 0 as before the round.
#[test]
fn one_task() {
    check("5 5 5\n", b"CORES ROUNDS ADMIT\n1 1 1\n");
    check("5 4 5\n", b"CORES ROUNDS ADMIT\n1 2 1\n");
}

// Two digits, and the most rounds.
#[test]
fn many_rounds() {
    check(
        "95 31 63\n126 32 126\n",
        b"CORES ROUNDS ADMIT\n1 64 1\n2 4 1\n",
    );
    check(
        "92 30 61\n122 31 122\n",
        b"CORES ROUNDS ADMIT\n1 63 1\n2 4 1\n",
    );
}

// Each of 15 others interferes with 3 slots of a spare of 6: 45 is at least 6·7.
#[test]
fn sixteen_tasks() {
    let printed = [rows(1..=7, "1 0"), rows(8..=16, "2 1")].concat();
    let printed = format!("CORES ROUNDS ADMIT\n{printed}");
    check(&"9 3 9\n".repeat(16), printed.as_bytes());
}

// 31 others, one slot each, against a spare of 3: 31 is at least 3·10.
#[test]
fn no_line_for_more_than_16_cores() {
    let printed = [rows(1..=10, "1 0"), rows(11..=16, "2 1")].concat();
    let printed = format!("CORES ROUNDS ADMIT\n{printed}");
    check(&"4 1 4\n".repeat(32), printed.as_bytes());
}

// Refusals as in verdict, one of each number.
#[test]
fn refused_texts() {
    let lines = |count: usize, rest: &str| format!("{NAMES}{}{rest}", "4 1 4\n".repeat(count));
    let refused = [
        (1, " ".repeat(4_097)),
        (2, String::new()),
        (2, "PERIOD BUDGET BUDGET\n4 1 4\n".to_string()),
        (3, lines(32, "\n")),
        (4, lines(1, "4 01 4\n")),
        (4, lines(1, "4 1 4")),
        (5, lines(3, "4 5 4\n")),
        (6, NAMES.to_string()),
    ];
    for (number, text) in refused {
        let printed = format!("REFUSED {number}\n");
        assert_eq!(program::sharper_output(text.as_bytes()), printed.as_bytes());
        assert_eq!(program::verdict_output(text.as_bytes()), printed.as_bytes());
    }
}

//! Quotes over ranges (document 02, change 9), worked out by hand. Every expected output is a
//! literal.

use std::ops::RangeInclusive;

use edzl_tests::program;

const NAMES: &str = "LEAST_PERIOD MOST_PERIOD LEAST_BUDGET MOST_BUDGET DEADLINE\n";

// What is printed for these value lines.
fn check(lines: &str, expected: &str) {
    let output = program::quote_output(format!("{NAMES}{lines}").as_bytes());
    assert_eq!(String::from_utf8_lossy(&output), expected, "{lines}");
}

// Such a line for every m of a range.
fn rows(cores: RangeInclusive<u32>, word: &str) -> String {
    cores.map(|m| format!("{m} {word}\n")).collect()
}

// The dear corner, of the highest budgets with the lowest periods, has spares 2, 3, 0 and sums
// 4, 6, 0, the cheap one spares 3, 3, 3 and sums 5, 4, 4. On 1 core all three tasks count at
// both corners; on 2 all at the dear corner and none at the cheap one; on 3 only task 3 at the
// dear corner.
#[test]
fn the_example_of_the_handbook() {
    check(
        "4 8 1 2 4\n6 6 2 2 5\n8 10 5 8 8\n",
        "CORES ANSWER\n1 NONE\n2 SOME\n3 ALL\n",
    );
}

// Document 01's table with the third budget 5 to 8 and the third period 8 to 10. At the dear
// corner task 3 has no spare, and the others have sums of 5, below 2·3. At the cheap corner
// the sums are 5, 5, 5 and the spares 3, 3, 3.
#[test]
fn the_table_of_the_paper_with_a_third_task_of_ranges() {
    check(
        "4 4 1 1 4\n6 6 2 2 5\n8 10 5 8 8\n",
        "CORES ANSWER\n1 NONE\n2 ALL\n3 ALL\n",
    );
}

// Task 2 has no spare and counts always. Task 1 has a spare of 2 and sees in 3 slots one job
// of task 2 with the period 3, two with the period 2 and three with the period 1.
#[test]
fn a_period_decides() {
    let answer = |periods: &str, on_one_core: &str| {
        check(
            &format!("3 3 1 1 3\n{periods} 1 1 1\n"),
            &format!("CORES ANSWER\n1 {on_one_core}\n2 ALL\n"),
        );
    };
    answer("1 3", "SOME");
    answer("2 3", "SOME");
    answer("1 2", "NONE");
    answer("2 2", "NONE");
    answer("3 3", "ALL");
    answer("3 1000000", "ALL");
    answer("1 1000000", "SOME");
}

// Task 1 has a spare of 4 and a sum of the budget of task 2, no more than 4; task 2 a sum of
// 1. From the budget 4 on both reach, and with 3 none does.
#[test]
fn a_budget_decides() {
    let answer = |budgets: &str, on_one_core: &str| {
        check(
            &format!("5 5 1 1 5\n5 5 {budgets} 5\n"),
            &format!("CORES ANSWER\n1 {on_one_core}\n2 ALL\n"),
        );
    };
    answer("1 3", "ALL");
    answer("3 3", "ALL");
    answer("1 4", "SOME");
    answer("3 5", "SOME");
    answer("1 5", "SOME");
    answer("4 5", "NONE");
    answer("4 4", "NONE");
}

// Task 1 is 4, 1, 4 (T, C, D) with a spare of 3, or 4, 2, 4 with a spare of 2, and sees in 4
// slots of task 2, which counts always: 4 slots with 2, 2, 2; 2 slots with 4, 2, 2 and with
// 2, 1, 2; 1 slot with 4, 1, 2. So the tables of both most and of both least do not decide.
#[test]
fn corners_of_both_most_and_of_both_least() {
    let answer = |budget: u32, line: &str, on_one_core: &str| {
        check(
            &format!("4 4 {budget} {budget} 4\n{line}\n"),
            &format!("CORES ANSWER\n1 {on_one_core}\n2 ALL\n"),
        );
    };
    for (budget, both) in [(1, "ALL"), (2, "NONE")] {
        answer(budget, "4 4 2 2 2", both);
        answer(budget, "2 2 1 1 2", both);
        answer(budget, "2 2 2 2 2", "NONE");
        answer(budget, "4 4 1 1 2", "ALL");
        answer(budget, "2 4 1 2 2", "SOME");
    }
}

// Ranges of one value each: the answers are the verdicts, never SOME.
#[test]
fn one_value_each() {
    check(
        "2 2 1 1 2\n2 2 1 1 2\n7 7 1 1 7\n8 8 3 3 8\n",
        "CORES ANSWER\n1 NONE\n2 NONE\n3 ALL\n4 ALL\n",
    );
    check(
        "4 4 1 1 4\n6 6 2 2 5\n10 10 6 6 8\n",
        "CORES ANSWER\n1 NONE\n2 ALL\n3 ALL\n",
    );
    check(
        "10 10 9 9 10\n10 10 6 6 10\n5 5 2 2 5\n",
        "CORES ANSWER\n1 NONE\n2 NONE\n3 ALL\n",
    );
    check("5 5 5 5 5\n", "CORES ANSWER\n1 ALL\n");
    check("5 5 5 5 5\n5 5 5 5 5\n", "CORES ANSWER\n1 NONE\n2 ALL\n");
}

// The smallest and the largest numbers. One task is admitted whatever its numbers are; of two
// with the spares 0 both count, and with the budgets 1 none.
#[test]
fn ranges_up_to_the_limits() {
    check("1 1 1 1 1\n", "CORES ANSWER\n1 ALL\n");
    check("1 1000000 1 1 1\n", "CORES ANSWER\n1 ALL\n");
    check(
        "1000000 1000000 1 1000000 1000000\n",
        "CORES ANSWER\n1 ALL\n",
    );
    check(
        &"1000000 1000000 1 1000000 1000000\n".repeat(2),
        "CORES ANSWER\n1 SOME\n2 ALL\n",
    );
}

// Each of 15 others takes 3 slots of a spare of 6: 45 is at least 6·7. With the budget 4 it
// takes 4 of 5, and 60 is at least 5·12.
#[test]
fn sixteen_tasks() {
    let [none, some, all] = [
        rows(1..=7, "NONE"),
        rows(8..=12, "SOME"),
        rows(13..=16, "ALL"),
    ];
    check(
        &"9 9 3 4 9\n".repeat(16),
        &format!("CORES ANSWER\n{none}{some}{all}"),
    );
}

// 31 others, one slot each, against a spare of 3: 31 is at least 3·10. With the budget 2 they
// take two slots each of a spare of 2: 62 is at least 2·16.
#[test]
fn no_line_for_more_than_16_cores() {
    let [none, some] = [rows(1..=10, "NONE"), rows(11..=16, "SOME")];
    check(
        &"4 4 1 2 4\n".repeat(32),
        &format!("CORES ANSWER\n{none}{some}"),
    );
}

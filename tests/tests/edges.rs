//! One named test for each byte case of document 01, "The table as text" and
//! "Why a call is not carried out". Every expected number is a literal.

use edzl_tests::tasks::{Refusal, Task};
use edzl_tests::{host, oracle, program, reading};

const NAMES: &str = "PERIOD BUDGET DEADLINE\n";
const LINE: &str = "4 1 4\n";

// A refused text: number and place by the oracle, the number by the C entry
// (whatever m is: the reading's refusals come before number 7) and the program.
fn check_refused(text: &[u8], number: u32, place: usize) {
    let refusal = Refusal { number, place };
    assert_eq!(reading::read(text), Err(refusal), "the oracle");
    for cores in [1, 16, 0, 17, u32::MAX] {
        assert_eq!(
            oracle::admit(text, cores),
            100 + number,
            "oracle, m = {cores}"
        );
        assert_eq!(
            host::admit(text, cores),
            100 + number,
            "edzl_admit, m = {cores}"
        );
    }
    let printed = format!("REFUSED {number}\n");
    assert_eq!(program::verdict_output(text), printed.as_bytes(), "verdict");
    assert_eq!(program::sharper_output(text), printed.as_bytes(), "sharper");
    check_whole(text);
}

// The whole reading, with the place of a refusal and every entry of the table.
fn check_whole(text: &[u8]) {
    let printed = oracle::reading_output(text);
    assert_eq!(
        program::reading_output(text),
        printed.as_bytes(),
        "test_reading"
    );
}

// A text that is read as this table, and what m = 1 gets for it.
fn check_read(text: &[u8], table: &[Task], on_one_core: u32) {
    assert_eq!(reading::read(text), Ok(table.to_vec()), "the oracle");
    assert_eq!(oracle::admit(text, 1), on_one_core, "oracle");
    assert_eq!(host::admit(text, 1), on_one_core, "edzl_admit");
    let printed = oracle::verdict_output(text);
    assert!(printed.starts_with("CORES COUNT ADMIT\n"));
    assert_eq!(program::verdict_output(text), printed.as_bytes(), "verdict");
    let printed = oracle::sharper_output(text);
    assert!(printed.starts_with("CORES ROUNDS ADMIT\n"));
    assert_eq!(program::sharper_output(text), printed.as_bytes(), "sharper");
    check_whole(text);
}

fn after_names(rest: &str) -> Vec<u8> {
    format!("{NAMES}{rest}").into_bytes()
}

fn value_lines(lines: usize, rest: &str) -> Vec<u8> {
    after_names(&(LINE.repeat(lines) + rest))
}

// A text filled up to this length with one byte.
fn filled(mut text: Vec<u8>, byte: u8, length: usize) -> Vec<u8> {
    text.resize(length, byte);
    text
}

macro_rules! refused {
    ($($name:ident: $text:expr => $number:literal at $place:literal;)*) => {
        $(#[test]
        fn $name() {
            check_refused($text.as_ref(), $number, $place);
        })*
    };
}

macro_rules! read {
    ($($name:ident: $text:expr => $table:expr, $on_one_core:literal;)*) => {
        $(#[test]
        fn $name() {
            check_read($text.as_ref(), &$table, $on_one_core);
        })*
    };
}

// Number 1: more than 4,096 bytes, whatever they are.
refused! {
    bytes_4097_after_one_task: filled(value_lines(1, ""), b'1', 4_097) => 1 at 0;
    bytes_4097_after_32_tasks: filled(value_lines(32, ""), b'\n', 4_097) => 1 at 0;
    bytes_4097_without_names: filled(Vec::new(), b'x', 4_097) => 1 at 0;
    bytes_65536_and_a_small_text: filled(value_lines(1, ""), b'\n', 65_536 + 29) => 1 at 0;
}

// Exactly 4,096 bytes are not refused by number 1.
refused! {
    bytes_4096_after_one_task: filled(value_lines(1, ""), b'1', 4_096) => 4 at 2;
    bytes_4096_after_32_tasks: filled(value_lines(32, ""), b'\n', 4_096) => 3 at 33;
    bytes_4096_in_a_names_line: filled(Vec::new(), b'x', 4_096) => 2 at 0;
}

// Number 2: the names line.
refused! {
    empty_text: "" => 2 at 0;
    names_not_ended: "PERIOD BUDGET DEADLINE" => 2 at 0;
    names_missing: LINE => 2 at 0;
    names_after_an_empty_line: format!("\n{NAMES}{LINE}") => 2 at 0;
    names_with_byte_13: format!("PERIOD BUDGET DEADLINE\r\n{LINE}") => 2 at 0;
    names_with_two_spaces: format!("PERIOD  BUDGET DEADLINE\n{LINE}") => 2 at 0;
    names_with_a_leading_space: format!(" PERIOD BUDGET DEADLINE\n{LINE}") => 2 at 0;
    names_with_a_trailing_space: format!("PERIOD BUDGET DEADLINE \n{LINE}") => 2 at 0;
    names_with_a_tab: format!("PERIOD\tBUDGET DEADLINE\n{LINE}") => 2 at 0;
    a_name_twice: format!("PERIOD BUDGET PERIOD\n{LINE}") => 2 at 0;
    a_name_three_times: format!("BUDGET BUDGET BUDGET\n{LINE}") => 2 at 0;
    a_fourth_name: format!("PERIOD BUDGET DEADLINE SLOT\n{LINE}") => 2 at 0;
    a_fourth_name_that_is_known: format!("PERIOD BUDGET DEADLINE PERIOD\n{LINE}") => 2 at 0;
    two_names: format!("PERIOD BUDGET\n{LINE}") => 2 at 0;
    names_in_lower_case: format!("period budget deadline\n{LINE}") => 2 at 0;
    one_letter_in_lower_case: format!("PERIOD BUDGET DEADLINe\n{LINE}") => 2 at 0;
    a_name_cut_short: format!("PERIOD BUDGET DEADLIN\n{LINE}") => 2 at 0;
    a_name_with_a_letter_more: format!("PERIODS BUDGET DEADLINE\n{LINE}") => 2 at 0;
    names_not_ended_and_a_value: "PERIOD BUDGET DEADLINE 4 1 4\n" => 2 at 0;
}

// Number 3: anything at all after the 32nd value line.
refused! {
    value_lines_33: value_lines(33, "") => 3 at 33;
    value_lines_32_and_byte_10: value_lines(32, "\n") => 3 at 33;
    value_lines_32_and_a_space: value_lines(32, " ") => 3 at 33;
    value_lines_32_and_byte_0: value_lines(32, "\0") => 3 at 33;
    value_lines_32_and_a_line_not_ended: value_lines(32, "4 1 4") => 3 at 33;
    value_lines_32_and_a_bad_task: value_lines(32, "4 5 4\n") => 3 at 33;
}

// Number 4: a value line that is not three well-formed values ended by byte 10.
refused! {
    no_final_byte_10: after_names("4 1 4") => 4 at 1;
    no_final_byte_10_on_line_2: value_lines(1, "4 1 4") => 4 at 2;
    no_final_byte_10_on_line_32: value_lines(31, "4 1 4") => 4 at 32;
    byte_13_before_byte_10: after_names("4 1 4\r\n") => 4 at 1;
    two_spaces: after_names("4  1 4\n") => 4 at 1;
    a_leading_space: after_names(" 4 1 4\n") => 4 at 1;
    a_trailing_space: after_names("4 1 4 \n") => 4 at 1;
    an_empty_line_first: after_names("\n4 1 4\n") => 4 at 1;
    an_empty_line_between: value_lines(1, "\n4 1 4\n") => 4 at 2;
    an_empty_line_last: value_lines(1, "\n") => 4 at 2;
    a_tab: after_names("4\t1 4\n") => 4 at 1;
    a_period_of_8_digits: after_names("10000000 1 4\n") => 4 at 1;
    a_budget_of_8_digits: after_names("4 10000000 4\n") => 4 at 1;
    a_deadline_of_8_digits: after_names("4 1 10000000\n") => 4 at 1;
    a_value_of_10_digits: after_names("4294967300 1 4\n") => 4 at 1;
    two_zeros: after_names("4 00 4\n") => 4 at 1;
    a_leading_zero_in_the_period: after_names("04 1 4\n") => 4 at 1;
    a_leading_zero_in_the_budget: after_names("4 01 4\n") => 4 at 1;
    a_leading_zero_in_the_deadline: after_names("4 1 04\n") => 4 at 1;
    eight_digits_with_leading_zeros: after_names("00000004 1 4\n") => 4 at 1;
    two_values: after_names("4 1\n") => 4 at 1;
    four_values: after_names("4 1 4 4\n") => 4 at 1;
    a_sign: after_names("4 +1 4\n") => 4 at 1;
    the_byte_before_digit_0: after_names("4 / 4\n") => 4 at 1;
    the_byte_after_digit_9: after_names("4 : 4\n") => 4 at 1;
    a_second_names_line: after_names(NAMES) => 4 at 1;
    a_line_over_two_lines: after_names("4 1\n4\n") => 4 at 1;
}

// Number 5: a task that breaks 1 ≤ C ≤ D ≤ T ≤ 1,000,000.
refused! {
    a_period_of_0: after_names("0 1 4\n") => 5 at 1;
    a_budget_of_0: after_names("4 0 4\n") => 5 at 1;
    a_deadline_of_0: after_names("4 1 0\n") => 5 at 1;
    all_values_0: after_names("0 0 0\n") => 5 at 1;
    a_budget_above_the_deadline: after_names("5 5 4\n") => 5 at 1;
    a_deadline_above_the_period: after_names("4 1 5\n") => 5 at 1;
    a_period_of_1000001: after_names("1000001 1 4\n") => 5 at 1;
    a_period_of_9999999: after_names("9999999 1 4\n") => 5 at 1;
    all_values_1000001: after_names("1000001 1000001 1000001\n") => 5 at 1;
    a_bad_task_on_line_32: value_lines(31, "4 5 4\n") => 5 at 32;
}

// Number 6: no task.
refused! {
    names_line_alone: NAMES => 6 at 0;
}

// Value lines go in turn, each through 3, 4, 5.
refused! {
    a_bad_task_before_a_bad_line: after_names("4 5 4\n4 x 4\n") => 5 at 1;
    a_bad_line_before_a_bad_task: after_names("4 x 4\n4 5 4\n") => 4 at 1;
    a_bad_line_with_values_out_of_order: after_names("4 5 04\n") => 4 at 1;
    a_bad_line_before_line_33: after_names(&format!("4 x 4\n{}", LINE.repeat(32))) => 4 at 1;
    a_bad_task_before_line_33: after_names(&format!("4 5 4\n{}", LINE.repeat(32))) => 5 at 1;
    names_that_are_wrong_before_a_bad_line: "PERIOD BUDGET SLOT\n4 x 4\n" => 2 at 0;
}

// All six orders of the names: any other order of the values breaks C ≤ D ≤ T.
read! {
    period_budget_deadline: "PERIOD BUDGET DEADLINE\n9 2 5\n" => [Task::new(9, 2, 5)], 1;
    period_deadline_budget: "PERIOD DEADLINE BUDGET\n9 5 2\n" => [Task::new(9, 2, 5)], 1;
    budget_period_deadline: "BUDGET PERIOD DEADLINE\n2 9 5\n" => [Task::new(9, 2, 5)], 1;
    budget_deadline_period: "BUDGET DEADLINE PERIOD\n2 5 9\n" => [Task::new(9, 2, 5)], 1;
    deadline_period_budget: "DEADLINE PERIOD BUDGET\n5 9 2\n" => [Task::new(9, 2, 5)], 1;
    deadline_budget_period: "DEADLINE BUDGET PERIOD\n5 2 9\n" => [Task::new(9, 2, 5)], 1;
}

// Texts at the limits that are read.
read! {
    value_lines_32: value_lines(32, "") => [Task::new(4, 1, 4); 32], 0;
    smallest_values: after_names("1 1 1\n") => [Task::new(1, 1, 1)], 1;
    largest_values: after_names("1000000 1000000 1000000\n")
        => [Task::new(1_000_000, 1_000_000, 1_000_000)], 1;
}

// m is not 1 to 16: number 7, once the table is read.
#[test]
fn cores_out_of_range() {
    for cores in [0, 17, 18, 65_537, 4_294_967_295] {
        let text = value_lines(2, "");
        assert_eq!(oracle::admit(&text, cores), 107, "oracle, m = {cores}");
        assert_eq!(host::admit(&text, cores), 107, "edzl_admit, m = {cores}");
    }
}

#[test]
fn cores_at_the_limits() {
    for cores in [1, 16] {
        let text = value_lines(1, "");
        assert_eq!(oracle::admit(&text, cores), 1, "oracle, m = {cores}");
        assert_eq!(host::admit(&text, cores), 1, "edzl_admit, m = {cores}");
    }
}

// The C entry is handed the first bytes of something longer and may read no further.
#[test]
fn bytes_after_the_text_play_no_part() {
    let whole = value_lines(34, "");
    let names = NAMES.len();
    let line = LINE.len();
    let cuts = [
        (names - 1, 102),
        (names, 106),
        (names + line - 1, 104),
        (names + line, 1),
        (names + 32 * line, 0),
        (names + 32 * line + 1, 103),
    ];
    for (length, expected) in cuts {
        assert_eq!(host::admit(&whole[..length], 1), expected, "{length} bytes");
    }
}

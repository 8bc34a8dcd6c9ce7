//! Document 01, "Cases at the edges" a to i, and the example of "The table as
//! text", with their numbers as literals.

use edzl_tests::tasks::{Refusal, Task};
use edzl_tests::texts::{ORDERS, write};
use edzl_tests::window::{Verdict, interference, judge, spare, sum};
use edzl_tests::{host, oracle, program, reading};

const EXAMPLE: [Task; 3] = [Task::new(4, 1, 4), Task::new(6, 2, 5), Task::new(10, 6, 8)];
const CASE_G: [Task; 3] = [
    Task::new(10, 9, 10),
    Task::new(10, 6, 10),
    Task::new(5, 2, 5),
];
const CASE_H: [Task; 1] = [Task::new(5, 5, 5)];
const CASE_I: [Task; 2] = [Task::new(5, 5, 5), Task::new(5, 5, 5)];

// COUNT and admission for m = 1, 2 and so on, by every way to the verdict. The C entry
// goes by the slack test, which admits no more of these tables.
fn check(table: &[Task], expected: &[(u32, u32)]) {
    for order in ORDERS {
        let text = write(table, order);
        assert_eq!(reading::read(&text), Ok(table.to_vec()));
        let mut lines = String::from("CORES COUNT ADMIT\n");
        for (cores, (count, admit)) in (1..).zip(expected.iter().copied()) {
            let admitted = admit == 1;
            assert_eq!(judge(table, cores), Ok(Verdict { count, admitted }));
            assert_eq!(oracle::admit(&text, cores), admit, "oracle, m = {cores}");
            assert_eq!(host::admit(&text, cores), admit, "edzl_admit, m = {cores}");
            lines += &format!("{cores} {count} {admit}\n");
        }
        assert_eq!(oracle::verdict_output(&text), lines);
        assert_eq!(String::from_utf8(program::verdict_output(&text)), Ok(lines));
    }
}

#[test]
fn cases_a_to_d_interference() {
    assert_eq!(interference(&Task::new(4, 1, 4), 8), 2);
    assert_eq!(interference(&Task::new(6, 2, 6), 8), 4);
    assert_eq!(interference(&Task::new(10, 6, 10), 5), 5);
    assert_eq!(interference(&Task::new(10, 6, 10), 0), 0);
}

#[test]
fn cases_e_and_f_and_the_example() {
    check(&EXAMPLE, &[(3, 0), (1, 1), (0, 1)]);
}

// The document gives m = 2. By hand: sums 2, 8, 6 and spares 1, 4, 3.
#[test]
fn case_g() {
    check(&CASE_G, &[(3, 0), (3, 0), (0, 1)]);
}

#[test]
fn case_h() {
    check(&CASE_H, &[(1, 1)]);
}

// The document gives m = 1. Without spare both tasks count on 2 cores as well.
#[test]
fn case_i() {
    check(&CASE_I, &[(2, 0), (2, 1)]);
}

// The window is D, not T. By hand: sums 2, 3, 3 and spares 3, 4, 4; windows of
// T would make the sums of tasks 2 and 3 5 and refuse the table on 1 core.
#[test]
fn the_window_is_the_deadline() {
    let long = Task::new(10, 1, 5);
    check(&[Task::new(5, 2, 5), long, long], &[(0, 1); 3]);
}

#[test]
fn sums_and_spares_of_the_example() {
    assert_eq!([0, 1, 2].map(|k| sum(&EXAMPLE, k)), [5, 5, 4]);
    assert_eq!(EXAMPLE.map(|task| spare(&task)), [3, 3, 2]);
}

// The document's own bytes, so that the writer of texts is checked as well.
#[test]
fn text_and_output_of_the_example() {
    let text = b"PERIOD BUDGET DEADLINE\n4 1 4\n6 2 5\n10 6 8\n";
    let lines = b"CORES COUNT ADMIT\n1 3 0\n2 1 1\n3 0 1\n";
    assert_eq!(write(&EXAMPLE, ORDERS[0]), text);
    assert_eq!(oracle::verdict_output(text).as_bytes(), lines);
    assert_eq!(program::verdict_output(text), lines);
}

// The interference counts the slots of the window whose place in their period
// is below C: the formula of the document against a plain count.
#[test]
fn interference_counts_slots() {
    for (period, budget) in (1..=7).flat_map(|period| (1..=period).map(move |c| (period, c))) {
        let task = Task::new(period, budget, period);
        let mut counted = 0;
        for window in 0..30 {
            assert_eq!(interference(&task, u64::from(window)), counted);
            counted += u64::from(window % period < budget);
        }
    }
}

// Judging a given table: 3, 6, then 5 task by task, then 7.
#[test]
fn refusals_of_judging_in_their_order() {
    let bad = Task::new(4, 5, 4);
    let good = Task::new(4, 1, 4);
    assert_eq!(judge(&[bad; 33], 0), Err(Refusal::at(3, 33)));
    assert_eq!(judge(&[], 0), Err(Refusal::whole(6)));
    assert_eq!(judge(&[good, bad, bad], 0), Err(Refusal::at(5, 2)));
    assert_eq!(judge(&[good; 32], 0), Err(Refusal::whole(7)));
    assert_eq!(judge(&[good; 32], 17), Err(Refusal::whole(7)));
    assert!(judge(&[good; 32], 16).is_ok());
}

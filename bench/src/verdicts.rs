//! Verdicts per second: the proved entry against plain Rust and plain C.

use crate::texts::{Case, cut_off, near_slack_boundary, near_window_boundary, refused};
use crate::{plain, timing};
use std::hint::black_box;

const REPEATS: usize = 100;
const TABLES: usize = 256;
const CALLS: usize = 1_024;

unsafe extern "C" {
    fn edzl_admit(text: *const u8, len: usize, cores: u32) -> u32;
    fn admit_in_c(text: *const u8, len: usize, cores: u32) -> u32;
}

fn proved(case: &Case) -> u32 {
    // SAFETY: the pointer and the length are those of one vector, which is only read.
    unsafe { edzl_admit(case.text.as_ptr(), case.text.len(), case.cores) }
}

fn in_c(case: &Case) -> u32 {
    // SAFETY: the pointer and the length are those of one vector, which is only read.
    unsafe { admit_in_c(case.text.as_ptr(), case.text.len(), case.cores) }
}

#[inline(never)]
fn in_rust(case: &Case) -> u32 {
    plain::admit(&case.text, case.cores)
}

// The three give the same number on every text.
fn compare(cases: &[&Case]) {
    for case in cases {
        let answers = [proved(case), in_rust(case), in_c(case)];
        let text = String::from_utf8_lossy(&case.text);
        assert!(
            answers[1] == answers[0] && answers[2] == answers[0],
            "{answers:?} on {} cores for\n{text}",
            case.cores
        );
    }
}

fn calls(cases: &[&Case], admit: fn(&Case) -> u32) {
    for case in cases.iter().cycle().take(CALLS) {
        black_box(admit(black_box(case)));
    }
}

// Nanoseconds for one call of each: the proved entry, in Rust and in C.
fn times(cases: &[&Case]) -> [f64; 3] {
    let best = timing::best_of(
        REPEATS,
        &mut [
            &mut || calls(cases, proved),
            &mut || calls(cases, in_rust),
            &mut || calls(cases, in_c),
        ],
    );
    [best[0], best[1], best[2]].map(|time| time * 1e9 / CALLS as f64)
}

// How often the sums are taken for a text of the group.
fn mean_rounds(cases: &[&Case]) -> f64 {
    let rounds = |case: &&Case| match plain::judge(&case.text, case.cores) {
        Ok(verdict) => f64::from(verdict.rounds),
        Err(number) => unreachable!("refusal {number}"),
    };
    cases.iter().map(rounds).sum::<f64>() / cases.len() as f64
}

// The cores of the texts, from the fewest to the most.
fn cores_of(cases: &[&Case]) -> String {
    let mut cores: Vec<String> = cases.iter().map(|case| case.cores.to_string()).collect();
    cores.sort();
    cores.dedup();
    cores.join("-")
}

fn line(tasks: usize, group: &str, cases: &[&Case]) {
    compare(cases);
    let [proved, rust, c] = times(cases);
    println!(
        "{tasks:>5} {:>5} {group:>6} {:>6.2} {proved:>9.0} {rust:>9.0} {c:>9.0} {:>12.0} {:>9.2}",
        cores_of(cases),
        mean_rounds(cases),
        1e9 / proved,
        rust.min(c) / proved
    );
}

// A line for the texts near each boundary, and one for both together.
fn lines(tasks: usize) {
    let window = near_window_boundary(tasks, TABLES);
    let slack = near_slack_boundary(tasks, TABLES);
    let [window, slack]: [Vec<&Case>; 2] = [&window, &slack].map(|cases| cases.iter().collect());
    line(tasks, "window", &window);
    line(tasks, "slack", &slack);
    line(tasks, "both", &[window, slack].concat());
}

/// Calls each of the three once on every text near a boundary, and prints how many these are.
pub fn call(tasks: usize) {
    let window = near_window_boundary(tasks, TABLES);
    let slack = near_slack_boundary(tasks, TABLES);
    let cases: Vec<&Case> = window.iter().chain(&slack).collect();
    compare(&cases);
    println!("{}", cases.len());
}

/// Compares the three on every text, then prints the lines of each size.
pub fn print() {
    let others: Vec<Case> = refused().into_iter().chain(cut_off()).collect();
    compare(&others.iter().collect::<Vec<_>>());
    println!("Verdicts: nanoseconds for one call, best of {REPEATS}; speed against the better");
    println!("tasks cores   near rounds    proved   in Rust      in C   verdicts/s to better");
    for tasks in [3, 8, 32] {
        lines(tasks);
    }
}

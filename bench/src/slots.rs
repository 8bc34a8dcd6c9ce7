//! Slots per second: the proved machine against a dispatcher in plain C, each a program of its own.

use crate::timing;
use std::fs::File;
use std::process::{Command, Stdio};

const ROUNDS: usize = 7;
const SLOTS: f64 = 1e6;

// The programs, from the folder of this package.
const PROVED: &str = "../crates/bench_slots/out/bench_slots";
const CHECKED: &str = "target/slots-checked";
const UNCHECKED: &str = "target/slots-unchecked";

// What a program prints for a table.
fn played(program: &str, tasks: usize) -> String {
    let table = File::open(format!("tables/{tasks}.txt")).expect("the table is there");
    let output = Command::new(program)
        .stdin(Stdio::from(table))
        .output()
        .expect("the program is built");
    String::from_utf8(output.stdout).expect("a number")
}

// Nanoseconds for one slot of each program: the proved one, and in C with and without the test.
fn times(tasks: usize) -> [f64; 3] {
    let programs = [PROVED, CHECKED, UNCHECKED];
    let sums = programs.map(|program| played(program, tasks));
    assert!(sums[0] == sums[1] && sums[1] == sums[2], "{sums:?}");
    let [a, b, c] = programs.map(|program| {
        move || {
            played(program, tasks);
        }
    });
    let (mut a, mut b, mut c) = (a, b, c);
    let best = timing::best_of(ROUNDS, &mut [&mut a, &mut b, &mut c]);
    [best[0], best[1], best[2]].map(|time| time * 1e9 / SLOTS)
}

fn line(tasks: usize) -> [f64; 3] {
    let times = times(tasks);
    let [proved, checked, unchecked] = times;
    println!(
        "{tasks:>5} {:>5} {proved:>9.0} {checked:>12.0} {unchecked:>12.0} {:>10.0} {:>12.2} {:>14.2}",
        tasks / 2,
        1e9 / proved,
        checked / proved,
        unchecked / proved
    );
    times
}

/// Compares the checksums, then prints a line for each size and the growth between them.
pub fn print() {
    println!("Slots: nanoseconds for one slot, best of {ROUNDS}; speed against C");
    println!(
        "tasks cores    proved    C, checked C, unchecked    slots/s   to checked   to unchecked"
    );
    let few = line(4);
    let many = line(32);
    let [proved, checked, unchecked] = [0, 1, 2].map(|i| many[i] / few[i]);
    println!(
        "4 to 32 tasks: proved {proved:.1} times, C {checked:.1} checked, {unchecked:.1} unchecked"
    );
}

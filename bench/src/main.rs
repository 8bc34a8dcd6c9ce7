//! Measures the proved library against plain Rust and plain C, side by side, and what a held
//! task costs. With the word `audits` it measures those alone. With a number of tasks it only makes
//! the calls of verdicts, once each, so that another program can count their instructions.

mod audits;
mod offers;
mod plain;
mod slots;
mod texts;
mod timing;
mod verdicts;

fn main() {
    match std::env::args().nth(1).as_deref() {
        None => print_all(),
        Some("audits") => audits::print(),
        Some(tasks) => verdicts::call(tasks.parse().expect("a number of tasks")),
    }
}

fn print_all() {
    verdicts::print();
    println!();
    slots::print();
    println!();
    offers::print();
    println!();
    audits::print();
}

//! How often each event is met where many generated tables are compared.

use std::collections::BTreeMap;
use std::io::{Write, stdout};
use std::ops::Range;

use crate::parts;

/// How often each event was met, by its name.
pub type Tally = BTreeMap<String, u64>;

type Result<T> = std::result::Result<T, String>;

/// Compares the tables of a seed, by their index, on all cores of the computer: what was met.
/// Panics at the first failure.
pub fn of_all(
    seed: u64,
    tables: u64,
    compare: impl Fn(u64, &mut Tally) -> Result<()> + Sync,
) -> Tally {
    let part = |part: Range<u64>| {
        let mut tally = Tally::default();
        for index in part {
            let result = compare(index, &mut tally);
            result.map_err(|failure| format!("seed {seed}, table {index}: {failure}"))?;
        }
        Result::Ok(tally)
    };
    let mut all = Tally::default();
    for tally in parts::in_parts(tables, part) {
        for (name, times) in tally.unwrap_or_else(|failure| panic!("{failure}")) {
            *all.entry(name).or_default() += times;
        }
    }
    all
}

/// Prints what was met, past the test harness, which hides what a passing test prints.
pub fn report(title: &str, tally: &Tally) {
    let mut report = format!("\n{title}:\n");
    for (name, times) in tally {
        report += &format!("  {times:>9} {name}\n");
    }
    stdout().write_all(report.as_bytes()).expect("a report");
}

/// A comparison that never met an event says nothing about it, and no other may be met.
pub fn require(tally: &Tally, mut expected: Vec<String>) {
    expected.sort_unstable();
    let met: Vec<&String> = tally.keys().collect();
    assert_eq!(
        met,
        expected.iter().collect::<Vec<_>>(),
        "met, and expected"
    );
}

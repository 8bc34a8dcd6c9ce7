//! Generated texts, well formed and damaged: the oracle against the C entry and
//! against the programs. SEED and TEXTS change which and how many.

use std::collections::{BTreeMap, BTreeSet};
use std::io::{Write, stdout};

use edzl_tests::random::Random;
use edzl_tests::settings::{SEED, number};
use edzl_tests::tables::Admits;
use edzl_tests::tasks::{MOST_CORES, Task};
use edzl_tests::{host, oracle, program, reading, slack, texts, window};

const TEXTS: u64 = 120_000;
const PROGRAM_TEXTS: u64 = 8_000;

// The outcome of a table that the slack test admits and the window test does not; the
// entry answers 1.
const SLACK_ALONE: u32 = 2;

// How many texts and how many calls had each outcome.
#[derive(Default)]
struct Tally {
    texts: BTreeMap<u32, u64>,
    calls: BTreeMap<u32, u64>,
}

impl Tally {
    // The outcomes of one text, one for each call.
    fn record(&mut self, outcomes: &[u32]) {
        for outcome in outcomes {
            *self.calls.entry(*outcome).or_default() += 1;
        }
        for outcome in BTreeSet::from_iter(outcomes) {
            *self.texts.entry(*outcome).or_default() += 1;
        }
    }

    // Written past the test harness, which hides what a passing test prints.
    fn report(&self, title: &str, seed: u64) {
        let mut report = format!("\n{title}, seed {seed}:\n");
        for (outcome, calls) in &self.calls {
            let texts = self.texts[outcome];
            report += &format!("  outcome {outcome:>3}: {texts:>7} texts, {calls:>8} answers\n");
        }
        stdout().write_all(report.as_bytes()).expect("a report");
    }

    // A comparison that never met an outcome says nothing about it.
    fn require(&self, verdicts: &[u32], refusals: u32) {
        for outcome in verdicts.iter().copied().chain(101..=100 + refusals) {
            assert!(
                self.calls.contains_key(&outcome),
                "no text had outcome {outcome}"
            );
        }
    }
}

// m below, at and above the limits, few and many, and both sides of the m from
// which on one of the tests admits the table.
fn cores_to_try(table: &[Task], random: &mut Random) -> Vec<u32> {
    let tasks = u32::try_from(table.len()).expect("at most 32 tasks");
    let admits: Admits = random.pick(&[window::admits, slack::admits]);
    let refused = |cores: &u32| tasks > 0 && !admits(table, *cores);
    let last_refused = (1..=MOST_CORES).rfind(refused).unwrap_or(0);
    let middle = random.between(3, 15);
    let any = random.between(18, u32::MAX);
    vec![
        0,
        1,
        2,
        middle,
        last_refused,
        last_refused + 1,
        tasks,
        16,
        17,
        any,
    ]
}

// The outcomes of one text, each the same by the oracle and by the C entry.
fn compare_entry(seed: u64, index: u64) -> Vec<u32> {
    let text = texts::text(seed, index);
    let table = reading::read(&text).unwrap_or_default();
    let cores = cores_to_try(&table, &mut Random::new(index, seed));
    let answer = |cores: &u32| {
        let (expected, actual) = (oracle::admit(&text, *cores), host::admit(&text, *cores));
        assert!(
            expected == actual,
            "seed {seed}, text {index}, m {cores}: oracle {expected}, edzl_admit {actual}: \"{}\"",
            text.escape_ascii()
        );
        match expected == 1 && !window::admits(&table, *cores) {
            true => SLACK_ALONE,
            false => expected,
        }
    };
    cores.iter().map(answer).collect()
}

// The same for everything that the programs print.
fn compare_programs(seed: u64, index: u64) -> Vec<u32> {
    let text = texts::text(seed, index);
    let printed = oracle::verdict_output(&text);
    let whole = oracle::reading_output(&text);
    for (name, expected, actual) in [
        ("verdict", &printed, program::verdict_output(&text)),
        ("test_reading", &whole, program::reading_output(&text)),
    ] {
        assert!(
            expected.as_bytes() == actual,
            "seed {seed}, text {index}: oracle \"{}\", {name} \"{}\": \"{}\"",
            expected.escape_debug(),
            actual.escape_ascii(),
            text.escape_ascii()
        );
    }
    outcomes_printed(&printed)
}

// 100 plus the refusal number, or the last number of each line after the names.
fn outcomes_printed(output: &str) -> Vec<u32> {
    if let Some(number) = output.trim_end().strip_prefix("REFUSED ") {
        return vec![100 + number.parse::<u32>().expect("a refusal number")];
    }
    let lines = output.lines().skip(1);
    lines.map(|line| u32::from(line.ends_with('1'))).collect()
}

#[test]
fn generated_texts_through_the_c_entry() {
    let (seed, texts) = (number("SEED", SEED), number("TEXTS", TEXTS));
    let mut tally = Tally::default();
    for index in 0..texts {
        tally.record(&compare_entry(seed, index));
    }
    tally.report(&format!("edzl_admit compared on {texts} texts"), seed);
    tally.require(&[0, 1, SLACK_ALONE], 7);
}

// A sample spread over the same texts. The programs get no m, so no number 7.
#[test]
fn generated_texts_through_the_programs() {
    let seed = number("SEED", SEED);
    let stride = (number("TEXTS", TEXTS) / PROGRAM_TEXTS).max(1);
    let mut tally = Tally::default();
    for sample in 0..PROGRAM_TEXTS {
        tally.record(&compare_programs(seed, sample * stride));
    }
    tally.report(
        &format!("verdict and test_reading compared on {PROGRAM_TEXTS} texts"),
        seed,
    );
    tally.require(&[0, 1], 6);
}

//! Generated machines made by hand, sound and unsound, each with one call:
//! everything that the program prints, the answer and the machine after the call,
//! against the simulated machine. SEED and PROBES change which and how many; some
//! 10,000 meet every kind of answer and every event.

use std::collections::{BTreeMap, BTreeSet};
use std::io::{Write, stdout};
use std::ops::Range;

use edzl_tests::faults::{Fault, HELD_12, HELD_13, OF_A_TASK, OF_THE_OFFER, WHOLE};
use edzl_tests::probe::{Probe, output};
use edzl_tests::probes::{IN_A_GROUP, group};
use edzl_tests::script::Answer;
use edzl_tests::seen::{COMMIT, FINISH, OFFER, RELEASE, SLOT, Seen, names};
use edzl_tests::{parts, program, settings};

const PROBES: u64 = 50_000;

// Every kind of answer that can happen, and no other may: number 10 is among the
// others.
const KINDS: [&str; 20] = [
    "COMMIT DONE",
    "COMMIT REFUSED 0",
    "COMMIT REFUSED 17",
    "FINISH DONE",
    "FINISH REFUSED 0",
    "FINISH REFUSED 11",
    "FINISH REFUSED 8",
    "OFFER DONE",
    "OFFER REFUSED 0",
    "OFFER REFUSED 12",
    "OFFER REFUSED 13",
    "OFFER REFUSED 5",
    "RELEASE DONE",
    "RELEASE REFUSED 0",
    "RELEASE REFUSED 15",
    "RELEASE REFUSED 8",
    "RELEASE REFUSED 9",
    "SLOT",
    "SLOT REFUSED 0",
    "SLOT REFUSED 14",
];

// Clauses that fail by 1 and never by more: a number that is 0, and those of a held task
// that are not about its numbers.
const BY_ONE_ONLY: [&str; 8] = [
    "C 0",
    "count 0",
    "held C 0",
    HELD_12,
    HELD_13,
    "m 0",
    "open with budget 0",
    "open with left 0",
];

// How often each kind of answer, each clause of number 0 and each event was met.
#[derive(Default)]
struct Tally {
    kinds: BTreeMap<String, u64>,
    clauses: BTreeMap<String, u64>,
    events: BTreeMap<String, u64>,
}

fn add(counts: &mut BTreeMap<String, u64>, name: impl Into<String>, times: u64) {
    *counts.entry(name.into()).or_default() += times;
}

impl Tally {
    fn record(&mut self, seen: &Seen) {
        let call = seen.name();
        match seen.answer {
            Answer::Ran(_) => add(&mut self.kinds, call, 1),
            answer => add(&mut self.kinds, format!("{call} {answer}"), 1),
        }
        if let Some(fault) = seen.alone() {
            self.fault(call, fault, seen.before.count);
        }
        for name in seen.met() {
            add(&mut self.events, name, 1);
        }
    }

    // The only fault: the call that it refuses, how far it is, and where it stands.
    fn fault(&mut self, call: &str, fault: &Fault, count: u32) {
        let clause = fault.clause;
        add(&mut self.clauses, format!("{clause}: {call}"), 1);
        let far = if fault.beyond == 1 { "by 1" } else { "by more" };
        add(&mut self.clauses, format!("{clause}: {far}"), 1);
        if count > 1 && fault.task == 1 {
            add(&mut self.clauses, format!("{clause}: the first task"), 1);
        }
        if count > 1 && fault.task == count {
            add(&mut self.clauses, format!("{clause}: the last task"), 1);
        }
    }

    fn add(&mut self, other: Tally) {
        let pairs = [
            (&mut self.kinds, other.kinds),
            (&mut self.clauses, other.clauses),
            (&mut self.events, other.events),
        ];
        for (mine, others) in pairs {
            for (name, times) in others {
                add(mine, name, times);
            }
        }
    }

    // Written past the test harness, which hides what a passing test prints.
    fn report(&self, seed: u64) {
        let probes: u64 = self.kinds.values().sum();
        let mut report = format!("\nprobe compared on {probes} machines, seed {seed}:\n");
        for (kind, times) in &self.kinds {
            report += &format!("  {times:>9} {kind}\n");
        }
        for (clause, times) in &self.clauses {
            report += &format!("  {times:>9} only {clause}\n");
        }
        for (name, times) in &self.events {
            report += &format!("  {times:>9} {name}\n");
        }
        stdout().write_all(report.as_bytes()).expect("a report");
    }

    // A comparison that never met a kind of machine says nothing about it.
    fn require(&self) {
        let kinds: Vec<&str> = self.kinds.keys().map(String::as_str).collect();
        assert_eq!(
            kinds, KINDS,
            "the kinds of answers met, and the expected ones"
        );
        let clauses: BTreeSet<String> = self.clauses.keys().cloned().collect();
        assert_eq!(
            clauses,
            clauses_to_meet(),
            "the only faults met, and the expected ones"
        );
        for name in names() {
            assert!(self.events.contains_key(name), "never met: {name}");
        }
    }
}

// Each clause as the only fault: for every call, near its limit and far from it,
// and of a task the first and the last of several.
fn clauses_to_meet() -> BTreeSet<String> {
    let mut names = BTreeSet::new();
    for clause in WHOLE.iter().chain(&OF_A_TASK).chain(&OF_THE_OFFER) {
        let mut parts = vec![COMMIT, FINISH, OFFER, RELEASE, SLOT, "by 1"];
        if !BY_ONE_ONLY.contains(clause) {
            parts.push("by more");
        }
        if OF_A_TASK.contains(clause) {
            parts.extend(["the first task", "the last task"]);
        }
        names.extend(parts.iter().map(|part| format!("{clause}: {part}")));
    }
    names
}

// One machine and call through the program: the same bytes.
fn compare(probe: &Probe, tally: &mut Tally) -> Result<(), String> {
    let (text, seen) = (probe.text(), Seen::new(probe));
    let refused_by_0 = seen.answer == Answer::Refused(0);
    let (expected, faults) = (output(seen.answer, &seen.after), &seen.faults);
    if refused_by_0 == faults.is_empty() {
        return Err(format!(
            "simulated: {}, but {faults:?}\n{text}",
            seen.answer
        ));
    }
    let actual = program::probe_output(text.as_bytes());
    if expected.as_bytes() != actual {
        let actual = String::from_utf8_lossy(&actual);
        let difference = program::first_difference(&expected, &actual);
        return Err(format!(
            "{difference}\nfaults: {faults:?}\n--- machine and call\n{text}\n--- printed\n{actual}"
        ));
    }
    tally.record(&seen);
    Ok(())
}

fn compare_all(seed: u64, part: Range<u64>) -> Result<Tally, String> {
    let mut tally = Tally::default();
    for index in part {
        for probe in group(seed, index) {
            let result = compare(&probe, &mut tally);
            result.map_err(|failure| format!("seed {seed}, group {index}: {failure}"))?;
        }
    }
    Ok(tally)
}

#[test]
fn generated_machines_through_probe() {
    let seed = settings::number("SEED", settings::SEED);
    let groups = settings::number("PROBES", PROBES).div_ceil(IN_A_GROUP);
    let mut tally = Tally::default();
    for part in parts::in_parts(groups, |part| compare_all(seed, part)) {
        tally.add(part.unwrap_or_else(|failure| panic!("{failure}")));
    }
    tally.report(seed);
    tally.require();
}

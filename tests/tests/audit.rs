//! Generated inputs of an audit (document 02, change 11): the one line that `audit` prints
//! against the simulated audit. A log that goes by the rules must be accepted, whoever broke
//! its ties. SEED and AUDITS change which and how many; some 1,500 inputs meet every kind of
//! line.

use std::collections::BTreeMap;
use std::io::{Write, stdout};
use std::ops::Range;

use edzl_tests::audit::{Audit, audit};
use edzl_tests::audit_inputs::{Case, case};
use edzl_tests::tasks::Refusal;
use edzl_tests::{parts, program, settings};

const AUDITS: u64 = 2_500;

// Each kind of line must be printed once for so many inputs on average.
const AUDITS_FOR_A_KIND: u64 = 500;

// Every kind of line that can be printed.
const KINDS: [&str; 15] = [
    "ACCEPTED",
    "BAD LINE 1",
    "BAD LINE n",
    "OFFENDS 1",
    "OFFENDS n",
    "REFUSED 1 0",
    "REFUSED 18 0",
    "REFUSED 18 1",
    "REFUSED 18 n",
    "REFUSED 2 0",
    "REFUSED 3 33",
    "REFUSED 4 n",
    "REFUSED 5 n",
    "REFUSED 6 0",
    "REFUSED 7 0",
];

type Tally = BTreeMap<String, u64>;

fn kind(answer: Audit) -> String {
    match answer {
        Audit::Offends(2..) => "OFFENDS n".to_string(),
        Audit::BadLine(2..) => "BAD LINE n".to_string(),
        Audit::Refused(Refusal {
            number: 18,
            place: 2..,
        }) => "REFUSED 18 n".to_string(),
        Audit::Refused(Refusal {
            number: 4 | 5,
            place: 1..,
        }) => {
            let line = answer.to_string();
            let (number, _) = line.rsplit_once(' ').expect("a place");
            format!("{number} n")
        }
        _ => answer.to_string(),
    }
}

fn compare(case: &Case, tally: &mut Tally) -> Result<(), String> {
    let answer = audit(&case.text);
    let printed = program::audit_output(&case.text);
    let printed = String::from_utf8_lossy(&printed);
    let failure = |what: &str| {
        let text = String::from_utf8_lossy(&case.text);
        format!("{what}: expected {answer}, printed {printed}--- input\n{text}")
    };
    if case.whole.is_some() && answer != Audit::Accepted {
        return Err(failure("a log by the rules"));
    }
    if printed != format!("{answer}\n") {
        return Err(failure("another line"));
    }
    *tally.entry(kind(answer)).or_default() += 1;
    Ok(())
}

fn compare_all(seed: u64, part: Range<u64>) -> Result<Tally, String> {
    let mut tally = Tally::new();
    for index in part {
        let result = compare(&case(seed, index), &mut tally);
        result.map_err(|failure| format!("seed {seed}, input {index}: {failure}"))?;
    }
    Ok(tally)
}

// Written past the test harness, which hides what a passing test prints.
fn report(tally: &Tally, audits: u64, seed: u64) {
    let mut report = format!("\naudit compared on {audits} inputs, seed {seed}:\n");
    for (kind, times) in tally {
        report += &format!("  {times:>9} {kind}\n");
    }
    stdout().write_all(report.as_bytes()).expect("a report");
}

#[test]
fn generated_inputs_through_audit() {
    let seed = settings::number("SEED", settings::SEED);
    let audits = settings::number("AUDITS", AUDITS);
    let mut tally = Tally::new();
    for part in parts::in_parts(audits, |part| compare_all(seed, part)) {
        for (kind, times) in part.unwrap_or_else(|failure| panic!("{failure}")) {
            *tally.entry(kind).or_default() += times;
        }
    }
    report(&tally, audits, seed);
    let kinds: Vec<&str> = tally.keys().map(String::as_str).collect();
    assert_eq!(
        kinds, KINDS,
        "the kinds of lines met, and the expected ones"
    );
    for (kind, times) in &tally {
        let least = audits / AUDITS_FOR_A_KIND;
        assert!(*times >= least, "{times} times, not {least}: {kind}");
    }
}

//! Logs of our own machine (document 02, change 11): scripts of whole budgets, k = m and no
//! accepted commit through `replay`, and what it prints as a log through `audit`, which must
//! accept it. SEED and AUDITS change which and how many.

use std::ops::Range;

use edzl_tests::audit::{Audit, audit};
use edzl_tests::log::{Line, Log};
use edzl_tests::own_logs::{log_of, script};
use edzl_tests::reading::read;
use edzl_tests::script::{Answer, Call, Script, lines};
use edzl_tests::{parts, program, settings, slack};

const AUDITS: u64 = 600;

// Each event must be met once for so many scripts on average.
const SCRIPTS_FOR_AN_EVENT: u64 = 30;

const EVENTS: [&str; 12] = [
    "an accepted offer",
    "a refused offer",
    "a refused commit",
    "a refused release",
    "a refused finish",
    "a refused slot",
    "a release and a finish in one line",
    "a call after the last slot",
    "a late job",
    "a table admitted",
    "a table not admitted",
    "a log of no line",
];

type Met = [u64; EVENTS.len()];

fn record(script: &Script, log: &Log, met: &mut Met) {
    let answers = script.play();
    let calls: Vec<(&Call, &Answer)> = script.calls.iter().zip(&answers).collect();
    let is_refused = |answer: &Answer| matches!(answer, Answer::Refused(_));
    let any = |so: fn(&Call) -> bool, refused: bool| {
        let mut calls = calls.iter();
        calls.any(|(call, answer)| so(call) && is_refused(answer) == refused)
    };
    let late = |answer: &Answer| matches!(answer, Answer::Ran(slot) if slot.late != 0);
    let after_last = match calls.last() {
        Some((call, answer)) => !matches!(call, Call::Slot(_)) && !is_refused(answer),
        None => false,
    };
    let admitted = slack::admits(&log.table, log.cores);
    let both = |line: &Line| line.released & line.finished != 0;
    let events = [
        any(|call| matches!(call, Call::Offer(_)), false),
        any(|call| matches!(call, Call::Offer(_)), true),
        any(|call| matches!(call, Call::Commit), true),
        any(|call| matches!(call, Call::Release(..)), true),
        any(|call| matches!(call, Call::Finish(_)), true),
        any(|call| matches!(call, Call::Slot(_)), true),
        log.lines.iter().any(both),
        after_last,
        answers.iter().any(late),
        admitted,
        !admitted,
        log.lines.is_empty(),
    ];
    for (times, event) in met.iter_mut().zip(events) {
        *times += u64::from(event);
    }
}

// One script through both programs.
fn compare(script: &Script, met: &mut Met) -> Result<(), String> {
    let table = read(&script.table).expect("a table");
    let printed = program::replay_output(&script.text());
    let printed = String::from_utf8_lossy(&printed);
    let failure = |what: &str| {
        let text = String::from_utf8_lossy(&script.text()).into_owned();
        format!("{what}\n--- script\n{text}--- replay printed\n{printed}")
    };
    if printed != lines(&script.play()) {
        return Err(failure("replay does not print what is expected"));
    }
    let log = log_of(script, &table, &printed);
    if audit(&log.input()) != Audit::Accepted {
        return Err(failure("the simulated audit does not accept"));
    }
    let answer = program::audit_output(&log.input());
    if answer != b"ACCEPTED\n" {
        let answer = String::from_utf8_lossy(&answer).into_owned();
        return Err(failure(&format!("audit printed {answer}")));
    }
    record(script, &log, met);
    Ok(())
}

fn compare_all(seed: u64, part: Range<u64>) -> Result<Met, String> {
    let mut met = Met::default();
    for index in part {
        let result = compare(&script(seed, index), &mut met);
        result.map_err(|failure| format!("seed {seed}, script {index}: {failure}"))?;
    }
    Ok(met)
}

#[test]
fn our_own_logs_are_accepted() {
    let seed = settings::number("SEED", settings::SEED);
    let audits = settings::number("AUDITS", AUDITS);
    let mut total = Met::default();
    for part in parts::in_parts(audits, |part| compare_all(seed, part)) {
        let met = part.unwrap_or_else(|failure| panic!("{failure}"));
        for (total, times) in total.iter_mut().zip(met) {
            *total += times;
        }
    }
    for (event, times) in EVENTS.iter().zip(total) {
        let least = audits / SCRIPTS_FOR_AN_EVENT;
        assert!(times >= least, "{times} times, not {least}: {event}");
    }
}

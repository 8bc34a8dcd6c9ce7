//! Scripts played through `probe`, one call after the other, each on the machine
//! that was printed after the call before: the same answers as `replay` prints, the
//! cores of each slot among them.

use std::collections::BTreeSet;
use std::ops::Range;

use edzl_tests::probe::HandMade;
use edzl_tests::script::{Call, Script};
use edzl_tests::{parts, program, scripts, settings};

const SCRIPTS: u64 = 250;

// Each script is cut after so many calls.
const CALLS: usize = 30;

// Every first word of an answer to a call, with the number of a refusal. The slots in
// which the cores do not rise with the task number stand apart.
const ANSWERS: [&str; 12] = [
    "DONE",
    "RAN",
    "RAN, CORES NOT RISING",
    "REFUSED 11",
    "REFUSED 12",
    "REFUSED 13",
    "REFUSED 14",
    "REFUSED 15",
    "REFUSED 17",
    "REFUSED 5",
    "REFUSED 8",
    "REFUSED 9",
];

// The answers to the script's calls, from a machine fresh from its start.
fn through_probe(script: &Script) -> String {
    let start = script.start().expect("a table that starts");
    let mut machine = HandMade::of_machine(&start).to_string();
    let mut answers = String::new();
    for call in &script.calls {
        let text = format!("{machine}{call}\n");
        let printed = String::from_utf8(program::probe_output(text.as_bytes()));
        let printed = printed.expect("lines of text");
        let (answer, after) = printed.split_once('\n').expect("an answer");
        answers += &format!("{answer}\n");
        machine = after.to_string();
    }
    answers
}

// The script with this index, cut, and without a line that is no call. None where
// the start is refused.
fn cut(seed: u64, index: u64) -> Option<Script> {
    let mut script = scripts::script(seed, index);
    script.start().ok()?;
    script.calls.truncate(CALLS);
    script.calls.retain(|call| !matches!(call, Call::Bad(_)));
    Some(script)
}

// The kinds of answers met.
fn compare(seed: u64, part: Range<u64>) -> BTreeSet<String> {
    let mut kinds = BTreeSet::new();
    for script in part.filter_map(|index| cut(seed, index)) {
        let replayed = program::replay_output(&script.text());
        let replayed = String::from_utf8_lossy(&replayed);
        assert_eq!(through_probe(&script), replayed, "{script:?}");
        kinds.extend(replayed.lines().map(kind));
    }
    kinds
}

fn kind(answer: &str) -> String {
    if !answer.starts_with(|first: char| first.is_ascii_digit()) {
        return answer.to_string();
    }
    let numbers = answer.split(' ').map(|field| field.parse::<u32>());
    let numbers: Vec<u32> = numbers.map(|number| number.expect("a number")).collect();
    match numbers[4..].is_sorted() {
        true => "RAN".to_string(),
        false => "RAN, CORES NOT RISING".to_string(),
    }
}

#[test]
fn scripts_through_probe_and_replay() {
    let seed = settings::number("SEED", settings::SEED);
    let parts = parts::in_parts(SCRIPTS, |part| compare(seed, part));
    let met: BTreeSet<String> = parts.into_iter().flatten().collect();
    let met: Vec<&str> = met.iter().map(String::as_str).collect();
    assert_eq!(met, ANSWERS, "the answers met, and the expected ones");
}

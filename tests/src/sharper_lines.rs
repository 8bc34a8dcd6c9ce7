//! What a comparison of the slack test should meet: for a table on so many cores,
//! the rounds, the verdict beside the window test's, and the wrong versions that would
//! answer otherwise.

use crate::slack::{self, MOST_ROUNDS};
use crate::tasks::Task;
use crate::window;
use crate::wrong::{EARLY_STOP, LAST_SLACKS, WRONG};

// Rounds of which the last changes no slack: from how many to how many.
const SETTLED: [(&str, usize, usize); 6] = [
    ("1 round", 1, 1),
    ("2 rounds", 2, 2),
    ("3 to 9 rounds", 3, 9),
    ("10 to 62 rounds", 10, 62),
    ("63 rounds", 63, 63),
    ("64 rounds that settle", 64, 64),
];
const CUT_ADMITTED: &str = "cut after 64 rounds, admitted";
const CUT_REFUSED: &str = "cut after 64 rounds, refused";

const BOTH_ADMIT: &str = "admitted by both tests";
const BOTH_REFUSE: &str = "refused by both tests";
const SLACK_ADMITS: &str = "admitted by the slack test alone";
const WINDOW_ADMITS: &str = "admitted by the window test alone";

/// The names of all that should be met. Nothing is admitted by the window test alone, an
/// early stop changes no verdict, and a count with the last slacks no rounds.
pub fn names() -> Vec<String> {
    let rounds = SETTLED.iter().map(|(name, _, _)| *name);
    let cuts = [CUT_ADMITTED, CUT_REFUSED];
    let verdicts = [BOTH_ADMIT, BOTH_REFUSE, SLACK_ADMITS];
    let plain = rounds.chain(cuts).chain(verdicts).map(str::to_string);
    let told = WRONG
        .iter()
        .flat_map(|(wrong, _)| [by_rounds(wrong), by_verdict(wrong)]);
    let impossible = [by_verdict(EARLY_STOP), by_rounds(LAST_SLACKS)];
    plain
        .chain(told.filter(|name| !impossible.contains(name)))
        .collect()
}

/// The names of what a table on so many cores meets.
pub fn met(table: &[Task], cores: u32) -> Vec<String> {
    let judged = slack::judge(table, cores).expect("a verdict");
    let mut names = vec![rounds(table, cores).to_string()];
    let window = window::judge(table, cores).expect("a verdict").admitted;
    let verdicts = match (window, judged.admitted) {
        (true, true) => BOTH_ADMIT,
        (false, false) => BOTH_REFUSE,
        (false, true) => SLACK_ADMITS,
        (true, false) => WINDOW_ADMITS,
    };
    names.push(verdicts.to_string());
    for (wrong, version) in WRONG {
        let (rounds, admitted) = version.judge(table, cores);
        if rounds != judged.rounds {
            names.push(by_rounds(wrong));
        }
        if admitted != judged.admitted {
            names.push(by_verdict(wrong));
        }
    }
    names
}

fn rounds(table: &[Task], cores: u32) -> &'static str {
    let rounds = slack::rounds(table, cores).expect("a verdict");
    let made = rounds.len();
    let changes = made == MOST_ROUNDS && rounds[made - 1].slacks != rounds[made - 2].slacks;
    match (changes, slack::admits(table, cores)) {
        (true, true) => CUT_ADMITTED,
        (true, false) => CUT_REFUSED,
        (false, _) => {
            let mut settled = SETTLED.iter();
            let found = settled.find(|(_, least, most)| (*least..=*most).contains(&made));
            found.expect("1 to 64 rounds").0
        }
    }
}

fn by_rounds(wrong: &str) -> String {
    format!("other rounds by {wrong}")
}

fn by_verdict(wrong: &str) -> String {
    format!("another verdict by {wrong}")
}

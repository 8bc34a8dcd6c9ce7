//! What a comparison of quotes should meet: for a text of ranges, why it is refused and what
//! else stands in it, or its answers, how near its corners are to the other verdict, and the
//! wrong versions that would print otherwise.

use crate::quotes::{self, ANSWERS, Answer, by_corners, most_cores};
use crate::range_faults::{CHEAP, CLAUSES, DEAR, Fault, faults, value_lines};
use crate::ranges::{RangedTask, read};
use crate::tasks::{LONGEST_PERIOD, MOST_CORES, Refusal};
use crate::{window, wrong_quotes};

/// The refusals of a text.
pub const REFUSALS: [u32; 7] = [1, 2, 3, 4, 5, 6, 16];

// A number of one line, and another of a later line that does not come to be answered.
const LATER: [(u32, u32); 11] = [
    (5, 16),
    (16, 5),
    (4, 16),
    (16, 4),
    (4, 5),
    (5, 4),
    (4, 3),
    (5, 3),
    (16, 3),
    (5, 5),
    (16, 16),
];

const ONE_LINE: &str = "16 and 5 in one line";
const DEAR_ALONE: &str = "5 at the dear corner alone";
const CHEAP_ALONE: &str = "5 at the cheap corner alone";
const BOTH: &str = "5 at both corners";

// What answered ranges are.
type Event = (&'static str, fn(&Answered) -> bool);

const OF_RANGES: [Event; 10] = [
    ("1 task", |quote| quote.ranges.len() == 1),
    ("16 tasks", |quote| quote.ranges.len() == 16),
    ("17 tasks", |quote| quote.ranges.len() == 17),
    ("32 tasks, 16 lines", |quote| {
        quote.ranges.len() == 32 && quote.answers.len() == 16
    }),
    ("ALL, SOME and NONE", |quote| {
        ANSWERS.iter().all(|answer| quote.answers.contains(answer))
    }),
    ("SOME on all numbers of cores but one", |quote| {
        quote.answers.len() > 2 && quote.times(Answer::Some) == quote.answers.len() - 1
    }),
    ("SOME on several numbers of cores", |quote| {
        quote.times(Answer::Some) > 1
    }),
    ("ranges of one value each", |quote| {
        quote.ranges.iter().all(RangedTask::is_one_task)
    }),
    ("a budget from 1 to its deadline", |quote| {
        let mut ranges = quote.ranges.iter();
        ranges.any(|task| task.least_budget == 1 && task.most_budget == task.deadline)
    }),
    ("a period from its deadline to 1,000,000", |quote| {
        let mut ranges = quote.ranges.iter();
        ranges.any(|task| task.least_period == task.deadline && task.most_period == LONGEST_PERIOD)
    }),
];

// What a line of the answer is: COUNT at the dear corner, at the cheap one, m and the answer.
type LineEvent = (&'static str, fn([u32; 2], u32, Answer) -> bool);

const OF_A_LINE: [LineEvent; 5] = [
    ("ALL, COUNT = m at the dear corner", |count, m, answer| {
        answer == Answer::All && count[0] == m
    }),
    (
        "SOME, COUNT = m + 1 at the dear corner",
        |count, m, answer| answer == Answer::Some && count[0] == m + 1,
    ),
    ("SOME, COUNT = m at the cheap corner", |count, m, answer| {
        answer == Answer::Some && count[1] == m
    }),
    (
        "NONE, COUNT = m + 1 at the cheap corner",
        |count, m, answer| answer == Answer::None && count[1] == m + 1,
    ),
    ("SOME on 16 cores", |_, m, answer| {
        answer == Answer::Some && m == MOST_CORES
    }),
];

struct Answered {
    ranges: Vec<RangedTask>,
    answers: Vec<Answer>,
}

impl Answered {
    fn times(&self, answer: Answer) -> usize {
        self.answers.iter().filter(|one| **one == answer).count()
    }
}

/// The names of all that should be met.
pub fn names() -> Vec<String> {
    let refused = REFUSALS.iter().map(|number| refused(*number));
    let clauses = CLAUSES.iter().map(|(clause, _, _)| because(clause));
    let later = LATER.iter().map(|(first, later)| before(*first, *later));
    let corners = [ONE_LINE, DEAR_ALONE, CHEAP_ALONE, BOTH];
    let answers = ANSWERS
        .iter()
        .flat_map(|answer| [1, 2].map(|m| answer.on(m)));
    let ranges = OF_RANGES.iter().map(|(name, _)| *name);
    let lines = OF_A_LINE.iter().map(|(name, _)| *name);
    let plain = corners.into_iter().chain(ranges).chain(lines);
    let wrong_readings = wrong_quotes::READINGS.iter().map(|(name, _)| told(name));
    let wrong_answers = wrong_quotes::ANSWERS.iter().map(|(name, _)| told(name));
    refused
        .chain(clauses)
        .chain(later)
        .chain(plain.map(str::to_string))
        .chain(answers)
        .chain(wrong_readings)
        .chain(wrong_answers)
        .collect()
}

/// The names of what a text meets, each as often as it is met.
pub fn met(text: &[u8]) -> Vec<String> {
    let reading = read(text);
    let mut names = match &reading {
        Ok(ranges) => of_ranges(ranges),
        Err(refusal) => of_refusal(text, *refusal),
    };
    names.extend(wrong_quotes::told(text, &reading).into_iter().map(told));
    names
}

fn of_ranges(ranges: &[RangedTask]) -> Vec<String> {
    let cores = 1..=most_cores(ranges);
    let quote = Answered {
        ranges: ranges.to_vec(),
        answers: cores.map(|m| by_corners(ranges, m)).collect(),
    };
    let events = OF_RANGES.iter().filter(|(_, is_so)| is_so(&quote));
    let mut names: Vec<String> = events.map(|(name, _)| name.to_string()).collect();
    let corners = [quotes::dear(ranges), quotes::cheap(ranges)];
    for (m, answer) in (1..).zip(&quote.answers) {
        let count = [0, 1].map(|corner| window::count(&corners[corner], m));
        let events = OF_A_LINE
            .iter()
            .filter(|(_, is_so)| is_so(count, m, *answer));
        names.extend(events.map(|(name, _)| name.to_string()));
        names.push(answer.on(m));
    }
    names
}

fn of_refusal(text: &[u8], refusal: Refusal) -> Vec<String> {
    let mut names = vec![refused(refusal.number)];
    let lines = value_lines(text).unwrap_or_default();
    let found = faults(&lines);
    let own = found.iter().filter(|fault| fault.refusal == refusal);
    let clauses: Vec<&str> = own.map(|fault| fault.clause).collect();
    let of_values = [5, 16].contains(&refusal.number);
    if of_values {
        names.extend(clauses.iter().map(|clause| because(clause)));
    }
    if refusal.number == 5 {
        names.push(corners(&clauses).to_string());
    }
    if refusal.number == 16 && has(&found, 5, |place| place == refusal.place) {
        names.push(ONE_LINE.to_string());
    }
    for (first, later) in LATER {
        if first == refusal.number && has(&found, later, |place| place > refusal.place) {
            names.push(before(first, later));
        }
    }
    names
}

fn corners(clauses: &[&str]) -> &'static str {
    let at = |corner| clauses.iter().any(|clause| clause.starts_with(corner));
    match (at(DEAR), at(CHEAP)) {
        (true, false) => DEAR_ALONE,
        (false, true) => CHEAP_ALONE,
        _ => BOTH,
    }
}

// Whether a line has a cause for this number at such a place.
fn has(found: &[Fault], number: u32, is_there: impl Fn(usize) -> bool) -> bool {
    let mut refusals = found.iter().map(|fault| fault.refusal);
    refusals.any(|refusal| refusal.number == number && is_there(refusal.place))
}

fn refused(number: u32) -> String {
    format!("REFUSED {number}")
}

fn because(clause: &str) -> String {
    format!("refused for: {clause}")
}

fn before(first: u32, later: u32) -> String {
    format!("{first} before a later line's {later}")
}

fn told(wrong: &str) -> String {
    format!("another output by {wrong}")
}

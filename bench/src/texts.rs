//! Table texts near the boundaries of the window test and the slack test, and refused ones.

use crate::plain::{MAX_ROUNDS, Task, judge, slack_test, window_test};

pub struct Case {
    pub text: Vec<u8>,
    pub cores: u32,
}

const NAMES: [&str; 3] = ["PERIOD", "BUDGET", "DEADLINE"];

// Cores and value lines. In the first two tables few enough tasks may turn urgent from round 64 on,
// in the next two from round 65 on, in the fifth never, in the last two long before.
const CUT_OFF: [(u32, &str); 7] = [
    (
        1,
        "9478 454 8389,7016 1433 4535,337647 844 8421,59246 6677 15963",
    ),
    (
        2,
        "5949 1587 5223,127438 716 16903,121859 867 1366,14572 735 3724,\
         78193 5165 15224,13095 2281 7847,198238 51 158,169463 485 1205",
    ),
    (
        1,
        "9435 1122 6412,5903 703 5301,3582 359 1825,45860 4169 12472",
    ),
    (1, "539 1 1,535 55 283,211465 266 591,241 18 46,226 13 83"),
    (1, "80260 7719 44514,505 70 173,760 508 736,148888 9 34766"),
    (
        2,
        "157654 10856 111726,395394 110383 213203,859433 369631 838838,154773 44503 105426",
    ),
    (
        3,
        "326553 239 510,117 36 115,232 41 120,159321 16105 79407,348 89 284,391 56 282",
    ),
];

/// A small deterministic source of random numbers (splitmix64).
pub struct Random(pub u64);

impl Random {
    /// A number from `low` to `high`.
    pub fn between(&mut self, low: u32, high: u32) -> u32 {
        self.0 = self.0.wrapping_add(0x9e37_79b9_7f4a_7c15);
        let word = (self.0 ^ (self.0 >> 30)).wrapping_mul(0xbf58_476d_1ce4_e5b9);
        let word = (word ^ (word >> 27)).wrapping_mul(0x94d0_49bb_1331_11eb);
        low + ((word ^ (word >> 31)) % u64::from(high - low + 1)) as u32
    }
}

// One of the six orders of the columns.
fn column_order(random: &mut Random) -> [usize; 3] {
    let first = random.between(0, 2) as usize;
    let step = random.between(1, 2) as usize;
    [first, (first + step) % 3, (first + 2 * step) % 3]
}

fn text_of(tasks: &[Task], order: [usize; 3]) -> Vec<u8> {
    let mut text = order.map(|name| NAMES[name]).join(" ") + "\n";
    for task in tasks {
        let values = [task.period, task.budget, task.deadline];
        text += &order.map(|name| values[name].to_string()).join(" ");
        text += "\n";
    }
    text.into_bytes()
}

// A task whose budget is `share` thousandths of its deadline.
fn with_share(frame: &Task, share: u32) -> Task {
    let budget = u64::from(frame.deadline) * u64::from(share) / 1000;
    Task {
        budget: (budget as u32).max(1),
        ..*frame
    }
}

fn with_shares(frames: &[Task], share: u32) -> Vec<Task> {
    frames
        .iter()
        .map(|frame| with_share(frame, share))
        .collect()
}

// Periods of one to six digits, and deadlines from half the period up.
fn frames(random: &mut Random, tasks: usize) -> Vec<Task> {
    let most = [9u32, 60, 500, 20_000, 1_000_000][random.between(0, 4) as usize];
    let frame = |_| {
        let period = random.between(most.min(20).div_ceil(2), most);
        let deadline = random.between(period.div_ceil(2), period);
        Task {
            period,
            budget: 1,
            deadline,
        }
    };
    (0..tasks).map(frame).collect()
}

// Half as many cores as tasks, rounded up.
fn half_as_many(tasks: usize) -> u32 {
    tasks.div_ceil(2) as u32
}

// Each table twice: with the share at its boundary, and with the one before.
fn pairs(
    tasks: usize,
    cores: u32,
    tables: usize,
    boundary: fn(&[Task], u32) -> Option<u32>,
) -> Vec<Case> {
    let mut random = Random(tasks as u64);
    let mut cases = Vec::new();
    while cases.len() < 2 * tables {
        let frames = frames(&mut random, tasks);
        let order = column_order(&mut random);
        let Some(share) = boundary(&frames, cores) else {
            continue;
        };
        for share in [share - 1, share] {
            let text = text_of(&with_shares(&frames, share), order);
            cases.push(Case { text, cores });
        }
    }
    cases
}

// The first share that a test refuses where it admits the one before.
fn first_refused(frames: &[Task], test: impl Fn(&[Task]) -> bool) -> Option<u32> {
    let verdict = |share: u32| test(&with_shares(frames, share));
    (2..=1000).find(|&share| verdict(share - 1) && !verdict(share))
}

/// Tables of so many tasks: each twice, just admitted by the window test and just not.
pub fn near_window_boundary(tasks: usize, tables: usize) -> Vec<Case> {
    pairs(tasks, half_as_many(tasks), tables, |frames, cores| {
        first_refused(frames, |tasks| window_test(tasks, cores))
    })
}

/// Tables of so many tasks: each twice, just admitted by the slack test and just not. The window
/// test admits neither. None exist where the tasks are at most one more than the cores, since a
/// refusal by the window test then means that all sums reach and every slack stays 0: so 3 tasks
/// are tested on 1 core.
pub fn near_slack_boundary(tasks: usize, tables: usize) -> Vec<Case> {
    let cores = half_as_many(tasks).min(tasks as u32 - 2);
    pairs(tasks, cores, tables, |frames, cores| {
        let share = first_refused(frames, |tasks| slack_test(tasks, cores).admitted)?;
        let sharper = !window_test(&with_shares(frames, share - 1), cores);
        sharper.then_some(share)
    })
}

/// Tables that the limit on the rounds cuts off: for the comparison only.
pub fn cut_off() -> Vec<Case> {
    let case = |(cores, lines): (u32, &str)| {
        let text = format!("{}\n{}\n", NAMES.join(" "), lines.replace(',', "\n")).into_bytes();
        assert!(judge(&text, cores).is_ok_and(|verdict| verdict.rounds == MAX_ROUNDS));
        Case { text, cores }
    };
    CUT_OFF.map(case).into()
}

/// Texts that are refused, and every prefix of a good one: for the comparison only.
pub fn refused() -> Vec<Case> {
    let good = near_window_boundary(32, 1).remove(0).text;
    let line = "PERIOD BUDGET DEADLINE\n";
    let mut texts: Vec<Vec<u8>> = (0..=good.len()).map(|len| good[..len].to_vec()).collect();
    for lines in [
        "5 5 4\n", "5 05 5\n", "5 0 5\n", "5 5 5 \n", "5 5\n", "5 5 x\n", " 5 5 5\n",
    ] {
        texts.push(format!("{line}4 1 4\n{lines}").into_bytes());
    }
    for lines in [
        "1000000 1 1\n",
        "1000001 1 1\n",
        "10000000 1 1\n",
        "00000001 1 1\n",
    ] {
        texts.push(format!("{line}{lines}").into_bytes());
    }
    for names in [
        "PERIOD BUDGET BUDGET\n",
        "PERIOD BUDGET\n",
        "period BUDGET DEADLINE\n",
    ] {
        texts.push(format!("{names}4 1 4\n").into_bytes());
    }
    texts.push([&good[..], b"4 1 4\n"].concat());
    texts.push(vec![b'5'; 4_096]);
    texts.push(vec![b'5'; 4_097]);
    let cores = [0, 1, 16, 17];
    let case = |text: &Vec<u8>| {
        cores.map(|cores| Case {
            text: text.clone(),
            cores,
        })
    };
    texts.iter().flat_map(case).collect()
}

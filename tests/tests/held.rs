//! Tables that tell both tests from versions that hold a number in too few bits (document
//! 02, change 7), each beside one whose numbers such a version still holds: the answers as
//! literals, by the models, the programs and the C entry, and the wrong versions that
//! answer otherwise. A cut or capped sum is never larger, so it only admits more; a cut
//! m·A or slack only refuses more.

use edzl_tests::held::{
    Answer, CAP_16, CAP_GOAL, CAP_PERIOD, GOAL_16, PART_16, PRODUCT_32, RIGHT, SLACK_16, SUM_16,
    SUM_24, WRONG,
};
use edzl_tests::tasks::Task;
use edzl_tests::texts::{ORDERS, write};
use edzl_tests::{host, program, slack, window};

// A table, each task so many times, on so many cores.
struct Told {
    name: &'static str,
    cores: u32,
    groups: &'static [(usize, Task)],
    right: Answer,
    // The wrong versions with another answer.
    others: &'static [(&'static [&'static str], Answer)],
}

const fn task(period: u32, budget: u32, deadline: u32) -> Task {
    Task::new(period, budget, deadline)
}

// Always busy, and so without spare.
const ONE: Task = task(1, 1, 1);
const LARGEST: Task = task(1_000_000, 1, 1_000_000);

const fn answer(count: u32, window: bool, rounds: u32, slack: bool) -> Answer {
    Answer {
        count,
        window,
        rounds,
        slack,
    }
}

// By both tests, and the slacks of the first round stay.
const fn admitted(count: u32) -> Answer {
    answer(count, true, 2, true)
}

// By both tests, and no slack is above 0.
const fn refused(count: u32) -> Answer {
    answer(count, false, 1, false)
}

const TOLD: [Told; 17] = [
    // 14,999,985 against 15,999,984, whose low 16 bits are 9,200.
    Told {
        name: "16 cores, 15 always busy",
        cores: 16,
        groups: &[(1, LARGEST), (15, ONE)],
        right: admitted(15),
        others: &[(&[GOAL_16], answer(16, true, 1, true))],
    },
    // 14,999,986 against 15,999,984.
    Told {
        name: "16 cores, 15 always busy and two tasks",
        cores: 16,
        groups: &[(2, LARGEST), (15, ONE)],
        right: admitted(15),
        others: &[(&[GOAL_16], refused(17))],
    },
    // 15,999,984, at m·A; its low 16 bits are 9,200.
    Told {
        name: "16 cores, 16 always busy",
        cores: 16,
        groups: &[(1, LARGEST), (16, ONE)],
        right: refused(17),
        others: &[(
            &[SUM_16, PART_16, CAP_16, CAP_PERIOD, CAP_GOAL],
            admitted(16),
        )],
    },
    // 30,999,969, the largest sum; its low 16 bits are 1,441.
    Told {
        name: "16 cores, 31 always busy",
        cores: 16,
        groups: &[(1, LARGEST), (31, ONE)],
        right: refused(32),
        others: &[(
            &[SUM_16, SUM_24, PART_16, CAP_16, CAP_PERIOD, CAP_GOAL],
            answer(31, false, 2, false),
        )],
    },
    // 10·999,999 + 15·461,536 + 6, where 15 tasks take twice 230,768 slots. Those have
    // 10·538,464 + 14·230,768 + 7 = 8,615,399, below 16·538,464 = 8,615,424.
    Told {
        name: "7 sums of 16,923,036 on 16 cores",
        cores: 16,
        groups: &[
            (10, ONE),
            (15, task(769_232, 230_768, 769_232)),
            (7, LARGEST),
        ],
        right: answer(17, false, 2, false),
        others: &[
            (&[SUM_16, SUM_24, PART_16], answer(10, true, 3, true)),
            (&[GOAL_16], refused(32)),
            (&[PRODUCT_32], answer(10, true, 4, true)),
            (&[CAP_16, CAP_PERIOD, CAP_GOAL], admitted(10)),
        ],
    },
    // The largest of 16 bits.
    Told {
        name: "a sum of 65,535, at m·A",
        cores: 1,
        groups: &[(1, task(65_536, 1, 65_536)), (1, ONE)],
        right: refused(2),
        others: &[],
    },
    // The same with a slot more: low 16 bits of 0.
    Told {
        name: "a sum of 65,536, at m·A",
        cores: 1,
        groups: &[(1, task(65_537, 1, 65_537)), (1, ONE)],
        right: refused(2),
        others: &[(&[SUM_16, PART_16, CAP_16], admitted(1))],
    },
    // 65,535 slots of a period of 65,537 are a product of 2^32 − 1.
    Told {
        name: "a sum of 65,535, one below m·A",
        cores: 1,
        groups: &[
            (1, task(65_537, 1, 65_537)),
            (1, task(65_537, 65_535, 65_535)),
        ],
        right: admitted(1),
        others: &[(&[GOAL_16], refused(2))],
    },
    // Parts that 16 bits hold, and a sum that they do not.
    Told {
        name: "a sum of 16·4,096, at m·A",
        cores: 16,
        groups: &[(1, task(4_097, 1, 4_097)), (16, ONE)],
        right: refused(17),
        others: &[(&[SUM_16, CAP_16], admitted(16))],
    },
    Told {
        name: "a sum of 16·4,096 − 1, one below m·A",
        cores: 16,
        groups: &[
            (1, task(4_097, 1, 4_097)),
            (15, ONE),
            (1, task(4_097, 4_095, 4_095)),
        ],
        right: admitted(16),
        others: &[(&[GOAL_16], refused(17))],
    },
    // 65,536 slots of a period of 65,536.
    Told {
        name: "a product of 2^32",
        cores: 1,
        groups: &[
            (1, task(65_536, 1, 65_536)),
            (1, task(65_536, 65_536, 65_536)),
        ],
        right: refused(2),
        others: &[(&[PRODUCT_32], admitted(1))],
    },
    // 4,294 slots of a period of 1,000,000.
    Told {
        name: "a product of 4,294,000,000",
        cores: 1,
        groups: &[
            (1, task(1_000_000, 995_706, 1_000_000)),
            (1, task(1_000_000, 4_294, 4_294)),
        ],
        right: refused(2),
        others: &[],
    },
    // The same with a slot more: 32,704 more than 2^32.
    Told {
        name: "a product of 4,295,000,000",
        cores: 1,
        groups: &[
            (1, task(1_000_000, 995_705, 1_000_000)),
            (1, task(1_000_000, 4_295, 4_295)),
        ],
        right: refused(2),
        others: &[(&[PRODUCT_32], admitted(1))],
    },
    // The longest period.
    Told {
        name: "a sum of 1,000,000, at m·A",
        cores: 2,
        groups: &[(1, task(500_001, 1, 500_001)), (2, ONE)],
        right: refused(3),
        others: &[(&[SUM_16, PART_16, CAP_16], admitted(2))],
    },
    Told {
        name: "a sum of 1,000,002, at m·A",
        cores: 2,
        groups: &[(1, task(500_002, 1, 500_002)), (2, ONE)],
        right: refused(3),
        others: &[(&[SUM_16, PART_16, CAP_16, CAP_PERIOD], admitted(2))],
    },
    // The smallest table that only the slack test admits, 65,535 times as long.
    Told {
        name: "slacks of 65,535",
        cores: 1,
        groups: &[
            (1, task(262_140, 65_535, 65_535)),
            (1, task(262_140, 65_535, 262_140)),
            (1, task(327_675, 65_535, 327_675)),
        ],
        right: answer(2, false, 3, true),
        others: &[
            (&[SUM_16], answer(1, true, 4, true)),
            (&[PART_16, PRODUCT_32], answer(1, true, 3, true)),
            (&[GOAL_16], refused(3)),
            (&[CAP_16], admitted(1)),
        ],
    },
    // The same 65,536 times as long.
    Told {
        name: "slacks of 65,536",
        cores: 1,
        groups: &[
            (1, task(262_144, 65_536, 65_536)),
            (1, task(262_144, 65_536, 262_144)),
            (1, task(327_680, 65_536, 327_680)),
        ],
        right: answer(2, false, 3, true),
        others: &[
            (&[SUM_16, PART_16, PRODUCT_32, CAP_16], admitted(1)),
            (&[GOAL_16], refused(3)),
            (&[SLACK_16], refused(2)),
        ],
    },
];

impl Told {
    fn table(&self) -> Vec<Task> {
        let groups = self.groups.iter();
        let tasks = groups.flat_map(|(times, task)| vec![*task; *times]);
        tasks.collect()
    }

    // What a wrong version answers.
    fn answer(&self, wrong: &str) -> Answer {
        let mut others = self.others.iter();
        let listed = others.find(|(names, _)| names.contains(&wrong));
        listed.map_or(self.right, |(_, answer)| *answer)
    }
}

// The line that a program prints for m cores.
fn line(output: Vec<u8>, cores: u32) -> String {
    let lines = String::from_utf8(output).expect("lines of text");
    let m = usize::try_from(cores).expect("a few cores");
    lines.lines().nth(m).unwrap_or("nothing").to_string()
}

#[test]
fn answers_of_the_models() {
    for told in &TOLD {
        let (table, name) = (told.table(), told.name);
        let verdict = window::judge(&table, told.cores).expect("a verdict");
        let judged = slack::judge(&table, told.cores).expect("a verdict");
        let met = answer(
            verdict.count,
            verdict.admitted,
            judged.rounds,
            judged.admitted,
        );
        assert_eq!(met, told.right, "{name}");
        assert_eq!(RIGHT.answer(&table, told.cores), told.right, "{name}");
    }
}

#[test]
fn answers_of_the_entry_and_the_programs() {
    for told in &TOLD {
        let (name, cores, right) = (told.name, told.cores, told.right);
        let text = write(&told.table(), ORDERS[0]);
        let (window, slack) = (u32::from(right.window), u32::from(right.slack));
        assert_eq!(host::admit(&text, cores), slack, "edzl_admit, {name}");
        let printed = line(program::verdict_output(&text), cores);
        let expected = format!("{cores} {} {window}", right.count);
        assert_eq!(printed, expected, "verdict, {name}");
        let printed = line(program::sharper_output(&text), cores);
        let expected = format!("{cores} {} {slack}", right.rounds);
        assert_eq!(printed, expected, "sharper, {name}");
    }
}

// Those not listed answer as the right one.
#[test]
fn wrong_versions() {
    for told in &TOLD {
        for (wrong, version) in WRONG {
            let met = version.answer(&told.table(), told.cores);
            assert_eq!(met, told.answer(wrong), "{wrong}, {}", told.name);
        }
    }
}

// By the entry's answer, by the rounds and by COUNT, in which slacks play no part.
#[test]
fn every_wrong_version_is_told_apart() {
    for (wrong, _) in WRONG {
        let differs = |so: fn(&Answer, &Answer) -> bool| {
            let mut tables = TOLD.iter();
            tables.any(|told| so(&told.right, &told.answer(wrong)))
        };
        let by_entry = differs(|right, other| right.slack != other.slack);
        let by_rounds = differs(|right, other| right.rounds != other.rounds);
        let by_count = differs(|right, other| right.count != other.count);
        let by_window = differs(|right, other| right.window != other.window);
        let in_window = wrong != SLACK_16;
        let met = [by_entry, by_rounds, by_count, by_window];
        assert_eq!(met, [true, true, in_window, in_window], "{wrong}");
    }
}

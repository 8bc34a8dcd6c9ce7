//! Document 000, section 3: its numbers of task sets and of test instances, and what the
//! window test, the document's slack-based test and the slack test admit of them.
//!
//! The document gives one number of instances that its slack-based test admits, for
//! three to six tasks together: 609,085,609. Its Algorithm 1 in double precision gives
//! just that, 6,908 instances of six tasks on three processors among them by the rounding
//! of one third. The slack test differs in three ways. It makes its rounds at once and
//! goes on when at most m tasks have no slack; that changes no verdict where rounds end
//! by themselves. And its slacks are whole slots, rounded up, where the document's are
//! reals: so it admits whatever the document's test admits, and more from five tasks on.

use std::collections::BTreeMap;
use std::ops::Range;

use edzl_tests::experiment::{
    Counter, PAIRS, cores, for_each_set, for_each_set_of_pair, sets_within, tasks,
};
use edzl_tests::settings::number;
use edzl_tests::slack_counter::SlackCounter;
use edzl_tests::tasks::Task;
use edzl_tests::texts::{ORDERS, write};
use edzl_tests::{document_000, host, parts, program, slack, window};

// Task sets that go through the programs.
const SETS: u64 = 1_200;

// Test instances, and those that each of the tests admits.
#[derive(Debug, Default, PartialEq, Eq)]
struct Count {
    instances: u64,
    window: u64,
    document: u64,
    slack: u64,
}

const fn count([instances, window, document, slack]: [u64; 4]) -> Count {
    Count {
        instances,
        window,
        document,
        slack,
    }
}

impl Count {
    fn add(&mut self, [window, document, slack]: [bool; 3]) {
        self.instances += 1;
        self.window += u64::from(window);
        self.document += u64::from(document);
        self.slack += u64::from(slack);
    }

    fn add_all(&mut self, other: &Count) {
        self.instances += other.instances;
        self.window += other.window;
        self.document += other.document;
        self.slack += other.slack;
    }
}

// By number of cores.
type Counts = BTreeMap<u32, Count>;

// One test instance.
struct Instance<'a> {
    set: &'a [usize],
    table: &'a [Task],
    cores: u32,
}

// The tests by counting slots.
struct Counters {
    window: Counter,
    slack: SlackCounter,
}

// The verdicts of the window test, the document's and the slack test.
type Verdicts = fn(&Counters, &Instance) -> [bool; 3];

fn counts_of_pairs(size: usize, pairs: Range<u64>, verdicts: Verdicts) -> Counts {
    let tasks = tasks();
    let counters = Counters {
        window: Counter::new(&tasks),
        slack: SlackCounter::new(&tasks),
    };
    let mut counts = Counts::new();
    let mut table = Vec::new();
    let mut visit = |set: &[usize]| {
        table.clear();
        table.extend(set.iter().map(|place| tasks[*place]));
        for cores in cores(set, &tasks) {
            let table = &table;
            let instance = Instance { set, table, cores };
            let verdicts = verdicts(&counters, &instance);
            counts.entry(cores).or_default().add(verdicts);
        }
    };
    for pair in pairs {
        for_each_set_of_pair(size, pair, &mut visit);
    }
    counts
}

// All instances of so many tasks.
fn counts(size: usize, verdicts: Verdicts) -> Counts {
    let mut counts = Counts::new();
    for part in parts::in_parts(PAIRS, |pairs| counts_of_pairs(size, pairs, verdicts)) {
        for (cores, count) in part {
            counts.entry(cores).or_default().add_all(&count);
        }
    }
    counts
}

// The window test by two ways, and the slack test by three: the C entry is one of them.
fn by_all_ways(counters: &Counters, instance: &Instance) -> [bool; 3] {
    let Instance { set, table, cores } = *instance;
    let window = window::admits(table, cores);
    let counted = counters.window.admits(set, cores);
    assert_eq!(counted, window, "the window test, m = {cores}: {table:?}");
    let answer = host::admit(&write(table, ORDERS[0]), cores);
    let slack = slack::admits(table, cores);
    assert_eq!(
        answer,
        u32::from(slack),
        "edzl_admit, m = {cores}: {table:?}"
    );
    let counted = counters.slack.admits(set, cores);
    assert_eq!(counted, slack, "the counter, m = {cores}: {table:?}");
    let document = document_000::admits(table, cores);
    assert!(slack || !document && !window, "m = {cores}: {table:?}");
    [window, document, slack]
}

// By the counts of slots alone. What the window test admits, the others admit.
fn by_counters(counters: &Counters, instance: &Instance) -> [bool; 3] {
    let Instance { set, table, cores } = *instance;
    let window = counters.window.admits(set, cores);
    let document = window || document_000::admits(table, cores);
    let slack = window || counters.slack.admits(set, cores);
    assert!(slack || !document, "m = {cores}: {table:?}");
    [window, document, slack]
}

// Three tasks on two cores: with at most m + 1 tasks the tests agree.
#[test]
fn three_tasks() {
    let expected = [(2, count([71_303, 52_421, 52_421, 52_421]))];
    assert_eq!(counts(3, by_all_ways), BTreeMap::from(expected));
}

// 2,459,418 instances.
#[test]
fn four_tasks() {
    let expected = [
        (2, count([834_311, 315_297, 326_301, 326_301])),
        (3, count([1_625_107, 1_311_139, 1_311_139, 1_311_139])),
    ];
    assert_eq!(counts(4, by_all_ways), BTreeMap::from(expected));
}

// 54,515,633 instances: some minutes.
#[test]
#[ignore = "long"]
fn five_tasks() {
    let expected = [
        (2, count([5_378_611, 927_923, 1_036_970, 1_044_782])),
        (3, count([21_930_253, 9_149_952, 9_411_795, 9_411_795])),
        (4, count([27_206_769, 23_887_864, 23_887_864, 23_887_864])),
    ];
    assert_eq!(counts(5, by_all_ways), BTreeMap::from(expected));
}

// 943,706,052 instances, and all of three to six tasks together. "The number of test
// instances admitted by the slack-based test is 609,085,609."
#[test]
#[ignore = "long"]
fn six_tasks_and_the_number_of_the_document() {
    let expected = [
        (2, count([21_641_785, 1_755_428, 2_134_230, 2_174_854])),
        (3, count([188_848_542, 34_389_035, 37_220_056, 37_403_946])),
        (
            4,
            count([355_869_223, 179_972_776, 184_019_419, 184_019_419]),
        ),
        (
            5,
            count([377_346_502, 349_685_414, 349_685_414, 349_685_414]),
        ),
    ];
    let six = counts(6, by_counters);
    assert_eq!(six, BTreeMap::from(expected));
    let mut all = Count::default();
    for counts in [3, 4, 5].map(|size| counts(size, by_counters)) {
        counts.values().for_each(|count| all.add_all(count));
    }
    six.values().for_each(|count| all.add_all(count));
    let expected = count([1_000_752_406, 601_447_249, 609_085_609, 609_317_935]);
    assert_eq!(all, expected);
}

// About so many sets of this size, spread over all of them.
fn sample(size: usize, sets: u64) -> Vec<Vec<usize>> {
    let all = sets_within(size, 6);
    let stride = (all / sets.max(1)).max(1);
    let (mut sample, mut index) = (Vec::new(), 0);
    for_each_set(size, &mut |set| {
        if index % stride == 0 {
            sample.push(set.to_vec());
        }
        index += 1;
    });
    sample
}

// The last numbers of the lines after the names, for m = 1 and so on.
fn printed(output: Vec<u8>) -> Vec<bool> {
    let output = String::from_utf8(output).expect("lines of text");
    let lines = output.lines().skip(1);
    lines.map(|line| line.ends_with(" 1")).collect()
}

// The verdicts that the programs print against the counts of slots. The C entry does
// not give the window test's, so that a part of the sets goes through verdict.
#[test]
fn task_sets_through_the_programs() {
    let sets = number("SETS", SETS);
    let sets = [sample(3, sets / 2), sample(4, sets / 2)].concat();
    let tasks = tasks();
    let (counter, slack_counter) = (Counter::new(&tasks), SlackCounter::new(&tasks));
    let all = u64::try_from(sets.len()).expect("a count of 64 bits");
    parts::in_parts(all, |part| {
        for place in part {
            let set = &sets[usize::try_from(place).expect("a place of the list")];
            let table: Vec<Task> = set.iter().map(|place| tasks[*place]).collect();
            let text = write(&table, ORDERS[0]);
            let verdict = printed(program::verdict_output(&text));
            let sharper = printed(program::sharper_output(&text));
            let cores = 1..=u32::try_from(set.len()).expect("a few tasks");
            let window: Vec<bool> = cores.clone().map(|m| counter.admits(set, m)).collect();
            assert_eq!(verdict, window, "verdict: {table:?}");
            let slack: Vec<bool> = cores.map(|m| slack_counter.admits(set, m)).collect();
            assert_eq!(sharper, slack, "sharper: {table:?}");
        }
    });
}

// "The total number of task sets generated in this range is 406,478,384." As
// many cores as tasks take every task set.
#[test]
fn task_sets_of_the_document() {
    let sets = (3..=6).map(|size| sets_within(size, 6));
    assert_eq!(sets.sum::<u64>(), 406_478_384);
}

// "The total number of test instances is 1,000,752,406."
#[test]
fn test_instances_of_the_document() {
    let instances = [(3, 3), (4, 4), (5, 5), (6, 6)].map(|(size, bound)| {
        let cores = 2..bound;
        cores.map(|cores| sets_within(size, cores)).sum::<u64>()
    });
    assert_eq!(instances, [71_303, 2_459_418, 54_515_633, 943_706_052]);
    assert_eq!(instances.iter().sum::<u64>(), 1_000_752_406);
}

//! Generated scripts: everything that the program prints against the simulated
//! machine, the rules of cores on what it prints, and demand 3 on what it prints for
//! admitted tables. SEED and SCRIPTS change which and how many; some 2,000 scripts
//! meet every kind of answer.

use std::collections::{BTreeMap, BTreeSet};
use std::io::{Write, stdout};
use std::ops::Range;

use edzl_tests::cores::Assigned;
use edzl_tests::machine::Slot;
use edzl_tests::promise::Kept;
use edzl_tests::reading::read;
use edzl_tests::script::{Answer, Call, Script, lines};
use edzl_tests::tasks::MOST_TASKS;
use edzl_tests::ties::Ties;
use edzl_tests::{
    assignment, cores, need_events, offer_events, parts, program, promise, scripts, settings, ties,
    window, wrong,
};

const SCRIPTS: u64 = 20_000;

// Every kind of answer that can happen, and no other may. Among the others are
// number 0, since calls from a start leave no unsound machine, and number 10, which
// stays empty: the gap of an open job is above 0, so that 9 refuses its release.
const KINDS: [&str; 23] = [
    "CALLS BAD LINE",
    "COMMIT DONE",
    "COMMIT REFUSED 17",
    "FINISH DONE",
    "FINISH REFUSED 11",
    "FINISH REFUSED 8",
    "OFFER DONE",
    "OFFER REFUSED 12",
    "OFFER REFUSED 13",
    "OFFER REFUSED 5",
    "RELEASE DONE",
    "RELEASE REFUSED 15",
    "RELEASE REFUSED 8",
    "RELEASE REFUSED 9",
    "SLOT",
    "SLOT REFUSED 14",
    "TABLE REFUSED 1",
    "TABLE REFUSED 2",
    "TABLE REFUSED 3",
    "TABLE REFUSED 4",
    "TABLE REFUSED 5",
    "TABLE REFUSED 6",
    "TABLE REFUSED 7",
];

// What must happen among them with the events of a slot's cores, of needs and of offers,
// and nothing else may: no late job on an admitted table, no tie there among more urgent
// tasks than cores, and no accepted offer or commit on a refused one.
const EVENTS: [&str; 41] = [
    "a core above k, given up",
    "a core kept from the slot before",
    "a finish before the job ran",
    "a finish of a job that ran",
    "a job closed by a finish in time, table admitted",
    "a job closed by fewer runs than C in time, table admitted",
    "a job closed by running in time, table admitted",
    "a job closed in time past a commit, table admitted",
    "a job closed in time past a refused slot, table admitted",
    "a job closed in time past an offer, table admitted",
    "a job closed in time, of an added task, table admitted",
    "a job closed in time, too late if refused slots counted, table admitted",
    "a job open at the last call, table admitted",
    "a job closed by running in time, table admitted by the slack test alone",
    "a job closed by running in time, table refused by slacks rounded down",
    "a late job, table refused",
    "a refused slot of k above 16 while a job is open",
    "a refused slot of k below m while a job is open",
    "a slot of 16 runners",
    "a slot of another k than the slot before",
    "a slot of k = 16 above m and one open task",
    "a slot of k = m and more open tasks",
    "a slot of k above m and more open tasks",
    "a slot of more open tasks than m and fewer than k",
    "a slot of more than m runners, table admitted",
    "a slot of more than m runners, table refused",
    "a slot of nobody",
    "a slot that reports finished and late jobs",
    "a slot that ties by number would change, among tasks not urgent, table admitted",
    "a slot that ties by number would change, among tasks not urgent, table refused",
    "a slot that ties by number would change, among urgent tasks, table refused",
    "a slot that ties by the table's C would change, among tasks not urgent, table admitted",
    "a slot that ties by the table's C would change, among tasks not urgent, table refused",
    "a slot that ties by the table's C would change, among urgent tasks, table refused",
    "a table admitted",
    "a table admitted by the slack test alone",
    "a table grown to 32 tasks",
    "a table not admitted",
    "a task back after a pause, on another core",
    "an accepted commit, table admitted",
    "an accepted offer, table admitted",
];

// What shows that the budget breaks ties, on refused and on admitted tables.
const TIES: [[&str; 2]; 4] = [
    [
        "a slot that ties by number would change, among urgent tasks, table refused",
        "a slot that ties by number would change, among urgent tasks, table admitted",
    ],
    [
        "a slot that ties by number would change, among tasks not urgent, table refused",
        "a slot that ties by number would change, among tasks not urgent, table admitted",
    ],
    [
        "a slot that ties by the table's C would change, among urgent tasks, table refused",
        "a slot that ties by the table's C would change, among urgent tasks, table admitted",
    ],
    [
        "a slot that ties by the table's C would change, among tasks not urgent, table refused",
        "a slot that ties by the table's C would change, among tasks not urgent, table admitted",
    ],
];

// Scripts for which each of them that can happen must be met once on average.
const SCRIPTS_FOR_A_TIE: u64 = 10;

// The same for each event of needs, and for each of offers.
const SCRIPTS_FOR_A_NEED: u64 = 20;
const SCRIPTS_FOR_AN_OFFER: u64 = 20;

// How often each kind and each event was met.
#[derive(Default)]
struct Tally {
    kinds: BTreeMap<String, u64>,
    events: BTreeMap<&'static str, u64>,
}

impl Tally {
    fn event(&mut self, name: &'static str, times: u64) {
        if times > 0 {
            *self.events.entry(name).or_default() += times;
        }
    }

    fn add(&mut self, other: Tally) {
        for (kind, times) in other.kinds {
            *self.kinds.entry(kind).or_default() += times;
        }
        for (name, times) in other.events {
            self.event(name, times);
        }
    }

    fn record(&mut self, script: &Script, answers: &[Answer]) {
        if script.start().is_err() {
            return self.kind(format!("TABLE {}", answers[0]));
        }
        let admitted = promise::applies(script);
        let verdict = ["a table not admitted", "a table admitted"];
        self.event(verdict[usize::from(admitted)], 1);
        let alone = u64::from(admitted && !window_admits(script));
        self.event("a table admitted by the slack test alone", alone);
        for (call, answer) in script.calls.iter().zip(answers) {
            self.kind(kind(*call, *answer));
        }
        let slots = answers.iter().filter_map(|answer| match answer {
            Answer::Ran(slot) => Some(*slot),
            _ => None,
        });
        slots.for_each(|slot| self.slot(slot, script.cores, admitted));
        self.cores(script, answers);
        self.changes_of_k(script, answers);
        self.finishes(script, answers);
        self.offers(script, answers, admitted);
        self.ties(script, admitted);
        let needs = need_events::met(script).into_iter();
        let offers = offer_events::met(script, answers).into_iter();
        for name in assignment::met(script)
            .into_iter()
            .chain(needs)
            .chain(offers)
        {
            self.event(name, 1);
        }
    }

    fn kind(&mut self, kind: String) {
        *self.kinds.entry(kind).or_default() += 1;
    }

    fn slot(&mut self, slot: Slot, m: u32, admitted: bool) {
        let names = ["a late job, table refused", "a late job, table admitted"];
        let late = u64::from(slot.late.count_ones());
        self.event(names[usize::from(admitted)], late);
        let both = u64::from(slot.finished != 0 && slot.late != 0);
        self.event("a slot that reports finished and late jobs", both);
        self.event("a slot of nobody", u64::from(slot.runners == 0));
        self.event("a slot of 16 runners", u64::from(slot.runners == 16));
        let names = [
            "a slot of more than m runners, table refused",
            "a slot of more than m runners, table admitted",
        ];
        let more = u64::from(slot.runners > m);
        self.event(names[usize::from(admitted)], more);
    }

    // The k of each slot against m and the tasks open before it, which the
    // answers tell.
    fn cores(&mut self, script: &Script, answers: &[Answer]) {
        let (m, mut open) = (script.cores, 0u32);
        for (call, answer) in script.calls.iter().zip(answers) {
            match (call, answer) {
                (Call::Release(number, _), Answer::Done) => open |= 1 << (number - 1),
                (Call::Finish(number), Answer::Done) => open &= !(1 << (number - 1)),
                (Call::Slot(k), Answer::Ran(slot)) => {
                    self.accepted_slot(m, *k, open.count_ones());
                    open &= !(slot.finished | slot.late);
                }
                (Call::Slot(k), Answer::Refused(_)) if open != 0 => self.refused_slot(m, *k),
                _ => {}
            }
        }
    }

    fn accepted_slot(&mut self, m: u32, k: u32, open: u32) {
        let met = [
            ("a slot of k = m and more open tasks", k == m && k < open),
            ("a slot of k above m and more open tasks", m < k && k < open),
            (
                "a slot of more open tasks than m and fewer than k",
                m < open && open < k,
            ),
            (
                "a slot of k = 16 above m and one open task",
                m < k && k == 16 && open == 1,
            ),
        ];
        for (name, met) in met {
            self.event(name, u64::from(met));
        }
    }

    // While a job is open.
    fn refused_slot(&mut self, m: u32, k: u32) {
        let below = u64::from(k < m);
        self.event("a refused slot of k below m while a job is open", below);
        let above = u64::from(k > 16);
        self.event("a refused slot of k above 16 while a job is open", above);
    }

    // Accepted slots, each against the accepted one before it.
    fn changes_of_k(&mut self, script: &Script, answers: &[Answer]) {
        let calls = script.calls.iter().zip(answers);
        let accepted = calls.filter_map(|pair| match pair {
            (Call::Slot(k), Answer::Ran(_)) => Some(*k),
            _ => None,
        });
        let numbers: Vec<u32> = accepted.collect();
        let changes = numbers.windows(2).filter(|pair| pair[0] != pair[1]);
        let times = counted(changes.count());
        self.event("a slot of another k than the slot before", times);
    }

    // The released jobs of an admitted table.
    fn kept(&mut self, script: &Script, kept: Kept) {
        if !window_admits(script) {
            let name = "a job closed by running in time, table admitted by the slack test alone";
            self.event(name, kept.by_running);
        }
        if !rounded_up_admits(script) {
            let name = "a job closed by running in time, table refused by slacks rounded down";
            self.event(name, kept.by_running);
        }
        let names = [
            "a job closed by running in time, table admitted",
            "a job closed by a finish in time, table admitted",
            "a job open at the last call, table admitted",
            "a job closed in time past a refused slot, table admitted",
            "a job closed in time, too late if refused slots counted, table admitted",
            "a job closed by fewer runs than C in time, table admitted",
            "a job closed in time, of an added task, table admitted",
            "a job closed in time past an offer, table admitted",
            "a job closed in time past a commit, table admitted",
        ];
        self.event(names[0], kept.by_running);
        self.event(names[1], kept.by_a_finish);
        self.event(names[2], kept.undecided);
        self.event(names[3], kept.past_refused_slots);
        self.event(names[4], kept.too_late_if_counted);
        self.event(names[5], kept.by_fewer_runs_than_c);
        self.event(names[6], kept.of_added_tasks);
        self.event(names[7], kept.past_offers);
        self.event(names[8], kept.past_commits);
    }

    // The runners of a script, by what became of their cores.
    fn assigned(&mut self, assigned: Assigned) {
        self.event("a core kept from the slot before", assigned.kept);
        self.event("a core above k, given up", assigned.above_k);
        let back = assigned.back_on_another;
        self.event("a task back after a pause, on another core", back);
    }

    // Accepted finishes, of jobs that ran since their release and of others.
    fn finishes(&mut self, script: &Script, answers: &[Answer]) {
        let mut ran = 0;
        for (call, answer) in script.calls.iter().zip(answers) {
            match (call, answer) {
                (Call::Slot(_), Answer::Ran(slot)) => ran |= slot.ran,
                (Call::Release(number, _), Answer::Done) => ran &= !(1 << (number - 1)),
                (Call::Finish(number), Answer::Done) => {
                    let did_run = ran >> (number - 1) & 1;
                    self.event("a finish of a job that ran", u64::from(did_run));
                    self.event("a finish before the job ran", u64::from(1 - did_run));
                }
                _ => {}
            }
        }
    }

    // Accepted offers and commits, and whether these filled the table.
    fn offers(&mut self, script: &Script, answers: &[Answer], admitted: bool) {
        let calls = || script.calls.iter().zip(answers);
        let offers = calls().filter(|pair| matches!(pair, (Call::Offer(_), Answer::Done)));
        let names = [
            "an accepted offer, table refused",
            "an accepted offer, table admitted",
        ];
        self.event(names[usize::from(admitted)], counted(offers.count()));
        let commits = calls().filter(|pair| *pair == (&Call::Commit, &Answer::Done));
        let commits = commits.count();
        let names = [
            "an accepted commit, table refused",
            "an accepted commit, table admitted",
        ];
        self.event(names[usize::from(admitted)], counted(commits));
        let start = script.start().expect("a started machine").table.len();
        let full = commits > 0 && start + commits == MOST_TASKS;
        self.event("a table grown to 32 tasks", u64::from(full));
    }

    // Accepted slots that would run other tasks if the budget broke no ties.
    fn ties(&mut self, script: &Script, admitted: bool) {
        let Ties {
            by_number,
            by_table,
        } = ties::count(script);
        let times = [
            by_number.urgent,
            by_number.not_urgent,
            by_table.urgent,
            by_table.not_urgent,
        ];
        for (names, times) in TIES.iter().zip(times) {
            self.event(names[usize::from(admitted)], times);
        }
    }

    // Written past the test harness, which hides what a passing test prints.
    fn report(&self, scripts: u64, seed: u64) {
        let calls: u64 = self.kinds.values().sum();
        let mut report = format!("\nreplay compared on {scripts} scripts, seed {seed}:\n");
        report += &format!("  {calls:>9} answers\n");
        for (kind, times) in &self.kinds {
            report += &format!("  {times:>9} {kind}\n");
        }
        for (name, times) in &self.events {
            report += &format!("  {times:>9} {name}\n");
        }
        stdout().write_all(report.as_bytes()).expect("a report");
    }

    // A comparison that never met a kind of answer says nothing about it.
    fn require(&self, scripts: u64) {
        let kinds: Vec<&str> = self.kinds.keys().map(String::as_str).collect();
        assert_eq!(
            kinds, KINDS,
            "the kinds of answers met, and the expected ones"
        );
        let met: BTreeSet<&str> = self.events.keys().copied().collect();
        let of_slots = assignment::EVENTS.iter().map(|(name, _)| *name);
        let expected = EVENTS
            .into_iter()
            .chain(of_slots)
            .chain(offer_events::NAMES);
        let expected: BTreeSet<&str> = expected.chain(need_events::names()).collect();
        assert_eq!(met, expected, "the events met, and the expected ones");
        self.require_often(TIES.iter().flatten().copied(), scripts / SCRIPTS_FOR_A_TIE);
        self.require_often(need_events::names(), scripts / SCRIPTS_FOR_A_NEED);
        let offers = offer_events::NAMES.into_iter();
        self.require_often(offers, scripts / SCRIPTS_FOR_AN_OFFER);
    }

    // Those of these events that were met at all.
    fn require_often(&self, names: impl Iterator<Item = &'static str>, least: u64) {
        for (name, times) in names.filter_map(|name| self.events.get_key_value(name)) {
            assert!(*times >= least, "{times} times, not {least}: {name}");
        }
    }
}

fn counted(times: usize) -> u64 {
    u64::try_from(times).expect("a count of 64 bits")
}

fn window_admits(script: &Script) -> bool {
    read(&script.table).is_ok_and(|table| window::admits(&table, script.cores))
}

// With the quotient rounded up, and so the slacks rounded down.
fn rounded_up_admits(script: &Script) -> bool {
    let rounded_up = wrong::named(wrong::ROUNDED_UP);
    read(&script.table).is_ok_and(|table| rounded_up.judge(&table, script.cores).1)
}

fn kind(call: Call, answer: Answer) -> String {
    let name = match call {
        Call::Release(..) => "RELEASE",
        Call::Finish(_) => "FINISH",
        Call::Slot(_) => "SLOT",
        Call::Offer(_) => "OFFER",
        Call::Commit => "COMMIT",
        Call::Bad(_) => "CALLS",
    };
    match answer {
        Answer::Ran(_) => name.to_string(),
        Answer::BadLine(_) => format!("{name} BAD LINE"),
        Answer::Done | Answer::Refused(_) => format!("{name} {answer}"),
    }
}

// One script through the program: the same output, the rules of cores, and demand 3.
fn compare(script: &Script, tally: &mut Tally) -> Result<(), String> {
    let answers = script.play();
    let (expected, actual) = (lines(&answers), program::replay_output(&script.text()));
    let actual = String::from_utf8_lossy(&actual);
    let failure = |what: &str| {
        let text = script.text();
        format!(
            "{what}\n--- script\n{}\n--- expected\n{expected}\n--- printed\n{actual}",
            String::from_utf8_lossy(&text)
        )
    };
    if promise::applies(script) {
        let kept = promise::check(script, &actual);
        let kept = kept.map_err(|fault| failure(&format!("demand 3 is broken: {fault}")))?;
        tally.kept(script, kept);
    }
    let assigned = cores::check(script, &actual);
    tally.assigned(assigned.map_err(|fault| failure(&format!("cores: {fault}")))?);
    if expected != actual {
        return Err(failure(&program::first_difference(&expected, &actual)));
    }
    tally.record(script, &answers);
    Ok(())
}

fn compare_all(seed: u64, part: Range<u64>) -> Result<Tally, String> {
    let mut tally = Tally::default();
    for index in part {
        let result = compare(&scripts::script(seed, index), &mut tally);
        result.map_err(|failure| format!("seed {seed}, script {index}: {failure}"))?;
    }
    Ok(tally)
}

#[test]
fn generated_scripts_through_replay() {
    let seed = settings::number("SEED", settings::SEED);
    let scripts = settings::number("SCRIPTS", SCRIPTS);
    let mut tally = Tally::default();
    for part in parts::in_parts(scripts, |part| compare_all(seed, part)) {
        tally.add(part.unwrap_or_else(|failure| panic!("{failure}")));
    }
    tally.report(scripts, seed);
    tally.require(scripts);
}

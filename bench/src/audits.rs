//! Lines of a log audited: the proved program against the same in plain C.

use crate::texts::Random;
use crate::timing;
use std::cmp::Reverse;
use std::fmt::Write as _;
use std::fs::{self, File};
use std::io::Write as _;
use std::process::{Command, Stdio};

const ROUNDS: usize = 7;
const LINES: usize = 1_000_000;
const FEW_LINES: usize = 10_000;

// The programs, from the folder of this package.
const PROVED: &str = "../crates/audit/out/audit";
const IN_C: &str = "target/audit";

// A line that releases 32 tasks: the table lacks some of them, or the gap of some is above 0.
const OFFENCE: &str = "4294967295 0 0\n";

// In one slot of so many a job is finished early.
const EARLY: u32 = 64;

/// A task of a dispatcher of another make, and its job.
struct Task {
    period: u32,
    budget: u32,
    deadline: u32,
    /// The slots still owed, 0 where no job is open.
    owed: u32,
    left: u32,
    gap: u32,
}

impl Task {
    // A task that was never released, from its line of a table.
    fn read(line: &str) -> Task {
        let values: Vec<u32> = line
            .split(' ')
            .map(|value| value.parse().expect("a number"))
            .collect();
        Task {
            period: values[0],
            budget: values[1],
            deadline: values[2],
            owed: 0,
            left: 0,
            gap: 0,
        }
    }

    // Releases the task if it may be, and tells so.
    fn release(&mut self) -> bool {
        let allowed = self.gap == 0;
        if allowed {
            (self.owed, self.left, self.gap) = (self.budget, self.deadline, self.period);
        }
        allowed
    }

    // Ends a slot: the job ages, and is dropped where it is late.
    fn age(&mut self, ran: bool) {
        self.owed -= u32::from(ran);
        self.left = self.left.saturating_sub(1);
        self.gap = self.gap.saturating_sub(1);
        if self.left == 0 {
            self.owed = 0;
        }
    }
}

// The sum of 2 to the power of each index.
fn mask(indices: &[usize]) -> u32 {
    indices.iter().map(|&index| 1 << index).sum()
}

fn open(tasks: &[Task]) -> Vec<usize> {
    (0..tasks.len()).filter(|&i| tasks[i].owed > 0).collect()
}

// Finishes a job now and then, one of those that are open.
fn finish(tasks: &mut [Task], random: &mut Random) -> Vec<usize> {
    let open = open(tasks);
    if open.is_empty() || random.between(1, EARLY) > 1 {
        return Vec::new();
    }
    let chosen = open[random.between(0, open.len() as u32 - 1) as usize];
    tasks[chosen].owed = 0;
    vec![chosen]
}

// The open tasks that run: of two that are alike the one with the higher number, which the proved
// machine would not choose.
fn pick(tasks: &[Task], cores: usize) -> Vec<usize> {
    let mut picked = open(tasks);
    picked.sort_unstable_by_key(|&i| {
        let task = &tasks[i];
        (task.left > task.owed, task.left, Reverse(i))
    });
    picked.truncate(cores);
    picked
}

// The log of so many slots in which each task is released as soon as it may be.
fn log(tasks: &mut [Task], cores: usize, lines: usize) -> String {
    let mut random = Random(tasks.len() as u64);
    let mut text = String::from("RELEASED FINISHED RAN\n");
    for _ in 0..lines {
        let released: Vec<usize> = (0..tasks.len()).filter(|&i| tasks[i].release()).collect();
        let finished = finish(tasks, &mut random);
        let ran = pick(tasks, cores);
        for (i, task) in tasks.iter_mut().enumerate() {
            task.age(ran.contains(&i));
        }
        let [released, finished, ran] = [released, finished, ran].map(|named| mask(&named));
        writeln!(text, "{released} {finished} {ran}").expect("a string takes all");
    }
    text
}

// A program's input: the cores, one of the tables of the slots, and a log of so many lines.
fn input(tasks: usize, lines: usize) -> String {
    let table = fs::read_to_string(format!("tables/{tasks}.txt")).expect("the table is there");
    let mut dispatched: Vec<Task> = table.lines().skip(1).map(Task::read).collect();
    let cores = tasks / 2;
    let log = log(&mut dispatched, cores, lines);
    format!("CORES {cores}\n{table}LOG\n{log}")
}

// What a program prints for the input in a file.
fn audited(program: &str, name: &str) -> String {
    let input = File::open(name).expect("the input is there");
    let output = Command::new(program)
        .stdin(Stdio::from(input))
        .output()
        .expect("the program is built");
    String::from_utf8(output.stdout).expect("a line")
}

// Both programs accept the log, and find the offence in a line after it.
fn compare(text: &str, accepted: &str) {
    let offending = "target/audit-offending.log";
    fs::write(offending, format!("{text}{OFFENCE}")).expect("the folder is there");
    for program in [PROVED, IN_C] {
        assert_eq!(audited(program, accepted), "ACCEPTED\n", "{program}");
        let answer = format!("OFFENDS {}\n", LINES + 1);
        assert_eq!(audited(program, offending), answer, "{program}");
    }
}

// The file of the input with a log of LINES lines.
fn file(tasks: usize) -> String {
    format!("target/audit-{tasks}.log")
}

fn line(tasks: usize) {
    let name = file(tasks);
    let text = input(tasks, LINES);
    fs::write(&name, &text).expect("the folder is there");
    compare(&text, &name);
    let mut proved = || drop(audited(PROVED, &name));
    let mut in_c = || drop(audited(IN_C, &name));
    let best = timing::best_of(ROUNDS, &mut [&mut proved, &mut in_c]);
    let [proved, in_c] = [best[0], best[1]].map(|time| time * 1e9 / LINES as f64);
    println!(
        "{tasks:>5} {:>5} {proved:>9.0} {in_c:>9.0} {:>10.0} {:>6.2}",
        tasks / 2,
        1e9 / proved,
        in_c / proved
    );
}

// The most kilobytes of address space that a program has had while it takes an input which is
// longer than a pipe holds. As long as the input is not ended the program waits for more, and the
// system still knows.
fn peak(program: &str, text: &str) -> u32 {
    let mut child = Command::new(program)
        .stdin(Stdio::piped())
        .stdout(Stdio::null())
        .spawn()
        .expect("the program is built");
    let mut pipe = child.stdin.take().expect("it is piped");
    pipe.write_all(text.as_bytes()).expect("it reads on");
    let status = fs::read_to_string(format!("/proc/{}/status", child.id())).expect("it waits");
    drop(pipe);
    child.wait().expect("it ends");
    let peak = status.lines().find_map(|line| line.strip_prefix("VmPeak:"));
    let number = peak.and_then(|peak| peak.trim().strip_suffix(" kB"));
    number.expect("the peak").parse().expect("a number")
}

// The memory for a short log and for a long one.
fn print_peaks() {
    let few = input(32, FEW_LINES);
    let many = fs::read_to_string(file(32)).expect("the input is there");
    let [proved, in_c] = [PROVED, IN_C].map(|program| {
        let [few, many] = [&few, &many].map(|text| peak(program, text));
        format!("{few} and {many}")
    });
    println!("32 tasks, most kB of address space for {FEW_LINES} and {LINES} lines:");
    println!("proved {proved}, C {in_c}");
}

/// Compares the answers, then prints a line for each size, and the memory.
pub fn print() {
    println!("Audits: nanoseconds for one line of a log, best of {ROUNDS}; speed against C");
    println!("tasks cores    proved      in C    lines/s   to C");
    line(4);
    line(32);
    print_peaks();
}

//! The searches that found the tables of src/found.rs. The small ones are the smallest
//! of all tables: of fewest tasks, then of the smallest longest period, then of the
//! smallest periods, then of the smallest budgets and deadlines. The others come from
//! families of tables.

use std::collections::BTreeMap;

use edzl_tests::found::FOUND;
use edzl_tests::slack::{self, round};
use edzl_tests::slow::pair;
use edzl_tests::tasks::Task;
use edzl_tests::window;
use edzl_tests::wrong::WRONG;

// Every task with a period up to this one.
fn tasks(longest: u32) -> Vec<Task> {
    let periods = 1..=longest;
    let deadlines = periods.flat_map(|period| (1..=period).map(move |deadline| (period, deadline)));
    let tasks = deadlines.flat_map(|(period, deadline)| {
        (1..=deadline).map(move |budget| Task::new(period, budget, deadline))
    });
    tasks.collect()
}

// Every table of so many of these tasks, in the order of the list.
fn for_each(tasks: &[Task], size: usize, table: &mut Vec<Task>, visit: &mut dyn FnMut(&[Task])) {
    if table.len() == size {
        return visit(table);
    }
    for (place, task) in tasks.iter().enumerate() {
        table.push(*task);
        for_each(&tasks[place..], size, table, visit);
        table.pop();
    }
}

type Size = (usize, u32, u32, u32);

fn size(table: &[Task]) -> Size {
    let longest = table.iter().map(|task| task.period).max().unwrap_or(0);
    let periods = table.iter().map(|task| task.period).sum();
    let others = table.iter().map(|task| task.budget + task.deadline).sum();
    (table.len(), longest, periods, others)
}

// What distinguishes a table on so many cores: the window test's verdict, and the
// rounds or the verdict of a wrong version.
fn distinctions(table: &[Task], cores: u32) -> Vec<String> {
    let judged = slack::judge(table, cores).expect("a verdict");
    let mut names = Vec::new();
    if window::admits(table, cores) != judged.admitted {
        names.push("the window test".to_string());
    }
    for (wrong, version) in WRONG {
        let (rounds, admitted) = version.judge(table, cores);
        if rounds != judged.rounds {
            names.push(format!("rounds: {wrong}"));
        }
        if admitted != judged.admitted {
            names.push(format!("verdict: {wrong}"));
        }
    }
    names
}

// The smallest table for each distinction, of up to four tasks with short periods.
fn smallest() -> BTreeMap<String, Size> {
    let mut smallest: BTreeMap<String, Size> = BTreeMap::new();
    for (tasks_of_table, longest) in [(2, 6), (3, 5), (4, 4)] {
        for_each(
            &tasks(longest),
            tasks_of_table,
            &mut Vec::new(),
            &mut |table| {
                let fewer = u32::try_from(table.len() - 1).expect("a few tasks");
                for name in (1..=fewer).flat_map(|cores| distinctions(table, cores)) {
                    let least = smallest.entry(name).or_insert(size(table));
                    *least = size(table).min(*least);
                }
            },
        );
    }
    smallest
}

// The smallest size of the tables found, for each distinction.
fn found() -> BTreeMap<String, Size> {
    let mut found: BTreeMap<String, Size> = BTreeMap::new();
    for table in &FOUND {
        for name in distinctions(table.table, table.cores) {
            let least = found.entry(name).or_insert(size(table.table));
            *least = size(table.table).min(*least);
        }
    }
    found
}

// Whatever tables of these periods can show, a table found shows with no larger one.
#[test]
fn no_smaller_table() {
    let (smallest, found) = (smallest(), found());
    let names: Vec<&str> = smallest.keys().map(String::as_str).collect();
    let expected = [
        "rounds: a stop as soon as at most m sums reach",
        "rounds: slacks updated in place",
        "rounds: the quotient rounded up",
        "the window test",
        "verdict: the quotient rounded up",
    ];
    assert_eq!(names, expected);
    for (name, size) in &smallest {
        assert_eq!(found.get(name), Some(size), "{name}");
    }
}

// The smallest pair on 1 core for each number of rounds is one of a family, in which
// 64 rounds are far.
#[test]
#[ignore = "long"]
fn pairs_of_many_rounds() {
    let mut smallest: BTreeMap<u32, (Size, Vec<Task>)> = BTreeMap::new();
    for_each(&tasks(26), 2, &mut Vec::new(), &mut |table| {
        let rounds = slack::rounds_made(table, 1);
        let least = smallest
            .entry(rounds)
            .or_insert((size(table), table.to_vec()));
        if size(table) < least.0 {
            *least = (size(table), table.to_vec());
        }
    });
    for (rounds, (_, table)) in &smallest {
        println!("{rounds} rounds: {table:?}");
    }
    for length in 1..=6 {
        assert_eq!(smallest[&(2 * length + 3)].1, pair(length));
    }
}

// The first round, up to this one, in which at most one sum reaches, on 1 core.
fn first_admitted(table: &[Task], most: usize) -> Option<usize> {
    let mut slacks = vec![0; table.len()];
    for made in 1..=most {
        let next = round(table, 1, &slacks);
        let tasks = table.iter().zip(&next.sums);
        let reaching = tasks.filter(|(task, sum)| **sum >= window::spare(task));
        if reaching.count() <= 1 {
            return Some(made);
        }
        if next.slacks == slacks {
            return None;
        }
        slacks = next.slacks;
    }
    None
}

// Two tasks as of the pair, one without spare or nearly so, and one that reaches as long
// as the slack of the first is small.
fn of_family(period: u32, [budgets, deadlines]: [[u32; 4]; 2]) -> Vec<Task> {
    let periods = [period, period - budgets[1], period, period];
    let numbers = periods.into_iter().zip(budgets).zip(deadlines);
    let tasks = numbers.map(|((period, budget), deadline)| Task::new(period, budget, deadline));
    tasks.collect()
}

// The tables of the family whose longest period is this one.
fn family(period: u32) -> impl Iterator<Item = Vec<Task>> {
    let budgets = (1..=2).flat_map(move |first| {
        (30..=32).flat_map(move |second| {
            (27..=31)
                .flat_map(move |third| (30..=33).map(move |fourth| [first, second, third, fourth]))
        })
    });
    budgets.flat_map(move |budgets| {
        let [first, _, third, _] = budgets;
        (period / 2 - 5..=period / 2 + 3).flat_map(move |second| {
            (third + 1..=third + 5).map(move |deadline| {
                of_family(period, [budgets, [first, second, deadline, period]])
            })
        })
    })
}

// The first of the family, by its longest period, that is admitted from this round on.
fn first_of_family(made: usize) -> Vec<Task> {
    let mut tables = (150..).flat_map(family);
    let found = tables.find(|table| first_admitted(table, made) == Some(made));
    found.expect("a table of the family")
}

// Admitted in the 64th round and not before, and in the 65th: no smaller longest period.
#[test]
#[ignore = "long"]
fn tables_that_the_cut_decides() {
    for (made, name) in [
        (64, "cut and admitted, refused a round before"),
        (65, "cut and refused, admitted a round later"),
    ] {
        let table = first_of_family(made);
        println!("admitted from round {made} on: {table:?}");
        let mut tables = FOUND.iter();
        let found = tables
            .find(|found| found.name == name)
            .expect("a table found");
        assert_eq!(first_admitted(found.table, 100), Some(made), "{name}");
        let (_, longest, _, _) = size(found.table);
        assert!(longest <= size(&table).1, "{name}: {table:?}");
    }
}

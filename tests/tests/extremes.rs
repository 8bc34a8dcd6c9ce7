//! Generated tables at the edges of the numbers (document 02, change 7) on every number of
//! cores: the model, whose sums are of 64 bits, against the C entry and the programs of
//! both tests. SEED and TABLES change which and how many; some 3,000 meet every event.

use edzl_tests::held::{Answer, HARMLESS_CAP, RIGHT};
use edzl_tests::random::Random;
use edzl_tests::tally::{self, Tally};
use edzl_tests::tasks::{MOST_CORES, Task};
use edzl_tests::texts::{ORDERS, write};
use edzl_tests::{extremes, host, oracle, program, settings, slack, sum_lines, window};

const TABLES: u64 = 4_000;

// One table in so many goes through the programs.
const PROGRAM_STRIDE: u64 = 8;

fn text(seed: u64, index: u64) -> (Vec<Task>, Vec<u8>) {
    let mut random = Random::new(seed, index);
    let table = extremes::table(&mut random);
    let text = write(&table, random.pick(&ORDERS));
    (table, text)
}

// The last m on which either test refuses, and the one after it.
fn cores_at_the_edge(table: &[Task]) -> Vec<u32> {
    let edges = [window::admits, slack::admits].map(|admits| {
        let last = (1..=MOST_CORES).rfind(|cores| !admits(table, *cores));
        last.unwrap_or(1)
    });
    let mut cores: Vec<u32> = edges.into_iter().flat_map(|m| [m, m + 1]).collect();
    cores.sort_unstable();
    cores.dedup();
    cores.retain(|cores| *cores <= MOST_CORES);
    cores
}

fn compare_entry(text: &[u8]) -> Result<(), String> {
    for cores in 1..=MOST_CORES {
        let (expected, actual) = (oracle::admit(text, cores), host::admit(text, cores));
        if expected != actual {
            let text = text.escape_ascii();
            return Err(format!(
                "m {cores}: oracle {expected}, edzl_admit {actual}: \"{text}\""
            ));
        }
    }
    Ok(())
}

fn compare_programs(text: &[u8]) -> Result<(), String> {
    for (name, expected, actual) in [
        (
            "verdict",
            oracle::verdict_output(text),
            program::verdict_output(text),
        ),
        (
            "sharper",
            oracle::sharper_output(text),
            program::sharper_output(text),
        ),
    ] {
        let actual = String::from_utf8_lossy(&actual);
        if expected != actual {
            let line = program::first_difference(&expected, &actual);
            return Err(format!("{name}, {line}: \"{}\"", text.escape_ascii()));
        }
    }
    Ok(())
}

fn compare(seed: u64, index: u64, tally: &mut Tally) -> Result<(), String> {
    let (table, text) = text(seed, index);
    compare_entry(&text)?;
    if index.is_multiple_of(PROGRAM_STRIDE) {
        compare_programs(&text)?;
    }
    for cores in cores_at_the_edge(&table) {
        for name in sum_lines::met(&table, cores) {
            *tally.entry(name).or_default() += 1;
        }
    }
    Ok(())
}

#[test]
fn generated_tables() {
    let seed = settings::number("SEED", settings::SEED);
    let tables = settings::number("TABLES", TABLES);
    let tally = tally::of_all(seed, tables, |index, tally| compare(seed, index, tally));
    let title = format!("{tables} tables at the edges of the numbers, seed {seed}");
    tally::report(&title, &tally);
    tally::require(&tally, sum_lines::names());
}

// The form from which the wrong versions are made, with every number whole, answers as
// the model. So does one that caps a sum at the largest m·A.
#[test]
fn the_form_of_the_wrong_versions() {
    let seed = settings::number("SEED", settings::SEED);
    for index in 0..settings::number("TABLES", TABLES).div_ceil(PROGRAM_STRIDE) {
        let (table, _) = text(seed, index);
        for cores in cores_at_the_edge(&table) {
            let verdict = window::judge(&table, cores).expect("a verdict");
            let judged = slack::judge(&table, cores).expect("a verdict");
            let expected = Answer {
                count: verdict.count,
                window: verdict.admitted,
                rounds: judged.rounds,
                slack: judged.admitted,
            };
            for version in [RIGHT, HARMLESS_CAP] {
                let answer = version.answer(&table, cores);
                assert_eq!(answer, expected, "{table:?}, m = {cores}");
            }
        }
    }
}

//! Generated texts through the program of the slack test (document 02, change 6):
//! everything that it prints against the model, and beside what the verdict program
//! prints. SEED and TABLES change which and how many; some 2,000 meet every event.

use edzl_tests::random::Random;
use edzl_tests::tally::{self, Tally};
use edzl_tests::texts::{ORDERS, write};
use edzl_tests::{oracle, program, reading, settings, sharper_lines, slow, tables, texts};

const TABLES: u64 = 4_000;

// Any text, refused ones among them, or tables near the edges of both tests and near
// 64 rounds.
fn text(seed: u64, index: u64) -> Vec<u8> {
    let mut random = Random::new(seed, index);
    let table = match random.below(8) {
        0 | 1 => return texts::text(random.bits(), index),
        2 | 3 => tables::valid(&mut random),
        4 | 5 => tables::near_slack_edge(&mut random),
        6 => slow::table(&mut random),
        _ => slow::near_cut(&mut random),
    };
    write(&table, random.pick(&ORDERS))
}

// The last number of each line after the names: 1 for admitted.
fn verdicts(printed: &str) -> Vec<bool> {
    let lines = printed.lines().skip(1);
    lines.map(|line| line.ends_with(" 1")).collect()
}

// A refused text prints as in verdict. What verdict admits, sharper admits.
fn beside_verdict(sharper: &str, verdict: &str) -> Result<(), String> {
    if sharper.starts_with("REFUSED") || verdict.starts_with("REFUSED") {
        return match sharper == verdict {
            true => Ok(()),
            false => Err("not refused as by verdict".to_string()),
        };
    }
    let (one, other) = (verdicts(verdict), verdicts(sharper));
    if one.len() != other.len() {
        return Err("other numbers of cores than by verdict".to_string());
    }
    let lost = one
        .iter()
        .zip(other)
        .position(|pair| pair == (&true, false));
    match lost {
        Some(line) => Err(format!("m = {} is admitted by verdict only", line + 1)),
        None => Ok(()),
    }
}

fn compare(text: &[u8], tally: &mut Tally) -> Result<(), String> {
    let expected = oracle::sharper_output(text);
    let [sharper, verdict] = [program::sharper_output(text), program::verdict_output(text)];
    let [sharper, verdict] =
        [sharper, verdict].map(|output| String::from_utf8_lossy(&output).into_owned());
    let failure = |what: String| {
        let text = text.escape_ascii();
        format!(
            "{what}\n--- text\n{text}\n--- expected\n{expected}\n--- sharper\n{sharper}\n--- verdict\n{verdict}"
        )
    };
    if sharper != expected {
        return Err(failure(program::first_difference(&expected, &sharper)));
    }
    beside_verdict(&sharper, &verdict).map_err(failure)?;
    let Ok(table) = reading::read(text) else {
        *tally.entry(expected.trim_end().to_string()).or_default() += 1;
        return Ok(());
    };
    let most = u32::try_from(verdicts(&expected).len()).expect("at most 16");
    for name in (1..=most).flat_map(|cores| sharper_lines::met(&table, cores)) {
        *tally.entry(name).or_default() += 1;
    }
    Ok(())
}

#[test]
fn generated_texts_through_sharper() {
    let seed = settings::number("SEED", settings::SEED);
    let tables = settings::number("TABLES", TABLES);
    let tally = tally::of_all(seed, tables, |index, tally| {
        compare(&text(seed, index), tally)
    });
    let title = format!("sharper compared on {tables} texts, seed {seed}");
    tally::report(&title, &tally);
    let refused = (1..=6).map(|number| format!("REFUSED {number}"));
    let expected = sharper_lines::names().into_iter().chain(refused);
    tally::require(&tally, expected.collect());
}

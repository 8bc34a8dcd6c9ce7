//! Quotes over ranges (document 02, change 9), through the program: generated texts against
//! the model and against tables within their ranges, and small ranges against every table
//! within. SEED and RANGES change which and how many; some 1,500 meet every event.

use edzl_tests::choice_events::{self, Judged};
use edzl_tests::quotes::{self, Answer, answers, by_corners};
use edzl_tests::random::Random;
use edzl_tests::ranges::{RangedTask, read, write};
use edzl_tests::settings::{SEED, number};
use edzl_tests::small_ranges::{by_every_choice, every_choice, small_ranges, within};
use edzl_tests::tally::{self, Tally};
use edzl_tests::tasks::Task;
use edzl_tests::{oracle, program, quote_events, range_texts, texts, window, wrong_quotes};

const RANGES: u64 = 3_000;

// So many tables within the ranges of a text are judged.
const TABLES_WITHIN: usize = 4;

// Small ranges are fewer than generated texts, one to so many.
const SMALL_STRIDE: u64 = 4;

// One in so many tables within goes through the verdict program.
const VERDICT_STRIDE: usize = 150;

const WITHIN: &str = "tables within";
const THROUGH_VERDICT: [&str; 2] = [
    "verdict, a table within is not admitted",
    "verdict, a table within is admitted",
];

fn settings() -> (u64, u64) {
    (number("SEED", SEED), number("RANGES", RANGES))
}

fn tried(answer: Answer, admitted: bool) -> String {
    let verdict = if admitted { "admitted" } else { "not admitted" };
    format!("a table tried, {}, {verdict}", answer.word())
}

fn add(tally: &mut Tally, names: Vec<String>) {
    for name in names {
        *tally.entry(name).or_default() += 1;
    }
}

// What is printed for a text. Fails where something else is expected.
fn printed(text: &[u8], expected: &str) -> Result<String, String> {
    let output = program::quote_output(text);
    let printed = String::from_utf8_lossy(&output).into_owned();
    match output == expected.as_bytes() {
        true => Ok(printed),
        false => Err(format!(
            "{}\n--- text\n{}\n--- printed\n{printed}",
            program::first_difference(expected, &printed),
            text.escape_ascii()
        )),
    }
}

// Tables within, picked at random, are admitted where ALL is printed and not where NONE is.
fn try_tables_within(
    random: &mut Random,
    ranges: &[RangedTask],
    answers: &[Answer],
    tally: &mut Tally,
) -> Result<(), String> {
    for _ in 0..TABLES_WITHIN {
        let table: Vec<Task> = ranges.iter().map(|range| within(random, range)).collect();
        for (cores, answer) in (1..).zip(answers) {
            let verdict = window::judge(&table, cores);
            let verdict = verdict.map_err(|refusal| format!("{refusal:?} on {table:?}"))?;
            if !answer.allows(verdict.admitted) {
                return Err(format!(
                    "{answer:?} on m = {cores}, {verdict:?} on {table:?}"
                ));
            }
            add(tally, vec![tried(*answer, verdict.admitted)]);
        }
    }
    Ok(())
}

fn compare_text(seed: u64, index: u64, tally: &mut Tally) -> Result<(), String> {
    let text = range_texts::text(seed, index);
    let printed = printed(&text, &quotes::quote_output(&text))?;
    let [reading, by_clauses] = [read(&text), wrong_quotes::RIGHT.read(&text)];
    if reading != by_clauses {
        return Err(format!("{reading:?}, clause by clause {by_clauses:?}"));
    }
    add(tally, quote_events::met(&text));
    if let Ok(ranges) = reading {
        let answers = answers(&printed).ok_or("no answers")?;
        try_tables_within(&mut Random::new(index, seed), &ranges, &answers, tally)?;
    }
    Ok(())
}

#[test]
fn generated_texts_through_quote() {
    let (seed, texts) = settings();
    let tally = tally::of_all(seed, texts, |index, tally| compare_text(seed, index, tally));
    tally::report(
        &format!("quote compared on {texts} texts, seed {seed}"),
        &tally,
    );
    let within = [(Answer::All, true), (Answer::None, false)]
        .into_iter()
        .chain([true, false].map(|admitted| (Answer::Some, admitted)))
        .map(|(answer, admitted)| tried(answer, admitted));
    let names = quote_events::names().into_iter().chain(within);
    tally::require(&tally, names.collect());
}

// A table within through the verdict program, which prints what the window test says.
fn compare_verdict(table: &[Task], answers: &[Answer], tally: &mut Tally) -> Result<(), String> {
    let text = texts::write(table, texts::ORDERS[0]);
    let output = String::from_utf8_lossy(&program::verdict_output(&text)).into_owned();
    let lines = output.lines().skip(1).zip(answers);
    let admitted: Vec<_> = lines
        .map(|(line, answer)| (line.ends_with(" 1"), answer))
        .collect();
    let allowed = admitted
        .iter()
        .all(|(admitted, answer)| answer.allows(*admitted));
    if output != oracle::verdict_output(&text) || !allowed {
        return Err(format!(
            "{answers:?}, and verdict prints for {table:?}\n{output}"
        ));
    }
    let names = admitted
        .iter()
        .map(|(admitted, _)| THROUGH_VERDICT[usize::from(*admitted)]);
    add(tally, names.map(str::to_string).collect());
    Ok(())
}

// Every table within is judged, with no refusal. The answer is true of them all, and SOME is
// never one of a single table.
fn compare_choices(
    random: &mut Random,
    ranges: &[RangedTask],
    answers: &[Answer],
    tally: &mut Tally,
) -> Result<(), String> {
    let tables = every_choice(ranges);
    for (cores, answer) in (1..).zip(answers) {
        let verdicts = tables.iter().map(|table| window::judge(table, cores));
        let verdicts: Result<Vec<_>, _> = verdicts.collect();
        let verdicts = verdicts.map_err(|refusal| format!("a table within: {refusal:?}"))?;
        let judged = Judged {
            ranges,
            cores,
            tables: &tables,
            admitted: verdicts.iter().map(|verdict| verdict.admitted).collect(),
            answer: *answer,
        };
        judged.is_true()?;
        add(tally, choice_events::met(&judged));
    }
    for table in &tables {
        add(tally, vec![WITHIN.to_string()]);
        if random.one_in(VERDICT_STRIDE) {
            compare_verdict(table, answers, tally)?;
        }
    }
    Ok(())
}

fn compare_small(seed: u64, index: u64, tally: &mut Tally) -> Result<(), String> {
    let mut random = Random::new(seed, index);
    let ranges = small_ranges(&mut random);
    let text = write(&ranges);
    let printed = printed(
        &text,
        &quotes::printed(&Ok(ranges.clone()), by_every_choice),
    )?;
    let answers = answers(&printed).ok_or("no answers")?;
    let compared = compare_choices(&mut random, &ranges, &answers, tally);
    compared.map_err(|failure| format!("{failure}\n{ranges:?}"))
}

#[test]
fn small_ranges_against_every_table_within() {
    let (seed, texts) = settings();
    let ranges = texts / SMALL_STRIDE;
    let tally = tally::of_all(seed, ranges, |index, tally| {
        compare_small(seed, index, tally)
    });
    let title = format!("quote compared on {ranges} small ranges, seed {seed}");
    tally::report(&title, &tally);
    let verdict = THROUGH_VERDICT.map(str::to_string);
    let names = choice_events::names().into_iter().chain(verdict);
    tally::require(&tally, names.chain([WITHIN.to_string()]).collect());
}

// The model by two corners beside the meaning, on as many small ranges as there are texts.
#[test]
fn the_two_models_agree() {
    let (seed, ranges) = settings();
    let tally = tally::of_all(seed + 1, ranges, |index, tally| {
        let ranges = small_ranges(&mut Random::new(seed + 1, index));
        for cores in 1..=quotes::most_cores(&ranges) {
            let answers = [by_corners, by_every_choice].map(|quote| quote(&ranges, cores));
            if answers[0] != answers[1] {
                return Err(format!("{answers:?} on m = {cores} for {ranges:?}"));
            }
            add(tally, vec![answers[0].on(cores)]);
        }
        Ok(())
    });
    let answers = quotes::ANSWERS.into_iter();
    let names = answers.flat_map(|answer| [1, 2].map(|m| answer.on(m)));
    tally::require(&tally, names.collect());
}

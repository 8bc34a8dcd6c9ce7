//! Tables that need many rounds or tell the slack test from a wrong version: rounds,
//! verdicts and slacks as literals, by the model, the program and the C entry, and the
//! wrong versions that answer otherwise.

use edzl_tests::found::{FOUND, Found};
use edzl_tests::texts::{ORDERS, write};
use edzl_tests::wrong::{EARLY_STOP, RIGHT, WRONG};
use edzl_tests::{host, program, slack};

// The rounds and the verdict that the program prints for m cores.
fn printed(found: &Found) -> String {
    let output = program::sharper_output(&write(found.table, ORDERS[0]));
    let lines = String::from_utf8(output).expect("lines of text");
    let m = usize::try_from(found.cores).expect("a few cores");
    lines.lines().nth(m).unwrap_or("nothing").to_string()
}

#[test]
fn answers() {
    for found in &FOUND {
        let (name, cores) = (found.name, found.cores);
        let judged = slack::judge(found.table, cores).expect("a verdict");
        let answer = (judged.rounds, judged.admitted);
        assert_eq!(answer, (found.rounds, found.admitted), "{name}");
        let admitted = u32::from(found.admitted);
        let line = format!("{cores} {} {admitted}", found.rounds);
        assert_eq!(printed(found), line, "sharper, {name}");
        let text = write(found.table, ORDERS[0]);
        assert_eq!(host::admit(&text, cores), admitted, "edzl_admit, {name}");
    }
}

#[test]
fn slacks_of_the_rounds() {
    for found in &FOUND {
        let rounds = slack::rounds(found.table, found.cores).expect("a verdict");
        let zeros = vec![0; found.table.len()];
        let slacks = |made: usize| match made {
            0 => zeros.as_slice(),
            made => rounds[made - 1].slacks.as_slice(),
        };
        let made = rounds.len();
        let met = [slacks(1), slacks(made - 1), slacks(made)];
        assert_eq!(met, found.slacks, "{}", found.name);
    }
}

// The others answer as the right one.
#[test]
fn wrong_versions() {
    for found in &FOUND {
        let right = (found.rounds, found.admitted);
        assert_eq!(
            RIGHT.judge(found.table, found.cores),
            right,
            "{}",
            found.name
        );
        for (wrong, version) in WRONG {
            let listed = found.others.iter().find(|(name, _, _)| *name == wrong);
            let expected = listed.map_or(right, |(_, rounds, admitted)| (*rounds, *admitted));
            let answer = version.judge(found.table, found.cores);
            assert_eq!(answer, expected, "{wrong}, {}", found.name);
        }
    }
}

// Every wrong version gives other rounds for some table. All but the early stop, which
// cannot, give another verdict for some table.
#[test]
fn every_wrong_version_is_told_apart() {
    for (wrong, _) in WRONG {
        let answers = FOUND.iter().flat_map(|found| {
            let others = found.others.iter().filter(|(name, _, _)| *name == wrong);
            others
                .map(|(_, rounds, admitted)| (*rounds != found.rounds, *admitted != found.admitted))
        });
        let answers: Vec<(bool, bool)> = answers.collect();
        let other_verdict = answers.iter().any(|(_, verdict)| *verdict);
        assert!(!answers.is_empty(), "{wrong}");
        assert_eq!(other_verdict, wrong != EARLY_STOP, "{wrong}");
    }
}

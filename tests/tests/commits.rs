//! What a commit and the other calls do on a machine that holds a task (document 02, change
//! 10), on generated lists of calls and machines: a commit gives the machine that a join
//! would have given at that moment, and releases, finishes and slots answer as if none were
//! held, and keep it. By the simulated machine, and by the program on some of the machines.

use edzl_tests::machine::Machine;
use edzl_tests::probe::{HandMade, Probe, output};
use edzl_tests::probes::group;
use edzl_tests::script::{Answer, Call, carry_out};
use edzl_tests::{parts, program, scripts, settings};

const SCRIPTS: u64 = 400;

// Groups of machines for the simulated machine, and those of them for the program.
const GROUPS: u64 = 120;
const THROUGH_PROBE: u64 = 40;

fn seed() -> u64 {
    settings::number("SEED", settings::SEED)
}

// The machine without the held task.
fn bare(machine: &Machine) -> Machine {
    Machine {
        offered: None,
        ..machine.clone()
    }
}

// Whether the two ways give the same machine, where a task is held.
fn check_commit(machine: &Machine) -> bool {
    let Some(task) = machine.offered else {
        return false;
    };
    let (mut committed, mut joined) = (machine.clone(), bare(machine));
    assert_eq!(committed.commit(), Ok(()), "{machine:?}");
    assert_eq!(joined.join(task), Ok(()), "{machine:?}");
    assert_eq!(committed, joined, "{machine:?}");
    true
}

// At every moment of the lists: after an accepted offer and whatever followed it.
#[test]
fn commits_at_every_moment_of_a_list() {
    let mut compared = 0;
    for script in (0..SCRIPTS).map(|index| scripts::script(seed(), index)) {
        let Ok(mut machine) = script.start() else {
            continue;
        };
        let calls = script.calls.iter();
        for call in calls.take_while(|call| !matches!(call, Call::Bad(_))) {
            carry_out(&mut machine, *call);
            compared += u32::from(check_commit(&machine));
        }
    }
    assert!(compared > 3_000, "{compared}");
}

// A list answers as one in which its commits are joins and nothing is ever held: what an
// offer is refused by does not depend on what is held.
#[test]
fn lists_without_a_held_task() {
    let mut added = 0;
    for script in (0..SCRIPTS).map(|index| scripts::script(seed(), index)) {
        let Ok(mut machine) = script.start() else {
            continue;
        };
        let (mut other, mut offered) = (machine.clone(), None);
        let calls = script.calls.iter();
        for call in calls.take_while(|call| !matches!(call, Call::Bad(_))) {
            let answer = carry_out(&mut machine, *call);
            match (*call, answer) {
                (Call::Offer(task), Answer::Done) => offered = Some(task),
                (Call::Offer(task), answer) => {
                    assert_eq!(carry_out(&mut other, Call::Offer(task)), answer);
                }
                (Call::Commit, Answer::Done) => {
                    let task = offered.take().expect("an offer before");
                    assert_eq!(other.join(task), Ok(()));
                    added += 1;
                }
                (Call::Commit, answer) => assert_eq!(answer, Answer::Refused(17)),
                (call, answer) => assert_eq!(carry_out(&mut other, call), answer),
            }
            assert_eq!(bare(&machine), other);
        }
    }
    assert!(added > 300, "{added}");
}

// Generated probes of sound machines that hold a task.
fn holding(group_index: u64) -> Vec<(Probe, Machine)> {
    let probes = group(seed(), group_index).into_iter();
    let with_machine = probes.filter_map(|probe| {
        let machine = probe.machine.machine()?;
        (machine.offered.is_some() && machine.is_sound()).then_some((probe, machine))
    });
    with_machine.collect()
}

#[test]
fn commits_on_machines_made_by_hand() {
    let holding = (0..GROUPS).flat_map(holding);
    let compared = holding.filter(|(_, machine)| check_commit(machine)).count();
    assert!(compared > 1_000, "{compared}");
}

// What is printed after a commit: the answer and machine of a join, and NONE.
fn through_a_join(before: &HandMade, machine: &Machine) -> String {
    let (mut joined, mut after) = (bare(machine), before.clone());
    let task = machine.offered.expect("a held task");
    joined.join(task).expect("a task that an offer takes");
    after.write(&joined);
    output(Answer::Done, &after)
}

#[test]
fn commits_through_probe() {
    let compared = parts::in_parts(THROUGH_PROBE, |part| {
        let mut compared = 0;
        for (probe, machine) in part.flat_map(holding) {
            let expected = through_a_join(&probe.machine, &machine);
            let text = format!("{}COMMIT\n", probe.machine);
            let printed = program::probe_output(text.as_bytes());
            assert_eq!(String::from_utf8_lossy(&printed), expected, "{text}");
            compared += 1;
        }
        compared
    });
    let compared: u32 = compared.into_iter().sum();
    assert!(compared > 300, "{compared}");
}

// A release, finish or slot on the machine, and the same where none is held.
fn pair(probe: &Probe) -> Option<[Probe; 2]> {
    let mut none = probe.clone();
    none.machine.offered = None;
    let offers = matches!(probe.call, Call::Offer(_) | Call::Commit);
    (!offers).then(|| [probe.clone(), none])
}

#[test]
fn other_calls_as_if_none_were_held() {
    let mut compared = 0;
    for (probe, _) in (0..GROUPS).flat_map(holding) {
        let Some([held, none]) = pair(&probe) else {
            continue;
        };
        let ((answer, after), (other, mut bare)) = (held.play(), none.play());
        bare.offered = probe.machine.offered;
        assert_eq!((answer, after), (other, bare), "{probe:?}");
        compared += 1;
    }
    assert!(compared > 1_000, "{compared}");
}

// What is printed with the line NONE in place of the held task.
fn printed_without(probe: &Probe) -> String {
    let printed = program::probe_output(probe.text().as_bytes());
    let printed = String::from_utf8(printed).expect("lines of text");
    let held = probe.machine.offered.map(|task| format!("HELD {task}\n"));
    let line = held.unwrap_or_else(|| "NONE\n".to_string());
    let rest = printed.strip_suffix(&line);
    let rest = rest.unwrap_or_else(|| panic!("no last line {line}{printed}"));
    format!("{rest}NONE\n")
}

#[test]
fn other_calls_through_probe() {
    let compared = parts::in_parts(THROUGH_PROBE, |part| {
        let mut compared = 0;
        for [held, none] in part.flat_map(holding).filter_map(|(probe, _)| pair(&probe)) {
            let printed = [&held, &none].map(printed_without);
            assert_eq!(printed[0], printed[1], "{}", held.text());
            assert!(!printed[0].starts_with("REFUSED 0\n"), "{}", held.text());
            compared += 1;
        }
        compared
    });
    let compared: u32 = compared.into_iter().sum();
    assert!(compared > 200, "{compared}");
}

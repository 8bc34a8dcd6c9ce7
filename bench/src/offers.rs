//! What a held task costs: replays of the same slots, with an offer before them and without.

use crate::timing;
use std::fs::{self, File};
use std::process::{Command, Stdio};

const ROUNDS: usize = 200;

// The program, from the folder of this package, and the bytes that its script may have.
const REPLAY: &str = "../crates/replay/out/replay";
const ROOM: usize = 65_536;

/// A table on a number of cores, and the task that is offered to it.
struct Offer {
    cores: usize,
    tasks: Vec<&'static str>,
    offered: &'static str,
}

// Document 002's four tasks, which take 3 rounds, and 32 tasks, which take 1.
fn offers() -> [Offer; 2] {
    let few = Offer {
        cores: 2,
        tasks: vec!["2 1 2", "2 1 2", "7 1 7"],
        offered: "8 3 8",
    };
    let many = Offer {
        cores: 16,
        tasks: [vec!["40 2 20"; 20], vec!["40 3 7"; 11]].concat(),
        offered: "40 3 7",
    };
    [few, many]
}

// The file of a script: the offer, if it is made, and then so many slots.
fn script(offer: &Offer, made: bool, slots: usize) -> String {
    let line = if made {
        format!("OFFER {}\n", offer.offered)
    } else {
        String::new()
    };
    let text = format!(
        "CORES {}\nPERIOD BUDGET DEADLINE\n{}\nCALLS\n{line}{}",
        offer.cores,
        offer.tasks.join("\n"),
        format!("SLOT {}\n", offer.cores).repeat(slots)
    );
    assert!(text.len() <= ROOM, "{} bytes", text.len());
    let name = format!(
        "target/held-{}-{}.replay",
        offer.tasks.len(),
        u8::from(made)
    );
    fs::write(&name, text).expect("the folder is there");
    name
}

// Plays a script, in which the offer is taken and no slot is refused.
fn replayed(script: &str) {
    let input = File::open(script).expect("the script is there");
    let output = Command::new(REPLAY)
        .stdin(Stdio::from(input))
        .output()
        .expect("the program is built");
    let text = String::from_utf8(output.stdout).expect("lines");
    assert!(!text.contains("REFUSED") && !text.contains("BAD"), "{text}");
}

fn line(offer: &Offer) {
    let slots = 7_000;
    let scripts = [false, true].map(|made| script(offer, made, slots));
    let (mut none, mut held) = (|| replayed(&scripts[0]), || replayed(&scripts[1]));
    let best = timing::best_of(ROUNDS, &mut [&mut none, &mut held]);
    let [none, held] = [best[0], best[1]].map(|time| time * 1e9 / slots as f64);
    println!(
        "{:>5} {:>5} {none:>9.0} {held:>9.0} {:>9.0}",
        offer.tasks.len() + 1,
        offer.cores,
        held - none
    );
}

/// Prints a line for each table: a slot of a replay while none is held, and while one is.
pub fn print() {
    println!("Offers: nanoseconds for one slot of a replay, best of {ROUNDS}");
    println!("tasks cores      none      held    verdict");
    offers().iter().for_each(line);
}

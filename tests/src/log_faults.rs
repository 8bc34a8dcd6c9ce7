//! Faults in a log's text (docs/HANDBOOK.md, "Auditing a log"): values, spaces, line ends,
//! lines and names that are not as they must be, and a few changes that break nothing.

use std::ops::Range;

use crate::log::LOG_NAMES;
use crate::random::Random;
use crate::reading::LINE_END;
use crate::texts;

type Fault = fn(&mut Random, &mut Vec<u8>);

const FAULTS: [Fault; 15] = [
    odd_value,
    odd_value,
    odd_value,
    lead_with_zeros,
    odd_space,
    remove_space,
    odd_end,
    odd_end,
    remove_end,
    odd_line,
    odd_names,
    other_order,
    cut,
    last_end,
    any_damage,
];

// Of these the first two are well formed.
const ODD_VALUES: [&[u8]; 20] = [
    b"0",
    b"4294967295",
    b"4294967296",
    b"4294967297",
    b"4294967303",
    b"9999999999",
    b"10000000000",
    b"42949672950",
    b"00000000001",
    b"18446744073709551616",
    b"18446744073709551617",
    b"00",
    b"",
    b"-1",
    b"+1",
    b"0x1",
    b"1.0",
    b"x",
    b"\xff",
    b"1\0",
];

const ODD_SPACES: [&[u8]; 5] = [b"  ", b"\t", b",", b" 0 ", b"\n"];
const ODD_ENDS: [&[u8]; 6] = [b"\r\n", b" \n", b"\n\n", b" 0\n", b"\r", b"\0\n"];

const ODD_LINES: [&[u8]; 9] = [
    b"\n",
    b" \n",
    b"0\n",
    b"0 0\n",
    b"0 0 0 0\n",
    b" 0 0 0\n",
    b"LOG\n",
    b"RELEASED FINISHED RAN\n",
    b"0 0 0\n",
];

const ODD_NAMES: [&[u8]; 10] = [
    b"",
    b"\n",
    b"RELEASED FINISHED RAN",
    b"RELEASED FINISHED RAN \n",
    b"RELEASED FINISHED RAN\r\n",
    b"RELEASED FINISHED\n",
    b"RELEASED  FINISHED RAN\n",
    b"released finished ran\n",
    b"RELEASED FINISHED RAN LATE\n",
    b"RAN FINISHED LATE RUNNERS\n",
];

/// One fault somewhere.
pub fn damage(random: &mut Random, text: &mut Vec<u8>) {
    random.pick(&FAULTS)(random, text);
}

// The bytes of the names line, its end too.
fn names(text: &[u8]) -> Range<usize> {
    let end = text.iter().position(|byte| *byte == LINE_END);
    0..end.map_or(text.len(), |index| index + 1)
}

// The place of one such byte after the names line, the last one as often as all others.
fn place_of(random: &mut Random, text: &[u8], sought: u8) -> Option<usize> {
    let places = (names(text).end..text.len()).filter(|index| text[*index] == sought);
    let places: Vec<usize> = places.collect();
    match places.last() {
        Some(last) if random.one_in(2) => Some(*last),
        Some(_) => Some(random.pick(&places)),
        None => None,
    }
}

// The field before one of the separators.
fn field(random: &mut Random, text: &[u8]) -> Option<Range<usize>> {
    let sought = random.pick(b" \n");
    let end = place_of(random, text, sought)?;
    let before = text[..end]
        .iter()
        .rposition(|byte| *byte == b' ' || *byte == LINE_END);
    Some(before.map_or(0, |index| index + 1)..end)
}

fn odd_value(random: &mut Random, text: &mut Vec<u8>) {
    if let Some(field) = field(random, text) {
        text.splice(field, random.pick(&ODD_VALUES).to_vec());
    }
}

fn lead_with_zeros(random: &mut Random, text: &mut Vec<u8>) {
    if let Some(field) = field(random, text) {
        let zeros = vec![b'0'; 1 + random.below(3)];
        text.splice(field.start..field.start, zeros);
    }
}

fn odd_space(random: &mut Random, text: &mut Vec<u8>) {
    if let Some(at) = place_of(random, text, b' ') {
        text.splice(at..=at, random.pick(&ODD_SPACES).to_vec());
    }
}

fn remove_space(random: &mut Random, text: &mut Vec<u8>) {
    if let Some(at) = place_of(random, text, b' ') {
        text.remove(at);
    }
}

fn odd_end(random: &mut Random, text: &mut Vec<u8>) {
    if let Some(at) = place_of(random, text, LINE_END) {
        text.splice(at..=at, random.pick(&ODD_ENDS).to_vec());
    }
}

fn remove_end(random: &mut Random, text: &mut Vec<u8>) {
    if let Some(at) = place_of(random, text, LINE_END) {
        text.remove(at);
    }
}

// Before any value line, or after the last.
fn odd_line(random: &mut Random, text: &mut Vec<u8>) {
    let at = match place_of(random, text, LINE_END) {
        Some(end) => end + 1,
        None => names(text).end,
    };
    text.splice(at..at, random.pick(&ODD_LINES).to_vec());
}

fn odd_names(random: &mut Random, text: &mut Vec<u8>) {
    text.splice(names(text), random.pick(&ODD_NAMES).to_vec());
}

// The three names in any order, sometimes the right one, or one of them twice.
fn other_order(random: &mut Random, text: &mut Vec<u8>) {
    let fields: Vec<&[u8]> = LOG_NAMES.split(|byte| *byte == b' ').collect();
    let first = random.below(3);
    let [second, third] = random.pick(&[[1, 2], [2, 1], [1, 1]]);
    let order = [first, (first + second) % 3, (first + third) % 3];
    let mut line = order.map(|index| fields[index]).join(&b' ');
    line.push(LINE_END);
    text.splice(names(text), line);
}

// Anywhere, or after the names line, or to nothing.
fn cut(random: &mut Random, text: &mut Vec<u8>) {
    let any = random.below(text.len() + 1);
    let kept = random.pick(&[any, any, names(text).end, 0]);
    text.truncate(kept);
}

// The last line loses its end.
fn last_end(_: &mut Random, text: &mut Vec<u8>) {
    if text.last() == Some(&LINE_END) {
        text.pop();
    }
}

fn any_damage(random: &mut Random, text: &mut Vec<u8>) {
    texts::damage(random, text);
}

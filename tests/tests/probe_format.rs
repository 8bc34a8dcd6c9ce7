//! The format of a machine made by hand and a call, at its edges: every line that
//! is not what it must be, at every place, with a literal answer.

use edzl_tests::{parts, program};

const LINES: usize = 35;

// The line of the held task.
const HELD: usize = 34;
const ZEROS: &str = "0 0 0 0 0 0 0 0";
const LONGEST: &str = "4294967295";

// What no number is; for OPEN see below.
const BAD_NUMBERS: [&str; 17] = [
    "",
    "x",
    "-1",
    "+1",
    "00",
    "01",
    "0000000001",
    "1x",
    "1.0",
    "1,0",
    "/",
    ":",
    "4294967296",
    "4294967297",
    "9999999999",
    "10000000000",
    "18446744073709551616",
];

// Numbers that OPEN is not, besides.
const BAD_OPEN: [&str; 5] = ["2", "9", "10", "256", "4294967295"];

// What none of the 35 lines may be.
const BAD_LINES: [&str; 9] = [
    "",
    " ",
    "\r",
    "\0",
    "x",
    "1",
    "CORES 1",
    "CALLS",
    "MACHINE 1 1\r",
];

const BAD_MACHINES: [&str; 16] = [
    "MACHINE",
    "MACHINE ",
    "MACHINE 1",
    "MACHINE 1 ",
    "MACHINE 1 1 ",
    "MACHINE 1 1 1",
    "MACHINE  1 1",
    " MACHINE 1 1",
    "MACHINE\t1 1",
    "MACHINE1 1",
    "MACHINES 1 1",
    "MACHIN 1 1",
    "machine 1 1",
    "1 1",
    ZEROS,
    "SLOT 1",
];

const BAD_ENTRIES: [&str; 16] = [
    "0",
    "0 0 0 0 0 0",
    "0 0 0 0 0 0 0",
    "0 0 0 0 0 0 0 ",
    "0 0 0 0 0 0 0 0 ",
    "0 0 0 0 0 0 0 0 0",
    " 0 0 0 0 0 0 0 0",
    "0  0 0 0 0 0 0 0",
    "0 0 0 0 0 0 0  0",
    "0 0 0\t0 0 0 0 0",
    "0 0 0 0 0 0 0\t0",
    "0 0 0 0 0 0 0 0\r",
    "0 0 0 0 0 0 0 0\0",
    "0 0 0 0 0 0 0 0 0 0 0 0 0 0 0 0",
    "MACHINE 1 1",
    "SLOT 1",
];

const BAD_HELD: [&str; 33] = [
    "NONE ",
    " NONE",
    "NONE 1",
    "NONE 1 1 1",
    "NONE\r",
    "NONE\0",
    "none",
    "None",
    "NON",
    "NONES",
    "0",
    "HELD",
    "HELD ",
    "HELD 1",
    "HELD 1 1",
    "HELD 1 1 ",
    "HELD 1 1 1 ",
    "HELD 1 1 1 1",
    "HELD  1 1 1",
    "HELD 1  1 1",
    "HELD 1 1  1",
    " HELD 1 1 1",
    "HELD\t1 1 1",
    "HELD 1 1\t1",
    "HELD1 1 1",
    "HELD 1 1 1\r",
    "HELDS 1 1 1",
    "held 1 1 1",
    "OFFER 1 1 1",
    "COMMIT",
    "SLOT 1",
    ZEROS,
    "HELD 0 0 0 0 0 0 0 0",
];

const BAD_CALLS: [&str; 53] = [
    "SLOT",
    "SLOT ",
    "SLOT 1 ",
    "SLOT  1",
    " SLOT 1",
    "SLOT\t1",
    "SLOT1",
    "SLOT 1 1",
    "SLOT 1\r",
    "SLOTS 1",
    "SLO 1",
    "slot 1",
    "STOP 1",
    "RELEASE",
    "RELEASE 1",
    "RELEASE 1 ",
    "RELEASE  1 1",
    "RELEASE 1  1",
    "RELEASE 1 1 ",
    "RELEASE 1 1 1",
    "RELEASE 1\t1",
    "RELEASE 1 1\r",
    "RELEASE1 1",
    "RELEASES 1 1",
    "release 1 1",
    "FINISH",
    "FINISH  1",
    "FINISH 1 ",
    "FINISH 1 1",
    "finish 1",
    "OFFER",
    "OFFER 4",
    "OFFER 4 1",
    "OFFER 4 1 ",
    "OFFER 4 1 4 ",
    "OFFER 4 1 4 4",
    "OFFER  4 1 4",
    "OFFER 4 1  4",
    "OFFERS 4 1 4",
    "offer 4 1 4",
    "COMMIT ",
    "COMMIT 1",
    "COMMIT 4 1 4",
    "COMMIT\r",
    " COMMIT",
    "COMMITS",
    "COMMI",
    "commit",
    "JOIN 4 1 4",
    "NONE",
    "HELD 4 1 4",
    "MACHINE 1 1",
    ZEROS,
];

// A machine of one open job that holds no task and a slot, as its 35 lines.
fn good_lines() -> [String; LINES] {
    let mut lines = [ZEROS; LINES].map(str::to_string);
    lines[0] = "MACHINE 1 1".to_string();
    lines[1] = "9 2 5 1 5 2 9 0".to_string();
    lines[HELD - 1] = "NONE".to_string();
    lines[LINES - 1] = "SLOT 1".to_string();
    lines
}

fn text(lines: &[String]) -> String {
    lines.iter().map(|line| format!("{line}\n")).collect()
}

// The text in which this line, from 1, is another one.
fn with_line(number: usize, line: &str) -> String {
    let mut lines = good_lines();
    lines[number - 1] = line.to_string();
    text(&lines)
}

// Whether what is printed is BAD LINE and this number alone.
fn check_bad(text: &str, number: usize) {
    let printed = program::probe_output(text.as_bytes());
    let printed = String::from_utf8_lossy(&printed);
    let shown = &text[..text.len().min(600)];
    assert_eq!(printed, format!("BAD LINE {number}\n"), "{shown:?}");
}

fn check_good(text: &str, expected: &str) {
    let printed = program::probe_output(text.as_bytes());
    assert_eq!(String::from_utf8_lossy(&printed), expected, "{text:?}");
}

// A good line with one of its fields replaced, in every way.
fn with_bad_numbers(good: &str, first: usize) -> Vec<String> {
    let fields: Vec<&str> = good.split(' ').collect();
    let mut lines = Vec::new();
    for place in first..fields.len() {
        let mut bad = BAD_NUMBERS.to_vec();
        if fields.len() == 8 && place == 3 {
            bad.extend(BAD_OPEN);
        }
        for number in bad {
            let mut fields = fields.clone();
            fields[place] = number;
            lines.push(fields.join(" "));
        }
    }
    lines
}

fn bad_lines(number: usize) -> Vec<String> {
    let of_its_kind: &[&str] = match number {
        1 => &BAD_MACHINES,
        HELD => &BAD_HELD,
        LINES => &BAD_CALLS,
        _ => &BAD_ENTRIES,
    };
    let all = BAD_LINES.iter().chain(of_its_kind);
    let mut lines: Vec<String> = all.map(|line| line.to_string()).collect();
    match number {
        1 => lines.extend(with_bad_numbers("MACHINE 1 1", 1)),
        HELD => lines.extend(with_bad_numbers("HELD 4 1 4", 1)),
        LINES => {
            for call in ["SLOT 1", "RELEASE 1 1", "FINISH 1", "OFFER 4 1 4"] {
                lines.extend(with_bad_numbers(call, 1));
            }
        }
        _ => lines.extend(with_bad_numbers("9 2 5 1 5 2 9 0", 0)),
    }
    lines
}

#[test]
fn each_bad_line_at_each_place() {
    let places = u64::try_from(LINES).expect("35");
    parts::in_parts(places, |part| {
        for number in part {
            let number = usize::try_from(number).expect("35") + 1;
            for line in bad_lines(number) {
                check_bad(&with_line(number, &line), number);
            }
        }
    });
}

// A text cut after any byte: a line is not ended or missing.
#[test]
fn each_text_that_is_cut() {
    for held in ["NONE", "HELD 4 1 4"] {
        let good = with_line(HELD, held);
        for length in 0..good.len() {
            let ended = good[..length].matches('\n').count();
            check_bad(&good[..length], ended + 1);
        }
    }
}

#[test]
fn anything_after_the_call() {
    let good = text(&good_lines());
    for after in [
        "\n", " ", "\0", "\r", "x", "0", "SLOT 1", "SLOT 1\n", "\n\n", &good,
    ] {
        check_bad(&format!("{good}{after}"), 36);
    }
}

// A line too few or too many in the middle: the call stands at another place.
#[test]
fn lines_too_few_and_too_many() {
    for number in 1..=33 {
        let mut lines = good_lines().to_vec();
        lines.remove(number - 1);
        let first = if number == 1 { 1 } else { 33 };
        check_bad(&text(&lines), first);
        let mut lines = good_lines().to_vec();
        lines.insert(number, ZEROS.to_string());
        check_bad(&text(&lines), 34);
    }
    let mut lines = good_lines().to_vec();
    lines.remove(HELD - 1);
    check_bad(&text(&lines), 34);
    for held in ["NONE", "HELD 4 1 4"] {
        let mut lines = good_lines().to_vec();
        lines.insert(HELD, held.to_string());
        check_bad(&text(&lines), 35);
    }
}

// Of two bad lines the first is told.
#[test]
fn the_first_bad_line() {
    for first in 1..LINES {
        let mut lines = good_lines();
        for line in [first, first + 1, LINES] {
            lines[line - 1] = "x".to_string();
        }
        check_bad(&text(&lines), first);
        check_bad(&(text(&lines) + "x"), first);
    }
}

// 100,000 bytes from this line on, of lines that are bad or good at their place.
#[test]
fn very_long_texts() {
    for number in 1..=LINES + 1 {
        let start = text(&good_lines()[..number - 1]);
        for filling in [
            "x",
            "0",
            "1",
            " ",
            "\n",
            "\0",
            "x\n",
            "1 ",
            "0 0 0 0 0 0 0 0 ",
        ] {
            let filling = filling.repeat(100_000 / filling.len());
            check_bad(&format!("{start}{filling}"), number);
            check_bad(&format!("{start}{filling}\n"), number);
        }
        // These lines are good from the second to the 33rd, at the 34th and at the 35th.
        let zeros = format!("{ZEROS}\n").repeat(7_000);
        let first = if number == 1 { 1 } else { number.max(34) };
        check_bad(&format!("{start}{zeros}"), first);
        let held = "HELD 4 1 4\n".repeat(9_000);
        let first = if number == 34 { 35 } else { number };
        check_bad(&format!("{start}{held}"), first);
        let slots = "SLOT 1\n".repeat(14_000);
        let first = if number >= 35 { 36 } else { number };
        check_bad(&format!("{start}{slots}"), first);
    }
}

// A good line that goes on for 100,000 bytes, each field in turn.
#[test]
fn very_long_fields() {
    let digits = "1".repeat(100_000);
    let held = (HELD, "HELD 4 1 4".to_string());
    for (number, line) in (1..).zip(good_lines()).chain([held]) {
        let fields: Vec<&str> = line.split(' ').collect();
        for place in 0..fields.len() {
            let mut fields = fields.clone();
            fields[place] = &digits;
            check_bad(&with_line(number, &fields.join(" ")), number);
        }
        check_bad(
            &with_line(number, &format!("{line}{}", " ".repeat(100_000))),
            number,
        );
    }
}

// The longest text of all: every number has 10 digits. It is 2,635 bytes long, as the
// handbook has it.
#[test]
fn the_longest_text() {
    let job = format!("1 {LONGEST} {LONGEST} {LONGEST} {LONGEST}");
    let entry = format!("{LONGEST} {LONGEST} {LONGEST} {job}\n");
    let task = format!("{LONGEST} {LONGEST} {LONGEST}");
    let entries = entry.repeat(32);
    let machine = format!("MACHINE {LONGEST} {LONGEST}\n{entries}HELD {task}\n");
    let good = format!("{machine}OFFER {task}\n");
    assert_eq!(good.len(), 2_635);
    check_good(&good, &format!("REFUSED 0\n{machine}"));
    check_good(
        &format!("{machine}COMMIT\n"),
        &format!("REFUSED 0\n{machine}"),
    );
    check_bad(&format!("{good}\n"), 36);
    check_bad(&format!("{good}{}", "x".repeat(100_000)), 36);
    check_bad(&good[..2_634], 35);
    let longer = format!("{machine}OFFER {task}0\n");
    check_bad(&longer, 35);
    check_bad(&format!("{longer}{}", "1".repeat(100_000)), 35);
}

// The same lines with every call, as they are printed. 0 alone is a number.
#[test]
fn good_texts() {
    let zeros = format!("{ZEROS}\n").repeat(31) + "NONE\n";
    let before = format!("MACHINE 1 1\n9 2 5 1 5 2 9 0\n{zeros}");
    let cases = [
        ("SLOT 1", "1 0 0 1 1", "MACHINE 1 1\n9 2 5 1 4 1 8 1\n"),
        ("SLOT 0", "REFUSED 14", "MACHINE 1 1\n9 2 5 1 5 2 9 0\n"),
        ("RELEASE 1 2", "REFUSED 9", "MACHINE 1 1\n9 2 5 1 5 2 9 0\n"),
        (
            "RELEASE 1 0",
            "REFUSED 15",
            "MACHINE 1 1\n9 2 5 1 5 2 9 0\n",
        ),
        (
            "RELEASE 1 4294967295",
            "REFUSED 15",
            "MACHINE 1 1\n9 2 5 1 5 2 9 0\n",
        ),
        ("RELEASE 0 0", "REFUSED 8", "MACHINE 1 1\n9 2 5 1 5 2 9 0\n"),
        ("FINISH 1", "DONE", "MACHINE 1 1\n9 2 5 0 0 0 9 0\n"),
        (
            "FINISH 4294967295",
            "REFUSED 8",
            "MACHINE 1 1\n9 2 5 1 5 2 9 0\n",
        ),
        ("OFFER 0 0 0", "REFUSED 5", "MACHINE 1 1\n9 2 5 1 5 2 9 0\n"),
        ("COMMIT", "REFUSED 17", "MACHINE 1 1\n9 2 5 1 5 2 9 0\n"),
    ];
    for (call, answer, after) in cases {
        check_good(
            &format!("{before}{call}\n"),
            &format!("{answer}\n{after}{zeros}"),
        );
    }
    let all_zeros = format!("MACHINE 0 0\n{ZEROS}\n{zeros}");
    check_good(
        &format!("{all_zeros}SLOT 0\n"),
        &format!("REFUSED 0\n{all_zeros}"),
    );
}

// The line of the held task as it is read and printed: 5 5 5 is taken beside 9 2 5 on 2
// cores, and numbers of any size are well formed.
#[test]
fn good_texts_with_a_held_task() {
    let zeros = format!("{ZEROS}\n").repeat(30);
    let task = "MACHINE 1 2\n9 2 5 1 5 2 9 0\n";
    let before = format!("{task}{ZEROS}\n{zeros}");
    let held = "HELD 5 5 5\n";
    let cases = [
        ("NONE\n", "OFFER 5 5 5", "DONE", held),
        (held, "OFFER 5 5 5", "DONE", held),
        (held, "OFFER 1000000 1 5", "DONE", "HELD 1000000 1 5\n"),
        (held, "OFFER 0 0 0", "REFUSED 5", held),
        (held, "SLOT 0", "REFUSED 14", held),
        (held, "RELEASE 2 5", "REFUSED 8", held),
        ("HELD 0 0 0\n", "COMMIT", "REFUSED 0", "HELD 0 0 0\n"),
    ];
    for (line, call, answer, after) in cases {
        check_good(
            &format!("{before}{line}{call}\n"),
            &format!("{answer}\n{before}{after}"),
        );
    }
    let longest = format!("{before}HELD {LONGEST} {LONGEST} {LONGEST}\n");
    check_good(
        &format!("{longest}SLOT 2\n"),
        &format!("REFUSED 0\n{longest}"),
    );
    let added = "MACHINE 2 2\n9 2 5 1 5 2 9 0\n5 5 5 0 0 0 0 0\n";
    check_good(
        &format!("{before}{held}COMMIT\n"),
        &format!("DONE\n{added}{zeros}NONE\n"),
    );
}

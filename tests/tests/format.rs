//! The format of scripts (docs/HANDBOOK.md, "Replaying calls") at its edges, with every
//! expected output in a list.

use edzl_tests::program;
use edzl_tests::script::MOST_SCRIPT_BYTES;

// A name, what is fed and what is printed.
type Case = (&'static str, &'static str, &'static str);

// Whole scripts. As in a table, 0 alone is well formed; the table is all that
// stands between the lines CORES and CALLS.
const SCRIPTS: [Case; 9] = [
    (
        "0 cores",
        "CORES 0\nPERIOD BUDGET DEADLINE\n4 1 4\nCALLS\n",
        "REFUSED 7\n",
    ),
    ("an empty table", "CORES 1\nCALLS\nSLOT 1\n", "REFUSED 2\n"),
    (
        "no calls",
        "CORES 1\nBUDGET PERIOD DEADLINE\n1 4 4\nCALLS\n",
        "",
    ),
    (
        "a refused table",
        "CORES 1\nPERIOD BUDGET DEADLINE\n4 5 4\nCALLS\nSLOT 1\n",
        "REFUSED 5\n",
    ),
    (
        "a table without tasks",
        "CORES 1\nPERIOD BUDGET DEADLINE\nCALLS\nSLOT 1\n",
        "REFUSED 6\n",
    ),
    (
        "17 cores",
        "CORES 17\nPERIOD BUDGET DEADLINE\n4 1 4\nCALLS\nSLOT 17\n",
        "REFUSED 7\n",
    ),
    (
        "the largest number of cores",
        "CORES 4294967295\nPERIOD BUDGET DEADLINE\n4 1 4\nCALLS\n",
        "REFUSED 7\n",
    ),
    (
        "a refused table on 17 cores",
        "CORES 17\nPERIOD BUDGET DEADLINE\n4 01 4\nCALLS\n",
        "REFUSED 4\n",
    ),
    (
        "a refused table before a bad line",
        "CORES 1\nPERIOD BUDGET DEADLINE\n4 5 4\nCALLS\nSTOP\n",
        "REFUSED 5\n",
    ),
];

// Calls after START: the first one is line 6.
const START: &str = "CORES 1\nPERIOD BUDGET DEADLINE\n4 1 4\n6 2 5\nCALLS\n";
const CALLS: [Case; 19] = [
    (
        "task 0",
        "RELEASE 0 1\nFINISH 0\n",
        "REFUSED 8\nREFUSED 8\n",
    ),
    ("a task of zeros", "OFFER 0 0 0\n", "REFUSED 5\n"),
    (
        "another word",
        "SLOT 1\nSTOP\nSLOT 1\n",
        "0 0 0 0\nBAD LINE 7\n",
    ),
    (
        "lower case",
        "SLOT 1\nrelease 1 1\n",
        "0 0 0 0\nBAD LINE 7\n",
    ),
    ("a letter more", "SLOTS 1\n", "BAD LINE 6\n"),
    ("a letter less", "RELEAS 1 1\n", "BAD LINE 6\n"),
    ("no number", "RELEASE\n", "BAD LINE 6\n"),
    ("two numbers", "FINISH 1 2\n", "BAD LINE 6\n"),
    ("two values of a task", "OFFER 4 1\n", "BAD LINE 6\n"),
    ("four values of a task", "OFFER 4 1 4 4\n", "BAD LINE 6\n"),
    ("a leading zero", "RELEASE 01 1\n", "BAD LINE 6\n"),
    ("a sign", "RELEASE +1 1\n", "BAD LINE 6\n"),
    ("no digit", "FINISH x\n", "BAD LINE 6\n"),
    ("two spaces", "RELEASE  1 1\n", "BAD LINE 6\n"),
    ("a tab", "RELEASE\t1 1\n", "BAD LINE 6\n"),
    ("11 digits", "FINISH 10000000000\n", "BAD LINE 6\n"),
    ("above 32 bits", "FINISH 4294967296\n", "BAD LINE 6\n"),
    (
        "the largest number",
        "RELEASE 4294967295 1\n",
        "REFUSED 8\n",
    ),
    (
        "the largest task",
        "OFFER 4294967295 4294967295 4294967295\n",
        "REFUSED 5\n",
    ),
];

// Offers and commits after START. On 1 core 90 1 90 is taken beside the two tasks, and
// 9 9 9, which has no spare, is not.
const OFFERS: [Case; 37] = [
    ("offer, no value", "OFFER\n", "BAD LINE 6\n"),
    ("offer, a space and no value", "OFFER \n", "BAD LINE 6\n"),
    ("offer, one value", "OFFER 90\n", "BAD LINE 6\n"),
    ("offer, a space after two", "OFFER 90 1 \n", "BAD LINE 6\n"),
    (
        "offer, a trailing space",
        "OFFER 90 1 90 \n",
        "BAD LINE 6\n",
    ),
    ("offer, two spaces", "OFFER 90 1  90\n", "BAD LINE 6\n"),
    (
        "offer, two spaces first",
        "OFFER  90 1 90\n",
        "BAD LINE 6\n",
    ),
    ("offer, no space", "OFFER90 1 90\n", "BAD LINE 6\n"),
    ("offer, a tab", "OFFER 90\t1 90\n", "BAD LINE 6\n"),
    ("offer, byte 13", "OFFER 90 1 90\r\n", "BAD LINE 6\n"),
    ("offer, a leading zero", "OFFER 90 01 90\n", "BAD LINE 6\n"),
    ("offer, two zeros", "OFFER 90 1 00\n", "BAD LINE 6\n"),
    ("offer, a sign", "OFFER 90 +1 90\n", "BAD LINE 6\n"),
    ("offer, no digit", "OFFER T C D\n", "BAD LINE 6\n"),
    (
        "offer, above 32 bits",
        "OFFER 4294967296 1 90\n",
        "BAD LINE 6\n",
    ),
    (
        "offer, 11 digits",
        "OFFER 90 1 10000000000\n",
        "BAD LINE 6\n",
    ),
    ("offer, a letter more", "OFFERS 90 1 90\n", "BAD LINE 6\n"),
    ("offer, a letter less", "OFFE 90 1 90\n", "BAD LINE 6\n"),
    ("offer, lower case", "offer 90 1 90\n", "BAD LINE 6\n"),
    ("offer, not ended", "OFFER 90 1 90", "BAD LINE 6\n"),
    (
        "offer, then no call",
        "OFFER 90 1 90\nNONE\n",
        "DONE\nBAD LINE 7\n",
    ),
    ("offer, 10 digits", "OFFER 1000000000 1 90\n", "REFUSED 5\n"),
    ("commit, a trailing space", "COMMIT \n", "BAD LINE 6\n"),
    ("commit, a leading space", " COMMIT\n", "BAD LINE 6\n"),
    ("commit, a number", "COMMIT 1\n", "BAD LINE 6\n"),
    ("commit, a task", "COMMIT 90 1 90\n", "BAD LINE 6\n"),
    ("commit, byte 13", "COMMIT\r\n", "BAD LINE 6\n"),
    ("commit, byte 0", "COMMIT\0\n", "BAD LINE 6\n"),
    ("commit, a letter more", "COMMITS\n", "BAD LINE 6\n"),
    ("commit, a letter less", "COMMI\n", "BAD LINE 6\n"),
    ("commit, lower case", "commit\n", "BAD LINE 6\n"),
    ("commit, not ended", "COMMIT", "BAD LINE 6\n"),
    (
        "commit, none held",
        "COMMIT\nCOMMIT 1\n",
        "REFUSED 17\nBAD LINE 7\n",
    ),
    (
        "commit, a held task",
        "OFFER 90 1 90\nCOMMIT\nRELEASE 3 1\nCOMMIT\n",
        "DONE\nDONE\nDONE\nREFUSED 17\n",
    ),
    (
        "commit, a refused offer",
        "OFFER 9 9 9\nCOMMIT\nRELEASE 3 9\n",
        "REFUSED 13\nREFUSED 17\nREFUSED 8\n",
    ),
    ("a task that joins", "JOIN 90 1 90\n", "BAD LINE 6\n"),
    (
        "a held task",
        "OFFER 90 1 90\nHELD 90 1 90\n",
        "DONE\nBAD LINE 7\n",
    ),
];

// Releases after START, each with its job's need, e: task 1 takes 1, task 2 takes 1 and 2.
const RELEASES: [Case; 32] = [
    ("release, no e", "RELEASE 1\n", "BAD LINE 6\n"),
    ("release, no e of no task", "RELEASE 9\n", "BAD LINE 6\n"),
    ("release, a space and no e", "RELEASE 1 \n", "BAD LINE 6\n"),
    ("release, a third number", "RELEASE 1 1 1\n", "BAD LINE 6\n"),
    ("release, a third field", "RELEASE 1 1 x\n", "BAD LINE 6\n"),
    (
        "release, a trailing space",
        "RELEASE 1 1 \n",
        "BAD LINE 6\n",
    ),
    ("release, two spaces", "RELEASE 1  1\n", "BAD LINE 6\n"),
    ("release, a tab", "RELEASE 1\t1\n", "BAD LINE 6\n"),
    ("release, a comma", "RELEASE 1,1\n", "BAD LINE 6\n"),
    ("release, byte 13", "RELEASE 1 1\r\n", "BAD LINE 6\n"),
    ("release, a leading zero", "RELEASE 1 01\n", "BAD LINE 6\n"),
    ("release, two zeros", "RELEASE 1 00\n", "BAD LINE 6\n"),
    (
        "release, 10 digits with zeros",
        "RELEASE 1 0000000001\n",
        "BAD LINE 6\n",
    ),
    ("release, a sign", "RELEASE 1 +1\n", "BAD LINE 6\n"),
    ("release, below 0", "RELEASE 1 -1\n", "BAD LINE 6\n"),
    ("release, no digit", "RELEASE 1 e\n", "BAD LINE 6\n"),
    ("release, a letter after", "RELEASE 1 1x\n", "BAD LINE 6\n"),
    (
        "release, above 32 bits",
        "RELEASE 1 4294967296\n",
        "BAD LINE 6\n",
    ),
    (
        "release, 1 above 32 bits",
        "RELEASE 1 4294967297\n",
        "BAD LINE 6\n",
    ),
    (
        "release, 11 digits",
        "RELEASE 1 10000000000\n",
        "BAD LINE 6\n",
    ),
    ("release, not ended", "RELEASE 1 1", "BAD LINE 6\n"),
    (
        "release, a bad line after a good one",
        "RELEASE 2 1\nRELEASE 1\nSLOT 1\n",
        "DONE\nBAD LINE 7\n",
    ),
    ("release, e = C", "RELEASE 1 1\n", "DONE\n"),
    ("release, e below C", "RELEASE 2 1\n", "DONE\n"),
    ("release, e of 0", "RELEASE 1 0\n", "REFUSED 15\n"),
    ("release, e = C + 1", "RELEASE 1 2\n", "REFUSED 15\n"),
    ("release, e = D", "RELEASE 2 5\n", "REFUSED 15\n"),
    (
        "release, 10 digits",
        "RELEASE 1 1000000000\n",
        "REFUSED 15\n",
    ),
    (
        "release, the largest e",
        "RELEASE 1 4294967295\n",
        "REFUSED 15\n",
    ),
    (
        "release, the largest numbers",
        "RELEASE 4294967295 4294967295\n",
        "REFUSED 8\n",
    ),
    ("release, zeros", "RELEASE 0 0\n", "REFUSED 8\n"),
    (
        "calls after a refused release",
        "RELEASE 1 0\nRELEASE 1 1\nSLOT 1\n",
        "REFUSED 15\nDONE\n1 1 0 1 1\n",
    ),
];

// Slots after START, each with its number of cores, k: 1 to 16 are accepted.
const SLOTS: [Case; 23] = [
    ("slot, no number", "SLOT\n", "BAD LINE 6\n"),
    ("slot, a space and no number", "SLOT \n", "BAD LINE 6\n"),
    ("slot, a trailing space", "SLOT 2 \n", "BAD LINE 6\n"),
    ("slot, two spaces", "SLOT  2\n", "BAD LINE 6\n"),
    ("slot, no space", "SLOT2\n", "BAD LINE 6\n"),
    ("slot, a tab", "SLOT\t2\n", "BAD LINE 6\n"),
    ("slot, two numbers", "SLOT 2 2\n", "BAD LINE 6\n"),
    ("slot, a leading zero", "SLOT 02\n", "BAD LINE 6\n"),
    ("slot, two zeros", "SLOT 00\n", "BAD LINE 6\n"),
    ("slot, a sign", "SLOT +2\n", "BAD LINE 6\n"),
    ("slot, below 0", "SLOT -1\n", "BAD LINE 6\n"),
    ("slot, no digit", "SLOT k\n", "BAD LINE 6\n"),
    ("slot, above 32 bits", "SLOT 4294967296\n", "BAD LINE 6\n"),
    ("slot, 1 above 32 bits", "SLOT 4294967297\n", "BAD LINE 6\n"),
    ("slot, 11 digits", "SLOT 10000000000\n", "BAD LINE 6\n"),
    ("slot, lower case", "slot 2\n", "BAD LINE 6\n"),
    ("slot, 0 cores", "SLOT 0\n", "REFUSED 14\n"),
    ("slot, 16 cores", "SLOT 16\n", "0 0 0 0\n"),
    ("slot, 17 cores", "SLOT 17\n", "REFUSED 14\n"),
    ("slot, 10 digits", "SLOT 1000000000\n", "REFUSED 14\n"),
    (
        "slot, the largest number",
        "SLOT 4294967295\n",
        "REFUSED 14\n",
    ),
    (
        "calls after a refused slot",
        "SLOT 0\nRELEASE 1 1\nSLOT 1\n",
        "REFUSED 14\nDONE\n1 1 0 1 1\n",
    ),
    (
        "a bad line after a refused slot",
        "SLOT 17\nSLOT\nSLOT 1\n",
        "REFUSED 14\nBAD LINE 7\n",
    ),
];

// Scripts whose line CORES or CALLS is missing, not ended or not what it must be.
const BROKEN_SCRIPTS: [Case; 13] = [
    ("nothing", "", "BAD LINE 1\n"),
    ("CORES not ended", "CORES 1", "BAD LINE 1\n"),
    ("CORES alone", "CORES 1\n", "BAD LINE 2\n"),
    (
        "no CORES line",
        "PERIOD BUDGET DEADLINE\n4 1 4\nCALLS\nSLOT 1\n",
        "BAD LINE 1\n",
    ),
    (
        "CORES without a number",
        "CORES\nPERIOD BUDGET DEADLINE\n4 1 4\nCALLS\n",
        "BAD LINE 1\n",
    ),
    (
        "CORES with two numbers",
        "CORES 1 1\nPERIOD BUDGET DEADLINE\n4 1 4\nCALLS\n",
        "BAD LINE 1\n",
    ),
    (
        "CORES with a leading zero",
        "CORES 01\nPERIOD BUDGET DEADLINE\n4 1 4\nCALLS\n",
        "BAD LINE 1\n",
    ),
    (
        "CORES above 32 bits",
        "CORES 4294967296\nPERIOD BUDGET DEADLINE\n4 1 4\nCALLS\n",
        "BAD LINE 1\n",
    ),
    (
        "a bad CORES line and a refused table",
        "CORES x\n4 1 4\nCALLS\n",
        "BAD LINE 1\n",
    ),
    (
        "no CALLS line",
        "CORES 1\nPERIOD BUDGET DEADLINE\n4 1 4\n",
        "BAD LINE 4\n",
    ),
    (
        "a refused table and no CALLS line",
        "CORES 1\n4 1 4\n",
        "BAD LINE 3\n",
    ),
    (
        "CALLS not ended",
        "CORES 1\nPERIOD BUDGET DEADLINE\n4 1 4\nCALLS",
        "BAD LINE 4\n",
    ),
    (
        "a line like CALLS in the table",
        "CORES 1\nPERIOD BUDGET DEADLINE\n4 1 4\nCALLS \nCALLS\n",
        "REFUSED 4\n",
    ),
];

// Calls after START of which one is a line that is no call.
const BROKEN_CALLS: [Case; 7] = [
    ("CALLS twice", "SLOT 1\nCALLS\n", "0 0 0 0\nBAD LINE 7\n"),
    ("two zeros", "RELEASE 00 1\n", "BAD LINE 6\n"),
    (
        "an empty line",
        "SLOT 1\n\nSLOT 1\n",
        "0 0 0 0\nBAD LINE 7\n",
    ),
    (
        "a line not ended",
        "SLOT 1\nSLOT 1",
        "0 0 0 0\nBAD LINE 7\n",
    ),
    ("byte 13", "SLOT 1\r\n", "BAD LINE 6\n"),
    ("a trailing space", "RELEASE 1 1 \n", "BAD LINE 6\n"),
    ("a leading space", " SLOT 1\n", "BAD LINE 6\n"),
];

// What a script of more than 65,536 bytes prints.
const TOO_LONG: &str = "REFUSED 1\n";

fn printed(text: &str) -> String {
    let bytes = program::replay_output(text.as_bytes());
    String::from_utf8_lossy(&bytes).into_owned()
}

fn check(start: &str, cases: &[Case]) {
    for (name, fed, expected) in cases {
        assert_eq!(printed(&format!("{start}{fed}")), *expected, "{name}");
    }
}

#[test]
fn scripts_and_calls() {
    check("", &SCRIPTS);
    check(START, &CALLS);
    check(START, &RELEASES);
    check(START, &OFFERS);
    check(START, &SLOTS);
}

#[test]
fn broken_scripts_and_calls() {
    check("", &BROKEN_SCRIPTS);
    check(START, &BROKEN_CALLS);
}

// The table's text is limited to 4,096 bytes, whatever the script's length is.
#[test]
fn a_table_of_4096_bytes_and_one_more() {
    let tasks = format!("PERIOD BUDGET DEADLINE\n{}", "4 1 4\n".repeat(32));
    for (length, expected) in [(4_096, "REFUSED 3\n"), (4_097, "REFUSED 1\n")] {
        let filling = "x".repeat(length - 1 - tasks.len());
        let script = format!("CORES 17\n{tasks}{filling}\nCALLS\nSLOT 17\n");
        assert_eq!(printed(&script), expected, "{length} bytes");
    }
}

#[test]
fn a_script_of_65536_bytes_and_one_more() {
    let start = "CORES 1\nPERIOD BUDGET DEADLINE\n40 1 4\nCALLS\n";
    let slots = (MOST_SCRIPT_BYTES - start.len()) / "SLOT 1\n".len();
    let script = format!("{start}{}", "SLOT 1\n".repeat(slots));
    assert_eq!(script.len(), MOST_SCRIPT_BYTES);
    assert!(printed(&script) == "0 0 0 0\n".repeat(slots));
    assert!(printed(&format!("{script}\n")) == TOO_LONG);
}

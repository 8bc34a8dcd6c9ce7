//! Wrong versions of the audit, which the generated and the fixed inputs must be able to
//! tell from document 02, change 11.

use crate::audit::{Audit, after_names, broken, cut_at_log, indexes, number, read_cores};
use crate::log::{LOG_NAMES, Line, cut_line, read_line};
use crate::machine::{Job, Machine};
use crate::reading::{LINE_END, MOST_BYTES, read};
use crate::slack;
use crate::tasks::{MOST_CORES, Refusal};

use Version::*;

/// How a version goes wrong, or that it does not.
#[derive(Clone, Copy, Debug, PartialEq, Eq)]
pub enum Version {
    Right,
    FewerRun,
    MoreRun,
    OnSixteen,
    TiesByNumber,
    TiesByBudget,
    ParsedFirst,
    Missing18,
    MissingIgnored,
    FinishesFirst,
    FinishesLast,
    FinishesReported,
    UrgencyIgnored,
    UrgencyBefore,
    UrgencyStrict,
    LeftIgnored,
    UrgentAlike,
    LeastLaxity,
    CountedBeforeFinishes,
    LateOffends,
    ClosedRunnersDropped,
    GapReset,
    GapIgnored,
    OpenReleased,
    ClosedFinished,
    ReleasedNotFinished,
    OffendsFrom0,
    BrokenFromNames,
    NoPlace,
    NotAdmitted,
    CoresFirst,
    LogFirst,
    LastLog,
    UnendedLog,
    Most4095,
    NamesInAnyOrder,
    NamesAlone,
    EmptyLog,
    LeadingZeros,
    Wraps,
    LastUnended,
    CarriageReturns,
}

/// Every wrong version.
pub const WRONG: [(&str, Version); 41] = [
    ("fewer than min(m, open) may run", FewerRun),
    ("more than min(m, open) may run", MoreRun),
    ("min(16, open) must run", OnSixteen),
    ("ties by number demanded", TiesByNumber),
    ("ties by the larger budget demanded", TiesByBudget),
    ("all lines parsed before any is judged", ParsedFirst),
    ("a missing task as 18", Missing18),
    ("a missing task ignored", MissingIgnored),
    ("finishes before releases", FinishesFirst),
    ("finishes after the running", FinishesLast),
    ("FINISHED as the slot's report", FinishesReported),
    ("urgency ignored", UrgencyIgnored),
    ("urgency before the line's releases", UrgencyBefore),
    ("urgent when left is below budget", UrgencyStrict),
    ("left ignored", LeftIgnored),
    ("left ignored among urgent tasks", UrgentAlike),
    ("least laxity first", LeastLaxity),
    ("open counted before finishes", CountedBeforeFinishes),
    ("a late job offends", LateOffends),
    ("a closed runner ignored", ClosedRunnersDropped),
    ("the gap reset at a finish", GapReset),
    ("the gap ignored", GapIgnored),
    ("an open task released anew", OpenReleased),
    ("a finish of a closed task taken", ClosedFinished),
    ("no finish in the line of the release", ReleasedNotFinished),
    ("offending lines from 0", OffendsFrom0),
    ("broken lines counted with the names", BrokenFromNames),
    ("the table refused without its place", NoPlace),
    ("a table that is not admitted refused", NotAdmitted),
    ("7 before the table", CoresFirst),
    ("the missing LOG before the length", LogFirst),
    ("the last line LOG", LastLog),
    ("a line LOG without its end", UnendedLog),
    ("a text of 4,096 bytes refused", Most4095),
    ("the names in any order", NamesInAnyOrder),
    ("the names alone refused", NamesAlone),
    ("an empty log accepted", EmptyLog),
    ("leading zeros taken", LeadingZeros),
    ("values cut to 32 bits", Wraps),
    ("the last line not ended", LastUnended),
    ("a CR before the line's end", CarriageReturns),
];

// Why a line is not taken.
enum Fault {
    Offends,
    Broken,
}

impl Version {
    /// The answer to a whole input.
    pub fn audit(self, input: &[u8]) -> Audit {
        let answer = match self.try_audit(input) {
            Ok(()) => Audit::Accepted,
            Err(answer) => answer,
        };
        match (self, answer) {
            (OffendsFrom0, Audit::Offends(line)) => Audit::Offends(line - 1),
            (BrokenFromNames, Audit::Refused(Refusal { number: 18, place })) => broken(place + 1),
            _ => answer,
        }
    }

    fn try_audit(self, input: &[u8]) -> Result<(), Audit> {
        let (cores, table, log) = self.split(input)?;
        let mut machine = self.start(cores, table)?;
        let mut rest = match self.after_names(log) {
            Some([]) if self == NamesAlone => return Err(broken(1)),
            names => names.ok_or(broken(0))?,
        };
        if self == ParsedFirst {
            self.parse_all(rest)?;
        }
        let mut number = 0;
        while !rest.is_empty() {
            number += 1;
            let (line, after) = self.read_line(rest).ok_or(broken(number))?;
            self.judge(&mut machine, line)
                .map_err(|fault| match fault {
                    Fault::Offends => Audit::Offends(number),
                    Fault::Broken => broken(number),
                })?;
            rest = after;
        }
        Ok(())
    }

    // m, the table's text and the log.
    fn split(self, input: &[u8]) -> Result<(u32, &[u8], &[u8]), Audit> {
        let (first, rest) = cut_line(input).ok_or(Audit::BadLine(1))?;
        let cores = read_cores(first).ok_or(Audit::BadLine(1))?;
        let (table, log) = match self {
            LastLog => cut_at_last_log(rest),
            UnendedLog if rest.ends_with(b"\nLOG") => (&rest[..rest.len() - 3], Some(&[][..])),
            _ => cut_at_log(rest),
        };
        let most = MOST_BYTES - usize::from(self == Most4095);
        let ended = table.iter().filter(|byte| **byte == LINE_END).count();
        let missing = log.is_none().then_some(Audit::BadLine(ended + 2));
        let long = Audit::Refused(Refusal::whole(1));
        let long = (table.len() > most).then_some(long);
        let fault = match self {
            LogFirst => missing.or(long),
            _ => long.or(missing),
        };
        match (fault, log) {
            (None, Some(log)) => Ok((cores, table, log)),
            (fault, _) => Err(fault.expect("a missing line LOG")),
        }
    }

    fn start(self, cores: u32, table: &[u8]) -> Result<Machine, Audit> {
        if self == CoresFirst && !(1..=MOST_CORES).contains(&cores) {
            return Err(Audit::Refused(Refusal::whole(7)));
        }
        let started = read(table).and_then(|table| Machine::start(&table, cores));
        let machine = started.map_err(|refusal| match self {
            NoPlace => Audit::Refused(Refusal::whole(refusal.number)),
            _ => Audit::Refused(refusal),
        })?;
        match self == NotAdmitted && !slack::admits(&machine.table, cores) {
            true => Err(Audit::Refused(Refusal::whole(13))),
            false => Ok(machine),
        }
    }

    fn after_names(self, log: &[u8]) -> Option<&[u8]> {
        if self == EmptyLog && log.is_empty() {
            return Some(log);
        }
        if self != NamesInAnyOrder {
            return after_names(log);
        }
        let (names, after) = cut_line(log)?;
        let sorted = |names: &[u8]| {
            let mut fields: Vec<Vec<u8>> =
                names.split(|b| *b == b' ').map(<[u8]>::to_vec).collect();
            fields.sort();
            fields
        };
        (sorted(names) == sorted(LOG_NAMES)).then_some(after)
    }

    fn parse_all(self, mut rest: &[u8]) -> Result<(), Audit> {
        let mut number = 0;
        while !rest.is_empty() {
            number += 1;
            (_, rest) = self.read_line(rest).ok_or(broken(number))?;
        }
        Ok(())
    }

    fn read_line(self, text: &[u8]) -> Option<(Line, &[u8])> {
        let end = text.iter().position(|byte| *byte == LINE_END);
        let unended = self == LastUnended && end.is_none();
        let end = if unended { text.len() } else { end? };
        let after = text.get(end + 1..).unwrap_or_default();
        let line = self.read_as(&text[..end])?;
        let (line, _) = read_line(line.as_bytes())?;
        Some((line, after))
    }

    // The line as the right version would have to find it.
    fn read_as(self, line: &[u8]) -> Option<String> {
        let line = String::from_utf8(line.to_vec()).ok()?;
        let changed = match self {
            LeadingZeros => each_field(&line, |field| match field.trim_start_matches('0') {
                "" if !field.is_empty() => "0".to_string(),
                digits => digits.to_string(),
            }),
            Wraps => each_field(&line, |field| match field.parse::<u64>() {
                Ok(value) if field.len() == 10 => (value % (1 << 32)).to_string(),
                _ => field.to_string(),
            }),
            CarriageReturns => line.strip_suffix('\r').unwrap_or(&line).to_string(),
            _ => line,
        };
        Some(changed + "\n")
    }

    // One line on the machine after the lines before it.
    fn judge(self, machine: &mut Machine, line: Line) -> Result<(), Fault> {
        let line = self.within(machine, line)?;
        let before = machine.jobs.clone();
        if self == ReleasedNotFinished && line.released & line.finished != 0 {
            return Err(Fault::Offends);
        }
        if self == FinishesFirst {
            self.finish(machine, line.finished)?;
        }
        self.release(machine, line.released)?;
        let released = machine.jobs.clone();
        if !matches!(self, FinishesFirst | FinishesLast | FinishesReported) {
            self.finish(machine, line.finished)?;
        }
        let mut runners = indexes(line.ran);
        if self == ClosedRunnersDropped {
            runners.retain(|index| machine.jobs.get(*index).is_some_and(|job| job.open));
        }
        if !self.runs(machine, &runners, &before, &released) {
            return Err(Fault::Offends);
        }
        self.charge(machine, &runners, line)
    }

    // Bits without a task.
    fn within(self, machine: &Machine, line: Line) -> Result<Line, Fault> {
        let tasks = u32::try_from(machine.table.len()).expect("at most 32 tasks");
        let mask = u32::MAX >> (32 - tasks);
        let all = line.released | line.finished | line.ran;
        match self {
            Missing18 if all & !mask != 0 => Err(Fault::Broken),
            MissingIgnored => Ok(Line::new(
                line.released & mask,
                line.finished & mask,
                line.ran & mask,
            )),
            _ => Ok(line),
        }
    }

    fn release(self, machine: &mut Machine, released: u32) -> Result<(), Fault> {
        for index in indexes(released) {
            let task = *machine.table.get(index).ok_or(Fault::Offends)?;
            let job = &mut machine.jobs[index];
            match self {
                GapIgnored if !job.open => job.gap = 0,
                OpenReleased if job.open => *job = Job::default(),
                _ => {}
            }
            let released = machine.release(number(index), task.budget);
            released.map_err(|_| Fault::Offends)?;
        }
        Ok(())
    }

    fn finish(self, machine: &mut Machine, finished: u32) -> Result<(), Fault> {
        for index in indexes(finished) {
            let job = machine.jobs.get(index).ok_or(Fault::Offends)?;
            if self == ClosedFinished && !job.open {
                continue;
            }
            machine.finish(number(index)).map_err(|_| Fault::Offends)?;
            if self == GapReset {
                machine.jobs[index].gap = 0;
            }
        }
        Ok(())
    }

    // With the jobs before the line and those after its releases.
    fn runs(self, machine: &Machine, runners: &[usize], before: &[Job], released: &[Job]) -> bool {
        let jobs = &machine.jobs;
        let open = |jobs: &[Job]| jobs.iter().filter(|job| job.open).count();
        let counted = match self {
            CountedBeforeFinishes => open(released),
            _ => open(jobs),
        };
        let cores = if self == OnSixteen {
            MOST_CORES
        } else {
            machine.cores
        };
        let cores = usize::try_from(cores).expect("at most 16 cores");
        let least = cores.min(counted);
        let enough = match self {
            FewerRun => runners.len() <= least,
            MoreRun => runners.len() >= least,
            _ => runners.len() == least,
        };
        let is_open = |index: &usize| jobs.get(*index).is_some_and(|job| job.open);
        let idle = |index: &usize| jobs[*index].open && !runners.contains(index);
        enough
            && runners.iter().all(is_open)
            && !(0..jobs.len()).filter(idle).any(|one| {
                let mut others = runners.iter();
                others.any(|other| self.beats(jobs, before, one, *other))
            })
    }

    fn beats(self, jobs: &[Job], before: &[Job], one: usize, other: usize) -> bool {
        let urgent = |index: usize| match self {
            UrgencyIgnored | LeastLaxity => false,
            UrgencyBefore => before[index].urgent(),
            UrgencyStrict => jobs[index].left < jobs[index].budget,
            _ => jobs[index].urgent(),
        };
        let left = |index: usize| match self {
            LeftIgnored => 0,
            UrgentAlike if urgent(index) => 0,
            LeastLaxity => i64::from(jobs[index].left) - i64::from(jobs[index].budget),
            _ => i64::from(jobs[index].left),
        };
        let rank = |index: usize| (!urgent(index), left(index));
        let alike = rank(one) == rank(other);
        match self {
            TiesByNumber if alike => one < other,
            TiesByBudget if alike => jobs[one].budget > jobs[other].budget,
            _ => rank(one) < rank(other),
        }
    }

    // Steps 2 to 4, and what comes after them.
    fn charge(self, machine: &mut Machine, runners: &[usize], line: Line) -> Result<(), Fault> {
        let slot = machine.run(runners);
        let offends = match self {
            LateOffends => slot.late != 0,
            FinishesReported => slot.finished != line.finished,
            _ => false,
        };
        match (offends, self) {
            (true, _) => Err(Fault::Offends),
            (false, FinishesLast) => self.finish(machine, line.finished),
            _ => Ok(()),
        }
    }
}

// What stands before the last line LOG, and what after it.
fn cut_at_last_log(text: &[u8]) -> (&[u8], Option<&[u8]>) {
    let mut found = cut_at_log(text);
    while let (_, Some(after)) = found {
        let (between, Some(last)) = cut_at_log(after) else {
            break;
        };
        let before = text.len() - after.len() + between.len();
        found = (&text[..before], Some(last));
    }
    found
}

fn each_field(line: &str, change: fn(&str) -> String) -> String {
    let fields: Vec<String> = line.split(' ').map(change).collect();
    fields.join(" ")
}

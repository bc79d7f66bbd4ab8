//! Helpers of the tests, and the tests by kind.
mod answers;
mod down;
mod ends;
mod former;
mod index;
mod marked;
mod random;
mod refused;
mod runs;
mod scans;
mod shapes;
mod stacks;

use crate::words::*;
use crate::*;

pub const GET: u64 = 1;
pub const PUT: u64 = 2;
pub const PUT_IF_ABSENT: u64 = 3;
pub const UPSERT: u64 = 4;
pub const COMPUTE: u64 = 5;
pub const REMOVE: u64 = 6;
pub const SCAN: u64 = 7;
pub const SCAN_DOWN: u64 = 8;

pub const ABSENT: Report = Report::Finished(Answer::Absent);
pub const DONE: Report = Report::Finished(Answer::Done);
pub const TRUE: Report = Report::Finished(Answer::True);
pub const FALSE: Report = Report::Finished(Answer::False);
pub const FROZEN: Report = Report::Restarted(Restart::Frozen);
pub const FULL: Report = Report::Restarted(Restart::Full);
pub const LOST: Report = Report::Restarted(Restart::Lost);

/// An operation ends with a value.
pub const fn value(value: u64) -> Report {
    Report::Finished(Answer::Value(value))
}

/// Starts an operation that must be taken.
pub fn start(tables: &mut Tables, n: u64, operation: u64, key: u64, argument: u64, function: u64) {
    assert_eq!(tables.start(n, operation, key, argument, function), Report::MovedOn);
}

/// Steps a task that many times, each moving on.
pub fn steps(tables: &mut Tables, n: u64, count: u64) {
    for step in 1..=count {
        assert_eq!(tables.step(n), Report::MovedOn, "step {step}");
    }
}

/// Steps a task to the first report that is not moved on, with the number of that step.
pub fn run(tables: &mut Tables, n: u64) -> (u64, Report) {
    for step in 1..1000 {
        match tables.step(n) {
            Report::MovedOn => {}
            report => return (step, report),
        }
    }
    panic!("no end");
}

/// Steps a task to its end through restarts and pairs, with the number of steps.
pub fn finish(tables: &mut Tables, n: u64) -> (u64, Report) {
    for step in 1..1000 {
        let report = tables.step(n);
        if matches!(report, Report::Finished(_) | Report::Refused(_)) {
            return (step, report);
        }
    }
    panic!("no end");
}

/// A whole operation by one task.
pub fn whole(tables: &mut Tables, n: u64, operation: u64, key: u64, argument: u64, function: u64) -> (u64, Report) {
    start(tables, n, operation, key, argument, function);
    run(tables, n)
}

/// The directory after M2.
pub fn after_m2() -> Tables {
    let mut tables = Tables::fresh();
    assert_eq!(whole(&mut tables, 0, PUT_IF_ABSENT, 5, 50, 0), (9, TRUE));
    tables
}

/// The keys from 1 up to the count, each put to ten times itself.
pub fn with_keys(count: u64) -> Tables {
    let mut tables = Tables::fresh();
    for key in 1..=count {
        assert_eq!(whole(&mut tables, 0, PUT, key, key * 10, 0), (9, ABSENT));
    }
    tables
}

/// A whole rebalance of the chunk that has the key.
pub fn rebalance_all(tables: &mut Tables, key: u64) {
    assert_eq!(tables.begin(key), Report::MovedOn);
    for _ in 0..4 {
        assert_eq!(tables.rebalance(), Report::MovedOn);
    }
    assert_eq!(tables.rebalance(), Report::Released);
}

/// The map: every present key with its value.
pub fn map(tables: &Tables) -> std::collections::BTreeMap<u64, u64> {
    let linked = tables.chain().flat_map(|number| tables.chunks[number].linked());
    let named = linked.filter_map(|(_, entry)| Some((entry.key, tables.handles[entry.handle?])));
    named.filter(|(_, handle)| !handle.deleted).map(|(key, handle)| (key, handle.value)).collect()
}

/// The tables as fresh words.
pub fn as_words(tables: &Tables) -> Words {
    let mut words = blank();
    tables.to_words(&mut words);
    words
}

/// The stage number of a task, 0 when idle.
pub fn stage(tables: &Tables, n: usize) -> u64 {
    tables.tasks[n].map_or(0, |task| task.stage.number())
}

//! Answers amid random calls: an operation answers what the sequential map answers at its deciding step, or, without one, at some moment between its first step and its last.
use super::random::{any_call, Random};
use super::*;
use std::collections::BTreeMap;

type Map = BTreeMap<u64, u64>;

/// What stood there, or absent.
fn former(value: Option<u64>) -> Answer {
    value.map_or(Answer::Absent, Answer::Value)
}

/// What the sequential map answers a change, which it makes.
fn changes(map: &mut Map, asked: &Task) -> Answer {
    let (key, argument) = (asked.key, asked.argument);
    let applied = |value| Function::from_number(asked.function).unwrap().apply(value, argument);
    match asked.operation {
        Operation::Put => former(map.insert(key, argument)),
        Operation::Remove => former(map.remove(&key)),
        Operation::PutIfAbsent => {
            assert_eq!(map.insert(key, argument), None);
            Answer::True
        }
        Operation::Upsert => {
            map.entry(key).and_modify(|value| *value = applied(*value)).or_insert(argument);
            Answer::Done
        }
        Operation::Compute => {
            let value = map.get_mut(&key).unwrap();
            *value = applied(*value);
            Answer::True
        }
        Operation::Get | Operation::Scan | Operation::ScanDown => panic!("{asked:?} changes nothing"),
    }
}

/// What the sequential map answers an operation that finds nothing to change.
fn finds(map: &Map, asked: &Task) -> Option<Answer> {
    match (asked.operation, map.get(&asked.key)) {
        (Operation::Get, value) => Some(former(value.copied())),
        (Operation::Remove, None) => Some(Answer::Absent),
        (Operation::PutIfAbsent, Some(_)) | (Operation::Compute, None) => Some(Answer::False),
        _ => None,
    }
}

/// The task's step is its deciding one: a swap at 11 that succeeds, or a stage 5 that applies.
fn decides(tables: &Tables, task: &Task) -> bool {
    match (task.stage, task.chunk, task.entry) {
        (Stage::Apply, _, _) => task.old.is_some_and(|old| !tables.handles[old].deleted),
        (Stage::Swap, Some(chunk), Some(entry)) => tables.chunks[chunk].entries[entry].handle == task.old,
        _ => false,
    }
}

/// An operation under way: its record as it started, the answer of its deciding step, and those that the map gave it since its first step.
struct Watched {
    asked: Task,
    begun: bool,
    decided: Option<Answer>,
    found: Vec<Answer>,
}

impl Watched {
    fn of(asked: Task) -> Watched {
        Watched {
            asked,
            begun: false,
            decided: None,
            found: Vec::new(),
        }
    }

    /// One step of it, from the tables before; the map changes where it decides.
    fn step(&mut self, before: &Tables, task: &Task, report: Report, map: &mut Map) {
        self.begun = true;
        if decides(before, task) {
            assert_eq!(self.decided, None, "one deciding step");
            self.decided = Some(changes(map, &self.asked));
        }
        match report {
            Report::Finished(answer) => self.judge(answer),
            Report::Restarted(_) | Report::Refused(9) => assert_eq!(self.decided, None),
            report => assert_eq!(report, Report::MovedOn),
        }
    }

    fn judge(&self, answer: Answer) {
        match self.decided {
            Some(decided) => assert_eq!(answer, decided, "{:?}", self.asked),
            None => assert!(self.found.contains(&answer), "{answer:?} {:?} {:?}", self.found, self.asked),
        }
    }

    /// A moment between its first step and its last.
    fn look(&mut self, map: &Map) {
        let found = finds(map, &self.asked).filter(|found| self.begun && self.found.last() != Some(found));
        self.found.extend(found);
    }
}

/// How often each operation gave each kind of answer: value, absent, done, true, false.
type Given = [[u64; 5]; 6];

fn kind(answer: Answer) -> usize {
    Report::Finished(answer).told().0 as usize - 6
}

/// A random run in which every operation but scans is judged.
fn watched_run(seed: u64, given: &mut Given) {
    let mut random = Random(seed.wrapping_mul(0x9E37_79B9_7F4A_7C15));
    let keys = [3, 40, 700][seed as usize % 3];
    let (mut tables, mut sequential) = (Tables::fresh(), Map::new());
    let mut watched: [Option<Watched>; TASKS] = Default::default();
    for _ in 0..6000 {
        let before = tables.clone();
        let report = any_call(&mut tables, &mut random, keys);
        for n in (0..TASKS).filter(|&n| before.tasks[n] != tables.tasks[n]) {
            match (before.tasks[n], &mut watched[n]) {
                (None, none) => *none = tables.tasks[n].filter(|task| !task.operation.is_scan()).map(Watched::of),
                (Some(task), Some(operation)) => operation.step(&before, &task, report, &mut sequential),
                (Some(_), None) => {}
            }
            if let (None, Some(ended), Report::Finished(answer)) = (tables.tasks[n], &watched[n], report) {
                given[ended.asked.operation as usize][kind(answer)] += 1;
            }
            watched[n] = watched[n].take().filter(|_| tables.tasks[n].is_some());
        }
        assert_eq!(map(&tables), sequential);
        watched.iter_mut().flatten().for_each(|operation| operation.look(&sequential));
    }
}

/// The kinds of answer that each operation gives, and no other.
const KINDS: [[bool; 5]; 6] = [
    [true, true, false, false, false],
    [true, true, false, false, false],
    [false, false, false, true, true],
    [false, false, true, false, false],
    [false, false, false, true, true],
    [true, true, false, false, false],
];

#[test]
fn the_sequential_map_gives_every_answer() {
    let mut given = Given::default();
    (1..=18).for_each(|seed| watched_run(seed, &mut given));
    for (given, kinds) in given.iter().zip(KINDS) {
        let right = |(&count, kind): (&u64, bool)| if kind { count > 50 } else { count == 0 };
        assert!(given.iter().zip(kinds).all(right), "{given:?}");
    }
}

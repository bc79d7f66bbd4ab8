//! Scans amid random calls: each pair is present at its step, keys rise or fall strictly, a key in range present throughout is given and one absent throughout is not.
use super::random::{any_call, Random};
use super::*;
use std::collections::{BTreeMap, BTreeSet};

/// A scan under way: its range, its keys so far, and the keys that were present at each moment of it.
struct Watched {
    from: u64,
    to: u64,
    falls: bool,
    given: Vec<u64>,
    throughout: BTreeSet<u64>,
}

impl Watched {
    fn of(task: Task, map: &BTreeMap<u64, u64>) -> Watched {
        Watched {
            from: task.key,
            to: task.argument,
            falls: task.operation == Operation::ScanDown,
            given: Vec::new(),
            throughout: map.range(task.key..=task.argument).map(|(&key, _)| key).collect(),
        }
    }

    fn give(&mut self, key: u64) {
        assert!(self.from <= key && key <= self.to);
        assert!(self.given.last().is_none_or(|&last| if self.falls { key < last } else { last < key }));
        self.given.push(key);
    }

    fn finish(&self) {
        let given: BTreeSet<u64> = self.given.iter().copied().collect();
        assert!(self.throughout.is_subset(&given), "{:?} {:?}", self.throughout, given);
    }
}

/// What a call's report means to the scan of the task that it was about.
fn watch(watched: &mut Option<Watched>, report: Report, map: &BTreeMap<u64, u64>) {
    match (report, watched.as_mut()) {
        (Report::Pair(key, value), Some(scan)) => {
            assert_eq!(map.get(&key), Some(&value), "present at its step");
            scan.give(key);
        }
        (DONE, Some(scan)) => {
            scan.finish();
            *watched = None;
        }
        _ => {}
    }
}

/// How many scans, upward and downward, had equal ends, gave the largest key, and ended.
#[derive(Default, Debug)]
struct Seen {
    equal: [u64; 2],
    top: [u64; 2],
    ended: [u64; 2],
}

impl Seen {
    /// One start or step of a scan.
    fn count(&mut self, was: Option<Task>, is: Option<Task>, report: Report) {
        let Some(task) = was.or(is) else { return };
        let way = (task.operation == Operation::ScanDown) as usize;
        self.equal[way] += (was.is_none() && task.key == task.argument) as u64;
        self.top[way] += matches!(report, Report::Pair(u64::MAX, _)) as u64;
        self.ended[way] += is.is_none() as u64;
    }
}

/// A random run in which every scan is watched.
fn watched_run(seed: u64, seen: &mut Seen) {
    let mut random = Random(seed.wrapping_mul(0x9E37_79B9_7F4A_7C15));
    let keys = [3, 40, 700][seed as usize % 3];
    let mut tables = Tables::fresh();
    let mut watched: [Option<Watched>; TASKS] = Default::default();
    for _ in 0..6000 {
        let before = tables.tasks;
        let report = any_call(&mut tables, &mut random, keys);
        let map = map(&tables);
        for n in 0..TASKS {
            let (was, is) = (before[n], tables.tasks[n]);
            if was == is || !was.or(is).is_some_and(|task| task.operation.is_scan()) {
                continue;
            }
            seen.count(was, is, report);
            match (was, is) {
                (None, Some(task)) => watched[n] = Some(Watched::of(task, &map)),
                _ => watch(&mut watched[n], report, &map),
            }
        }
        watched
            .iter_mut()
            .flatten()
            .for_each(|scan| scan.throughout.retain(|key| map.contains_key(key)));
    }
}

#[test]
fn scans_keep_their_rules_amid_random_calls() {
    let mut seen = Seen::default();
    (1..=18).for_each(|seed| watched_run(seed, &mut seen));
    assert!(seen.ended.iter().all(|&count| count > 300), "{seen:?}");
    assert!(seen.equal.iter().chain(&seen.top).all(|&count| count > 30), "{seen:?}");
}

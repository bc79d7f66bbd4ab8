//! States that are measured: reached from fresh by the second implementation's own calls.
use crate::{Call, Chance};
use model::words::{blank, Words};
use model::{Rebalance, Report, Restart, Stage, Tables, TASKS};

/// A state, and the call that is measured on it; where there are more states, each time on the next in turn.
pub struct Case {
    pub name: String,
    pub tables: Tables,
    pub words: Words,
    pub call: Call,
    pub more: Vec<(Tables, Words)>,
}

fn working(t: &Tables, n: usize) -> u64 {
    t.tasks[n].map_or(0, |t| t.stage.number())
}

/// A rebalance of the key's chunk, to its end.
fn rebalance(t: &mut Tables, key: u64) {
    t.begin(key);
    while t.rebalance() == Report::MovedOn {}
}

/// An operation of task 0 to its end; a full chunk is rebalanced.
pub fn operate(t: &mut Tables, op: u64, key: u64, argument: u64) -> u64 {
    assert_eq!(t.start(0, op, key, argument, 1), Report::MovedOn);
    for calls in 2.. {
        match t.step(0) {
            Report::MovedOn | Report::Pair(..) => {}
            Report::Restarted(Restart::Full) => rebalance(t, key),
            Report::Finished(_) => return calls,
            other => panic!("{other:?}"),
        }
    }
    0
}

/// Keys that are put in random order.
pub fn with_keys(count: u64) -> (Tables, Vec<u64>) {
    let (mut t, mut r) = (Tables::fresh(), Chance::new(count));
    let mut keys: Vec<u64> = (1..=count).map(|i| i * 1000).collect();
    r.shuffle(&mut keys);
    for &k in &keys {
        operate(&mut t, 2, k, k);
    }
    (t, keys)
}

pub(crate) fn chain(t: &Tables) -> Vec<usize> {
    let mut chain = vec![t.first];
    while let Some(next) = t.chunks[chain[chain.len() - 1]].next {
        chain.push(next);
    }
    chain
}

/// So many live chunks of 16 keys each, the last of up to 32.
pub fn with_chunks(count: usize) -> Tables {
    let mut t = Tables::fresh();
    for k in 1.. {
        operate(&mut t, 2, k * 1000, k);
        if chain(&t).len() == count && (count > 1 || k == 16) {
            break;
        }
    }
    t
}

/// So many live chunks, every list of 32 linked entries, the last chunk's of 31; so many keys present, in the chunks of the highest
/// numbers.
pub fn long_lists(chunks: usize, present: usize) -> Tables {
    let mut t = with_chunks(chunks);
    let chain = chain(&t);
    let end = chain[chunks - 1];
    let mut numbers: Vec<usize> = chain.iter().copied().filter(|&c| c != end).collect();
    numbers.sort();
    let mut left = present - 31;
    let mut keeps = vec![(end, 31, 31)];
    for c in numbers.into_iter().rev() {
        keeps.push((c, 32, left.min(32)));
        left -= left.min(32);
    }
    for (c, length, keep) in keeps.into_iter().rev() {
        let keys: Vec<u64> = t.chunks[c].linked().map(|(_, e)| e.key).collect();
        for &k in keys.iter().take(keys.len().saturating_sub(keep)) {
            operate(&mut t, 6, k, 0);
        }
        let mut named = keys.len().min(keep);
        let last = last_key(&t, c);
        for k in (last + 1..).take(length - keys.len()) {
            operate(&mut t, 2, k, k);
            named += 1;
            if named > keep {
                operate(&mut t, 6, k, 0);
                named -= 1;
            }
        }
        assert_eq!(t.chunks[c].linked().count(), length);
    }
    t
}

/// The live chunks but the last whose linked entries all name a handle, the highest number last.
fn all_naming(t: &Tables) -> Vec<usize> {
    let mut chain = chain(t);
    chain.pop();
    chain.retain(|&c| t.chunks[c].linked().all(|(_, e)| e.handle.is_some()));
    chain.sort();
    chain
}

/// Seven tasks at stage 5, each at the end of a list of 32.
pub fn busy(t: Tables) -> Tables {
    let chunks = all_naming(&t);
    busy_in(t, &chunks)
}

/// Seven tasks at stage 5, each with the last key of one of the chunks.
pub(crate) fn busy_in(mut t: Tables, chunks: &[usize]) -> Tables {
    for (n, &c) in (1..TASKS).zip(chunks.iter().rev().cycle()) {
        let key = last_key(&t, c);
        t.start(n as u64, 2, key, 7, 0);
        while working(&t, n) != 5 {
            t.step(n as u64);
        }
    }
    t
}

/// A chunk's rebalance as far as to its release, with two new chunks.
pub(crate) fn retire(t: &mut Tables, old: usize) -> [usize; 2] {
    t.begin(last_key(t, old));
    for _ in 0..4 {
        assert_eq!(t.rebalance(), Report::MovedOn);
    }
    match t.rebalance {
        Rebalance::Release(_, new, Some(second)) => [new, second],
        _ => panic!("two new chunks"),
    }
}

/// 31 live chunks and a retired one, every list long, 559 keys present; the tasks are idle.
pub fn heavy() -> Tables {
    let mut t = long_lists(30, 559);
    let old = *all_naming(&t).last().unwrap();
    for c in retire(&mut t, old) {
        let first = t.chunks[c].linked().next().unwrap().1.key;
        let absent: Vec<u64> = (first + 1..).filter(|&k| t.chunks[c].find(k).is_none()).take(16).collect();
        for &k in &absent {
            operate(&mut t, 2, k, k);
            operate(&mut t, 6, k, 0);
        }
        assert_eq!(t.chunks[c].linked().count(), 32);
    }
    t
}

fn last_key(t: &Tables, c: usize) -> u64 {
    t.chunks[c].linked().last().unwrap().1.key
}

fn last_naming(t: &Tables, c: usize) -> u64 {
    t.chunks[c].linked().filter(|(_, e)| e.handle.is_some()).last().unwrap().1.key
}

/// The live chunk of the longest list, the last of them.
fn longest_list(t: &Tables) -> usize {
    let length = |&c: &usize| t.chunks[c].linked().count();
    chain(t).into_iter().max_by_key(length).unwrap()
}

/// Task 0 scans down, and its next step fills the stack with the longest list.
pub fn scanning_down(t: &Tables) -> Tables {
    let (mut t, c) = (t.clone(), longest_list(t));
    let upper = last_key(&t, c);
    assert_eq!(t.locate(upper), c);
    assert_eq!(t.start(0, 8, 0, upper, 0), Report::MovedOn);
    t
}

/// Seven tasks that scan down, each with a list of 32 on its stack.
pub fn busy_down(mut t: Tables) -> Tables {
    let whole = |&c: &usize| t.chunks[c].linked().count() == 32;
    let full: Vec<usize> = chain(&t).into_iter().filter(whole).collect();
    for (n, &c) in (1..TASKS).zip(full.iter().rev().cycle()) {
        let upper = last_key(&t, c);
        assert_eq!([t.start(n as u64, 8, 0, upper, 0), t.step(n as u64)], [Report::MovedOn; 2]);
        assert_eq!(depth(&t, n), 32);
    }
    t
}

/// How many entries are on task n's stack.
pub fn depth(t: &Tables, n: usize) -> usize {
    t.tasks[n].map_or(0, |task| task.stack.entries().len())
}

/// Three live chunks, the last of a list of 32, with that chunk.
fn last_full() -> (Tables, usize) {
    let mut t = with_chunks(3);
    let c = *chain(&t).last().unwrap();
    while t.chunks[c].linked().count() < 32 {
        let key = last_key(&t, c) + 1;
        operate(&mut t, 2, key, key);
    }
    (t, c)
}

/// Task n scans all keys down, so many steps.
fn scan_down(t: &mut Tables, n: u64, steps: usize) {
    assert_eq!(t.start(n, 8, 0, u64::MAX, 0), Report::MovedOn);
    for _ in 0..steps {
        assert!(matches!(t.step(n), Report::MovedOn | Report::Pair(..)));
    }
}

/// Seven tasks scan down from a list of 32: one holds nothing, one has all 32 on its stack, others fewer or none, and one is at the
/// chunk below. Then the same with that list's chunk retired and still indexed, and, not indexed, with some of its keys removed and put
/// anew.
pub fn scans_down() -> [Tables; 3] {
    let (mut t, c) = last_full();
    for (n, steps) in (1..).zip([0, 1, 2, 17, 32, 33, 34]) {
        scan_down(&mut t, n, steps);
    }
    assert_eq!([1, 2, 3, 4, 5, 6].map(|n| depth(&t, n)), [0, 32, 31, 16, 1, 0]);
    let mut retired = t.clone();
    let told = [retired.begin(last_key(&t, c)), retired.rebalance(), retired.rebalance(), retired.rebalance()];
    assert_eq!(told, [Report::MovedOn; 4]);
    let mut changed = retired.clone();
    assert_eq!(changed.rebalance(), Report::MovedOn);
    let keys: Vec<u64> = t.chunks[c].linked().map(|(_, e)| e.key).collect();
    keys.iter().step_by(3).for_each(|&k| {
        operate(&mut changed, 6, k, 0);
    });
    keys.iter().step_by(2).for_each(|&k| {
        operate(&mut changed, 2, k, 7);
    });
    [t, retired, changed]
}

/// So many live chunks at rest, and with a rebalance of the first, of a middle or of the last at swap in, index and release.
pub fn amid_rebalances() -> Vec<Tables> {
    let mut states = vec![];
    for count in [1, 2, 7, 30] {
        let t = with_chunks(count);
        let chain = chain(&t);
        for c in [chain[0], chain[count / 2], chain[count - 1]] {
            let mut t = t.clone();
            let told = [t.begin(t.chunks[c].min), t.rebalance(), t.rebalance()];
            assert_eq!(told, [Report::MovedOn; 3]);
            for _ in 0..3 {
                states.push(t.clone());
                assert_ne!(t.rebalance(), Report::Waiting);
            }
        }
        states.push(t);
    }
    states
}

/// Task 0 at the stage, with the last key of the last chunk or the one after it.
pub fn at_stage(t: &Tables, stage: Stage) -> Tables {
    let (mut t, n) = (t.clone(), stage.number());
    let key = last_naming(&t, chain(&t)[chain(&t).len() - 1]);
    let (op, key) = match n {
        1..=4 => (1, key),
        5 => (2, key),
        6..=12 => (2, last_key(&t, t.locate(key)) + 1),
        13..=15 => {
            let busy = (1..TASKS).find(|&i| t.tasks[i].is_none()).unwrap_or(7);
            t.tasks[busy] = None;
            t.start(busy as u64, 6, key, 0, 0);
            while working(&t, busy) != 16 {
                t.step(busy as u64);
            }
            (5, key)
        }
        16..=21 => (6, key),
        22 => (7, key),
        _ => return scanning_down(&t),
    };
    t.start(0, op, key, u64::MAX, 1);
    while working(&t, 0) != n {
        assert_eq!(t.step(0), Report::MovedOn, "on the way to stage {n}");
    }
    t
}

fn in_words(tables: Tables) -> (Tables, Words) {
    let mut words = blank();
    tables.to_words(&mut words);
    (tables, words)
}

pub fn case(name: &str, tables: Tables, call: Call) -> Case {
    let (tables, words) = in_words(tables);
    Case {
        name: name.to_string(),
        tables,
        words,
        call,
        more: vec![],
    }
}

/// The shape alone is a start refused by 1.
const ALONE: Call = Call::Start(8, 1, 0, 0, 0);
/// Its name, or how that begins.
pub const SHAPE: &str = "the shape alone";

/// The shape alone on the tables, by a name that goes on so.
pub fn alone(more: &str, t: &Tables) -> Case {
    case(&format!("{SHAPE}{more}"), t.clone(), ALONE)
}

impl Case {
    pub fn is_alone(&self) -> bool {
        self.call == ALONE
    }

    pub fn with_more(self, more: impl Iterator<Item = Tables>) -> Case {
        Case {
            more: more.map(in_words).collect(),
            ..self
        }
    }

    pub fn states(&self) -> Vec<(&Tables, &Words)> {
        let more = self.more.iter().map(|(tables, words)| (tables, words));
        std::iter::once((&self.tables, &self.words)).chain(more).collect()
    }
}

const ONE_OFF: &str = "23 scan down, one off";

/// How many entries the measured fill put on the stack.
pub fn filled(cases: &[Case]) -> usize {
    cases.iter().find(|c| c.name == ONE_OFF).map_or(0, |c| depth(&c.tables, 0))
}

pub const STAGES: [&str; 23] = [
    "1 locate",
    "2 find",
    "3 read",
    "4 check",
    "5 apply",
    "6 take entry",
    "7 link",
    "8 take handle",
    "9 write",
    "10 publish",
    "11 swap",
    "12 unpublish",
    "13 publish",
    "14 swap to none",
    "15 unpublish",
    "16 locate again",
    "17 find again",
    "18 read again",
    "19 publish",
    "20 swap to none",
    "21 unpublish",
    "22 scan",
    "23 scan down, a fill",
];

/// Every stage of a task on one state, and of the rebalance on another that has two unused chunks.
pub fn all_stages(steps: &Tables, rebalances: &Tables) -> Vec<Case> {
    let key = last_key(steps, chain(steps)[chain(steps).len() - 1]);
    let mut cases = vec![
        alone(" (a start refused by 1)", steps),
        case("fresh", steps.clone(), Call::Fresh),
        case("start", steps.clone(), Call::Start(0, 1, key, 0, 0)),
    ];
    for (stage, name) in Stage::ALL.into_iter().zip(STAGES) {
        cases.push(case(name, at_stage(steps, stage), Call::Step(0)));
    }
    let mut filled = scanning_down(steps);
    assert_eq!(filled.step(0), Report::MovedOn);
    assert!(depth(&filled, 0) > 0);
    cases.push(case(ONE_OFF, filled, Call::Step(0)));
    let mut t = rebalances.clone();
    let key = last_key(&t, chain(&t)[chain(&t).len() - 1]);
    cases.push(case("begin", t.clone(), Call::Begin(key)));
    assert_eq!(t.begin(key), Report::MovedOn);
    for name in ["drain", "copy", "swap in", "index", "release"] {
        cases.push(case(name, t.clone(), Call::Rebalance));
        assert!(matches!(t.rebalance(), Report::MovedOn | Report::Released), "{name}");
    }
    cases
}

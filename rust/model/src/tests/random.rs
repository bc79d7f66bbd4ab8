//! Random orders of calls: none meets 10, the map changes only at deciding steps, and spoilt words bring no panic.
use super::*;

/// How many spoilt tables are tried; more where the build is quick.
const ROUNDS: usize = if cfg!(debug_assertions) { 5_000 } else { 300_000 };

pub struct Random(pub u64);

impl Random {
    fn next(&mut self) -> u64 {
        self.0 ^= self.0 << 13;
        self.0 ^= self.0 >> 7;
        self.0 ^= self.0 << 17;
        self.0.wrapping_mul(0x2545_F491_4F6C_DD1D) >> 16
    }

    fn below(&mut self, bound: u64) -> u64 {
        self.next() % bound
    }
}

/// One of so many keys, half of them from 0 on and half from the largest down.
fn any_key(random: &mut Random, keys: u64) -> u64 {
    let number = random.below(keys);
    let from_end = number / 2;
    if number % 2 == 0 {
        from_end
    } else {
        u64::MAX - from_end
    }
}

/// One random call; few keys make the tasks meet, and many with rare rebalances fill the chunks.
pub fn any_call(tables: &mut Tables, random: &mut Random, keys: u64) -> Report {
    let key = any_key(random, keys);
    match random.below(40) {
        0 if keys < 100 || random.below(10) == 0 => tables.begin(key),
        1..=3 => tables.rebalance(),
        4..=11 => {
            let (n, operation) = (random.below(9), random.below(10));
            let (argument, function) = (any_key(random, keys), random.below(5));
            tables.start(n, operation, key, argument, function)
        }
        _ => tables.step(random.below(8)),
    }
}

/// What the map is after a call, told from the tables before it.
fn check_map(before: &Tables, after: &Tables) {
    let (from, to) = (map(before), map(after));
    if from == to {
        return;
    }
    let worked = (0..TASKS).find(|&n| before.tasks[n] != after.tasks[n]).unwrap();
    let task = before.tasks[worked].unwrap();
    assert!(matches!(task.stage, Stage::Swap | Stage::Apply), "{task:?}");
    let others = |map: &std::collections::BTreeMap<u64, u64>| map.iter().filter(|(key, _)| **key != task.key).map(|(k, v)| (*k, *v)).collect::<Vec<_>>();
    assert_eq!(others(&from), others(&to));
}

/// The index has the rows of the live chunks, but between swap in and the index step those of before.
fn check_index(before: &Tables, after: &Tables) {
    match after.rebalance {
        Rebalance::Index(..) => assert_eq!(after.index, before.index),
        _ => assert_eq!(after.index, after.live_rows()),
    }
}

/// How often each report was told, and each stage done.
#[derive(Default)]
struct Seen {
    reports: [u64; 13],
    stages: [u64; 24],
}

/// A random run from a fresh directory, checked at each call.
fn random_run(seed: u64, seen: &mut Seen) {
    let mut random = Random(seed.wrapping_mul(0x9E37_79B9_7F4A_7C15));
    let keys = [3, 40, 700][seed as usize % 3];
    let mut tables = Tables::fresh();
    for _ in 0..8000 {
        let before = tables.clone();
        let report = any_call(&mut tables, &mut random, keys);
        assert_ne!(report, Report::Refused(10));
        seen.reports[report.told().0 as usize] += 1;
        (0..TASKS).for_each(|n| seen.stages[stage(&tables, n) as usize] += 1);
        if matches!(report, Report::Refused(_) | Report::Waiting) && report != Report::Refused(9) {
            assert_eq!(tables, before);
        }
        check_map(&before, &tables);
        check_index(&before, &tables);
    }
    assert!(tables.has_shape());
    assert_eq!(Tables::from_words(&as_words(&tables)), Some(tables));
}

#[test]
fn no_order_of_calls_meets_10() {
    let mut seen = Seen::default();
    (1..=24).for_each(|seed| random_run(seed, &mut seen));
    assert!(
        seen.reports.iter().chain(&seen.stages).all(|&count| count > 0),
        "{:?} {:?}",
        seen.reports,
        seen.stages
    );
}

/// A word that is likely to matter.
fn any_word(random: &mut Random) -> u64 {
    match random.below(6) {
        0 => NONE,
        1 => random.below(2),
        2 => random.below(33),
        3 => random.below(561),
        4 => random.below(24),
        _ => NONE - random.below(3),
    }
}

/// One to three words changed, often in the rows that are in use.
fn spoil(words: &mut Words, random: &mut Random) {
    for _ in 0..=random.below(3) {
        let table = random.below(6) as usize;
        let length = if table == 3 && random.below(2) == 0 { 96 } else { words[table].len() as u64 };
        let index = random.below(length) as usize;
        words[table][index] = any_word(random);
    }
}

#[test]
fn spoilt_words_bring_no_panic() {
    let mut random = Random(77);
    let (mut held, mut shaped) = (0, 0);
    let mut tables = Tables::fresh();
    for round in 0..ROUNDS {
        if round % (ROUNDS / 10) == 0 {
            tables = Tables::fresh();
        }
        for _ in 0..3 {
            any_call(&mut tables, &mut random, [3, 40, 700][round / (ROUNDS / 10) % 3]);
        }
        let mut words = as_words(&tables);
        spoil(&mut words, &mut random);
        let Some(spoilt) = Tables::from_words(&words) else { continue };
        held += 1;
        shaped += spoilt.has_shape() as usize;
        assert_eq!(as_words(&spoilt), words);
        call_each(&spoilt);
    }
    assert!(held > ROUNDS / 4 && shaped > ROUNDS / 10, "{held} {shaped}");
}

/// Every call on the tables; without shape each is refused and changes nothing.
fn call_each(tables: &Tables) {
    let shape = tables.has_shape();
    let check = |call: &dyn Fn(&mut Tables) -> Report| {
        let mut after = tables.clone();
        let report = call(&mut after);
        assert_eq!(report == Report::Refused(10), !shape);
        assert!(shape || after == *tables);
    };
    (0..9).for_each(|n| check(&|t| t.step(n)));
    check(&|t| t.start(0, 1, 5, 5, 5));
    check(&|t| t.begin(7));
    check(&|t| t.rebalance());
}

#[test]
fn spoilt_structs_bring_no_panic() {
    let numbers = [0, 1, 31, 32, 33, 559, 560, usize::MAX - 1, usize::MAX];
    for a in numbers {
        for b in numbers {
            let mut tables = after_m2();
            start(&mut tables, 0, GET, 5, 0, 0);
            steps(&mut tables, 0, 3);
            start(&mut tables, 1, SCAN_DOWN, 0, 9, 0);
            steps(&mut tables, 1, 1);
            let mut spoilt: Vec<Tables> = vec![tables; 13];
            spoilt[0].first = a;
            spoilt[1].rebalance = Rebalance::Drain(a);
            spoilt[2].rebalance = Rebalance::SwapIn(a, b, Some(a));
            spoilt[3].rebalance = Rebalance::Release(a, b, None);
            spoilt[4].chunks[0].used = a;
            (spoilt[5].chunks[0].head, spoilt[5].chunks[0].next) = (Some(a), Some(b));
            spoilt[6].chunks[0].entries[0] = Entry {
                key: 5,
                handle: Some(a),
                next: Some(b),
            };
            if let Some(task) = &mut spoilt[7].tasks[0] {
                (task.chunk, task.entry) = (Some(a), Some(b));
            }
            if let Some(task) = &mut spoilt[8].tasks[0] {
                (task.old, task.new) = (Some(a), Some(b));
            }
            if let Some(task) = &mut spoilt[9].tasks[1] {
                (task.chunk, task.key) = (Some(a), b as u64);
            }
            if let Some(task) = &mut spoilt[10].tasks[1] {
                task.stack = [a, b].into_iter().collect();
            }
            spoilt[11].rebalance = Rebalance::Index(a, b, None);
            spoilt[12].index = [a, b].into_iter().map(|chunk| IndexRow { min: chunk as u64, chunk }).collect();
            for tables in &spoilt {
                tables.locate(a as u64);
                tables.chunks[0].find(5);
                call_each(tables);
                as_words(tables);
            }
        }
    }
}

#[test]
#[ignore = "a measurement, not a test"]
fn speed() {
    for keys in [3, 700, 3000] {
        let mut random = Random(5);
        let mut tables = Tables::fresh();
        let calls = 10_000;
        let batch = |_| {
            let clock = std::time::Instant::now();
            (0..calls).for_each(|_| {
                any_call(&mut tables, &mut random, keys);
            });
            clock.elapsed() / calls
        };
        let least = (0..60).map(batch).skip(20).min();
        println!("{keys} keys: {least:?} a call, {} present", map(&tables).len());
    }
}

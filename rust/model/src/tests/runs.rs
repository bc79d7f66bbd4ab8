//! The cases that the document has run by a program, and paths of single operations.
use super::*;

/// Puts a key, rebalancing its chunk whenever that is full.
fn put(tables: &mut Tables, n: u64, key: u64) -> Report {
    start(tables, n, PUT, key, key, 0);
    loop {
        match tables.step(n) {
            Report::MovedOn => {}
            FULL => rebalance_all(tables, key),
            report => return report,
        }
    }
}

/// As many ascending keys as asked, each present.
fn with_many(count: u64) -> Tables {
    let mut tables = Tables::fresh();
    for key in 0..count {
        assert_eq!(put(&mut tables, 0, key), ABSENT);
    }
    assert_eq!(map(&tables).len() as u64, count);
    tables
}

/// Every handle named by a present key, by hand.
pub fn with_all_handles() -> Tables {
    let mut tables = Tables::fresh();
    for chunk in 0..18 {
        let used = if chunk == 17 { 16 } else { 32 };
        let next = Some(chunk + 1).filter(|&next| next < 18);
        let mut filled = Chunk {
            status: Status::Live,
            min: chunk as u64 * 100,
            next,
            head: Some(0),
            used,
            ..Chunk::default()
        };
        for slot in 0..used {
            filled.entries[slot] = Entry {
                key: chunk as u64 * 100 + slot as u64,
                handle: Some(chunk * 32 + slot),
                next: Some(slot + 1).filter(|&next| next < used),
            };
        }
        tables.chunks[chunk] = filled;
    }
    assert_eq!(tables.lowest_free(), None);
    tables
}

#[test]
fn all_560_keys_can_be_present() {
    let mut tables = Tables::fresh();
    for key in (0..560).map(|number| number * 331 % 560) {
        assert_eq!(put(&mut tables, 1, key), ABSENT, "key {key}");
    }
    assert_eq!(map(&tables).len(), 560);
    assert_eq!(put(&mut tables, 1, 5000), Report::Refused(9));
    assert_eq!(map(&tables).len(), 560);
    assert_eq!(whole(&mut tables, 0, REMOVE, 7, 0, 0).1, value(7));
    assert_eq!(put(&mut tables, 1, 5000), ABSENT);
}

#[test]
fn the_512th_key_with_every_other_task_holding_two_handles() {
    let mut tables = with_many(511);
    for n in 1..8 {
        hold_two(&mut tables, n, n * 70);
    }
    assert_eq!(map(&tables).len(), 504);
    for n in 1..8 {
        assert_eq!(put(&mut tables, 0, n * 70), ABSENT);
    }
    assert_eq!(map(&tables).len(), 511);
    assert_eq!(put_amid(&mut tables, 900), ABSENT);
    assert_eq!(map(&tables).len(), 512);
}

/// Task n comes to hold a deleted old handle and a new one.
fn hold_two(tables: &mut Tables, n: u64, key: u64) {
    start(tables, n, PUT, key, 1, 0);
    steps(tables, n, 3);
    start(tables, 0, REMOVE, key, 0, 0);
    steps(tables, 0, 5);
    steps(tables, n, 1);
    assert_eq!(stage(tables, n as usize), 8);
    steps(tables, n, 1);
    assert_eq!(finish(tables, 0).1, value(key));
    let task = tables.tasks[n as usize].unwrap();
    assert!(task.old.is_some() && task.new.is_some());
}

/// Puts a key beside tasks that hold chunks, which a release would wait for.
fn put_amid(tables: &mut Tables, key: u64) -> Report {
    start(tables, 0, PUT, key, key, 0);
    loop {
        match tables.step(0) {
            Report::MovedOn => {}
            FULL | FROZEN if tables.rebalance == Rebalance::Idle => assert_eq!(tables.begin(key), Report::MovedOn),
            FULL | FROZEN => assert!(matches!(tables.rebalance(), Report::MovedOn | Report::Waiting | Report::Released)),
            report => return report,
        }
    }
}

#[test]
fn apply_after_a_removal() {
    for (operation, restarts, answer) in [(PUT, true, ABSENT), (UPSERT, true, DONE), (COMPUTE, false, FALSE), (REMOVE, false, ABSENT)] {
        let mut tables = after_m2();
        start(&mut tables, 1, operation, 5, 7, 1);
        steps(&mut tables, 1, 4);
        start(&mut tables, 0, REMOVE, 5, 0, 0);
        steps(&mut tables, 0, 5);
        assert_eq!(stage(&tables, 0), 16);
        if restarts {
            assert_eq!(tables.step(1), LOST);
            assert_eq!(finish(&mut tables, 1).1, answer);
            assert_eq!(map(&tables)[&5], 7);
        } else {
            assert_eq!(run(&mut tables, 1), (4, answer));
            assert_eq!(tables.chunks[0].entries[0].handle, None);
        }
        assert_eq!(finish(&mut tables, 0).1, value(50));
    }
}

#[test]
fn an_absence_lost_restarts() {
    let mut tables = after_m2();
    start(&mut tables, 0, REMOVE, 5, 0, 0);
    steps(&mut tables, 0, 5);
    start(&mut tables, 1, COMPUTE, 5, 1, 1);
    steps(&mut tables, 1, 4);
    assert_eq!(stage(&tables, 1), 13);
    assert_eq!(run(&mut tables, 0), (6, value(50)));
    assert_eq!(run(&mut tables, 1), (3, LOST));
    assert_eq!(run(&mut tables, 1), (3, FALSE));
}

#[test]
fn a_removal_on_a_frozen_chunk_goes_back_to_16() {
    let mut tables = after_m2();
    start(&mut tables, 0, REMOVE, 5, 0, 0);
    steps(&mut tables, 0, 8);
    assert_eq!(stage(&tables, 0), 19);
    assert_eq!(tables.begin(5), Report::MovedOn);
    steps(&mut tables, 0, 1);
    let task = tables.tasks[0].unwrap();
    assert_eq!((task.stage, task.chunk, task.entry, task.old), (Stage::LocateAgain, None, None, Some(0)));
    for _ in 0..3 {
        assert_eq!(tables.rebalance(), Report::MovedOn);
    }
    assert_eq!(run(&mut tables, 0), (6, value(50)));
    assert_eq!(tables.chunks[1].entries[0].handle, None);
    assert_eq!(tables.chunks[0].entries[0].handle, Some(0));
    assert_eq!(tables.lowest_free(), Some(1));
    assert_eq!([tables.rebalance(), tables.rebalance()], [Report::MovedOn, Report::Released]);
    assert_eq!(tables.lowest_free(), Some(0));
}

#[test]
fn publishers_restart_on_a_frozen_chunk() {
    for (operation, count) in [(PUT_IF_ABSENT, 2), (PUT, 3), (UPSERT, 6)] {
        let mut tables = Tables::fresh();
        start(&mut tables, 0, operation, 5, 1, 1);
        steps(&mut tables, 0, count);
        assert_eq!(tables.begin(5), Report::MovedOn);
        assert_eq!(tables.step(0), FROZEN);
        let task = tables.tasks[0].unwrap();
        assert_eq!((task.stage.number(), task.chunk, task.entry, task.old, task.new), (1, None, None, None, None));
    }
}

#[test]
fn functions() {
    for (function, value, amount, result) in [(1, 7, 5, 12), (2, 7, 5, 7), (2, 5, 7, 7), (3, 6, 9, 15), (3, 6, 3, 7)] {
        let mut tables = Tables::fresh();
        assert_eq!(whole(&mut tables, 0, UPSERT, 5, value, function), (9, DONE));
        assert_eq!(whole(&mut tables, 0, UPSERT, 5, amount, function), (5, DONE));
        assert_eq!(map(&tables)[&5], result);
    }
}

#[test]
fn a_scan_goes_through_the_chunks() {
    let mut tables = with_many(100);
    assert!(tables.chain().count() > 3);
    assert_eq!(whole(&mut tables, 1, REMOVE, 50, 0, 0).1, value(50));
    start(&mut tables, 0, SCAN, 10, u64::MAX, 0);
    let mut pairs = Vec::new();
    loop {
        match tables.step(0) {
            Report::Pair(key, value) => pairs.push((key, value)),
            Report::MovedOn => {}
            report => break assert_eq!(report, DONE),
        }
    }
    let expected: Vec<_> = (10..100).filter(|&key| key != 50).map(|key| (key, key)).collect();
    assert_eq!(pairs, expected);
}

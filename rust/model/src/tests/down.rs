//! E1: scans from the top key down.
use super::*;

/// Steps a task to its end, with every report.
pub fn reports(tables: &mut Tables, n: u64) -> Vec<Report> {
    let mut told = Vec::new();
    while !matches!(told.last(), Some(Report::Finished(_) | Report::Refused(_))) {
        told.push(tables.step(n));
    }
    told
}

/// A whole downward scan by task 7.
pub fn down(tables: &mut Tables, from: u64, to: u64) -> Vec<Report> {
    start(tables, 7, SCAN_DOWN, from, to, 0);
    reports(tables, 7)
}

/// A fill, and then pairs of keys that have ten times themselves.
fn filled(keys: impl Iterator<Item = u64>) -> impl Iterator<Item = Report> {
    std::iter::once(Report::MovedOn).chain(keys.map(|key| Report::Pair(key, key * 10)))
}

/// Keys 1 to 26 in three chunks: chunk 1 has 1 to 9, chunk 0 has 10 to 18, chunk 3 has 19 to 26.
pub fn three_chunks() -> Tables {
    let mut tables = with_keys(17);
    rebalance_all(&mut tables, 1);
    for key in 18..=26 {
        assert_eq!(whole(&mut tables, 0, PUT, key, key * 10, 0).1, ABSENT);
    }
    rebalance_all(&mut tables, 10);
    assert_eq!(
        tables.chain().map(|c| (c, tables.chunks[c].min)).collect::<Vec<_>>(),
        [(1, 0), (0, 10), (3, 19)]
    );
    tables
}

#[test]
fn a_scan_down_gives_every_key_of_three_chunks() {
    let mut told: Vec<Report> = filled((19..=26).rev()).collect();
    told.extend(filled((10..=18).rev()));
    told.extend(filled((1..=9).rev()));
    told.push(DONE);
    assert_eq!(down(&mut three_chunks(), 0, u64::MAX), told);
}

#[test]
fn both_ends_count() {
    let mut told: Vec<Report> = filled((19..=22).rev()).collect();
    told.extend(filled((10..=18).rev()));
    told.extend(filled((5..=9).rev()));
    told.push(DONE);
    assert_eq!(down(&mut three_chunks(), 5, 22), told);
}

#[test]
fn a_minimum_at_the_lower_end_ends_the_scan() {
    for lower in [10, 11] {
        let mut told: Vec<Report> = filled((19..=22).rev()).collect();
        told.extend(filled((lower..=18).rev()));
        told.push(DONE);
        assert_eq!(down(&mut three_chunks(), lower, 22), told);
    }
}

#[test]
fn the_first_fill_is_of_the_chunk_that_has_the_upper_end() {
    let mut told: Vec<Report> = filled((12..=18).rev()).collect();
    told.push(DONE);
    assert_eq!(down(&mut three_chunks(), 12, 18), told);
    let above = filled(std::iter::once(19));
    assert_eq!(down(&mut three_chunks(), 12, 19), above.chain(told).collect::<Vec<_>>());
}

#[test]
fn a_range_of_one_key() {
    for key in [1, 5, 9, 10, 18, 19, 20, 26] {
        assert_eq!(down(&mut three_chunks(), key, key), [Report::MovedOn, Report::Pair(key, key * 10), DONE]);
    }
    for key in [0, 27, u64::MAX] {
        assert_eq!(down(&mut three_chunks(), key, key), [Report::MovedOn, DONE]);
    }
    assert_eq!(down(&mut Tables::fresh(), 0, u64::MAX), [Report::MovedOn, DONE]);
}

#[test]
fn a_fill_reports_moved_on_where_it_takes_nothing() {
    let mut tables = three_chunks();
    for key in 10..=18 {
        assert_eq!(whole(&mut tables, 0, REMOVE, key, 0, 0).1, value(key * 10));
    }
    rebalance_all(&mut tables, 10);
    let mut told: Vec<Report> = filled((19..=26).rev()).collect();
    told.push(Report::MovedOn);
    told.extend(filled((1..=9).rev()));
    told.push(DONE);
    assert_eq!(down(&mut tables, 0, u64::MAX), told);
}

#[test]
fn the_ends_of_the_keys() {
    let mut tables = Tables::fresh();
    for key in [0, 1, u64::MAX - 1, u64::MAX] {
        assert_eq!(whole(&mut tables, 0, PUT, key, key, 0).1, ABSENT);
    }
    let pair = |key| Report::Pair(key, key);
    let told = [u64::MAX, u64::MAX - 1, 1, 0].map(pair);
    assert_eq!(down(&mut tables, 0, u64::MAX), [&[Report::MovedOn], &told[..], &[DONE]].concat());
    assert_eq!(down(&mut tables, 1, u64::MAX - 1), [Report::MovedOn, pair(u64::MAX - 1), pair(1), DONE]);
}

#[test]
fn a_step_writes_its_own_task_alone() {
    let mut tables = three_chunks();
    start(&mut tables, 7, SCAN_DOWN, 3, 21, 99);
    let before = tables.clone();
    let started = before.tasks[7].unwrap();
    assert_eq!((started.stage.number(), started.key, started.argument, started.function), (23, 3, 21, 0));
    assert_eq!((started.chunk, started.stack), (None, Stack::default()));
    steps(&mut tables, 7, 1);
    let held = tables.tasks[7].unwrap();
    assert_eq!((held.key, held.argument, held.chunk, held.stack.entries()), (3, 21, Some(3), &[0, 1, 2][..]));
    assert_eq!(tables.step(7), Report::Pair(21, 210));
    assert_eq!(tables.tasks[7].map(|task| task.stack), Some([0, 1].into_iter().collect()));
    reports(&mut tables, 7);
    assert_eq!((tables.tasks, tables.chunks, tables.handles), ([None; TASKS], before.chunks, before.handles));
}

#[test]
fn what_changes_after_a_fill() {
    let mut tables = with_keys(4);
    start(&mut tables, 7, SCAN_DOWN, 0, 10, 0);
    steps(&mut tables, 7, 1);
    assert_eq!(whole(&mut tables, 0, PUT, 6, 60, 0).1, ABSENT);
    assert_eq!(whole(&mut tables, 0, PUT, 4, 44, 0).1, value(40));
    assert_eq!(tables.step(7), Report::Pair(4, 44));
    assert_eq!(whole(&mut tables, 0, REMOVE, 3, 0, 0).1, value(30));
    start(&mut tables, 1, REMOVE, 2, 0, 0);
    steps(&mut tables, 1, 5);
    steps(&mut tables, 7, 2);
    assert_eq!(whole(&mut tables, 0, REMOVE, 1, 0, 0).1, value(10));
    assert_eq!(whole(&mut tables, 0, PUT, 1, 11, 0).1, ABSENT);
    assert_eq!(reports(&mut tables, 7), [Report::Pair(1, 11), DONE]);
}

#[test]
fn a_retired_chunk_is_gone_through_and_release_waits() {
    let mut tables = three_chunks();
    start(&mut tables, 7, SCAN_DOWN, 0, 18, 0);
    steps(&mut tables, 7, 1);
    assert_eq!(tables.step(7), Report::Pair(18, 180));
    assert_eq!(tables.begin(10), Report::MovedOn);
    assert_eq!(tables.step(7), Report::Pair(17, 170));
    for _ in 0..3 {
        assert_eq!(tables.rebalance(), Report::MovedOn);
    }
    let chain: Vec<_> = tables.chain().collect();
    assert_eq!((chain, tables.chunks[0].status), (vec![1, 2, 3], Status::Retired));
    assert_eq!(whole(&mut tables, 0, PUT, 16, 1, 0).1, value(160));
    assert_eq!(whole(&mut tables, 0, REMOVE, 15, 0, 0).1, value(150));
    assert_eq!(whole(&mut tables, 0, REMOVE, 14, 0, 0).1, value(140));
    assert_eq!(whole(&mut tables, 0, PUT, 14, 2, 0).1, ABSENT);
    assert_eq!(tables.step(7), Report::Pair(16, 1));
    assert_eq!(tables.rebalance(), Report::MovedOn);
    steps(&mut tables, 7, 2);
    for key in (10..=13).rev() {
        waits(&mut tables);
        assert_eq!(tables.step(7), Report::Pair(key, key * 10));
    }
    waits(&mut tables);
    steps(&mut tables, 7, 1);
    assert_eq!(tables.tasks[7].map(|task| task.chunk), Some(Some(1)));
    assert_eq!(tables.rebalance(), Report::Released);
    assert_eq!(reports(&mut tables, 7).len(), 10);
}

/// Release waits, and changes nothing.
fn waits(tables: &mut Tables) {
    let before = tables.clone();
    assert_eq!(tables.rebalance(), Report::Waiting);
    assert_eq!(*tables, before);
}

#[test]
fn drain_does_not_wait_for_a_scan_down() {
    let mut tables = with_keys(4);
    start(&mut tables, 7, SCAN_DOWN, 0, 10, 0);
    steps(&mut tables, 7, 1);
    assert_eq!(tables.begin(0), Report::MovedOn);
    for _ in 0..4 {
        assert_eq!(tables.rebalance(), Report::MovedOn);
    }
    waits(&mut tables);
    assert_eq!(reports(&mut tables, 7).len(), 5);
    assert_eq!(tables.rebalance(), Report::Released);
}

#[test]
fn chunks_split_below_are_found_by_their_keys() {
    let mut tables = three_chunks();
    start(&mut tables, 7, SCAN_DOWN, 0, u64::MAX, 0);
    steps(&mut tables, 7, 1);
    for key in 100..=108 {
        assert_eq!(whole(&mut tables, 0, PUT, key - 82, key, 0).1, value((key - 82) * 10));
    }
    rebalance_all(&mut tables, 10);
    rebalance_all(&mut tables, 0);
    let keys: Vec<u64> = reports(&mut tables, 7)
        .iter()
        .filter_map(|report| if let Report::Pair(key, _) = report { Some(*key) } else { None })
        .collect();
    assert_eq!(keys, (1..=26).rev().collect::<Vec<_>>());
}

#[test]
fn two_scans_down_at_once() {
    let mut tables = three_chunks();
    start(&mut tables, 0, SCAN_DOWN, 0, u64::MAX, 0);
    start(&mut tables, 7, SCAN_DOWN, 20, 22, 0);
    steps(&mut tables, 0, 1);
    let pairs = filled((20..=22).rev());
    assert_eq!(reports(&mut tables, 7), pairs.chain([DONE]).collect::<Vec<_>>());
    assert_eq!(reports(&mut tables, 0).len(), 26 + 2 + 1);
}

//! E5: the upper end counts, upward and downward, and nothing wraps past the largest key.
use super::down::{down, reports, three_chunks};
use super::*;

const TOP: u64 = u64::MAX;

/// A whole upward scan by task 7.
fn up(tables: &mut Tables, from: u64, to: u64) -> Vec<Report> {
    start(tables, 7, SCAN, from, to, 0);
    reports(tables, 7)
}

/// These keys are present, each with 7.
fn with_sevens(keys: &[u64]) -> Tables {
    let mut tables = Tables::fresh();
    for &key in keys {
        assert_eq!(whole(&mut tables, 0, PUT, key, 7, 0).1, ABSENT);
    }
    tables
}

/// Task 7's key and argument, as the tasks' table has them.
fn ends(tables: &Tables) -> [u64; 2] {
    [3, 4].map(|word| as_words(tables)[1][7 * 11 + word])
}

/// Pairs of keys that have ten times themselves.
fn pairs(keys: impl Iterator<Item = u64>) -> Vec<Report> {
    keys.map(|key| Report::Pair(key, key * 10)).collect()
}

#[test]
fn the_largest_key_alone() {
    for lower in [TOP, 0, 1, TOP - 1] {
        let mut tables = with_sevens(&[TOP]);
        assert_eq!(up(&mut tables, lower, TOP), [Report::Pair(TOP, 7), DONE]);
        assert_eq!(down(&mut tables, lower, TOP), [Report::MovedOn, Report::Pair(TOP, 7), DONE]);
    }
    for lower in [0, TOP - 1] {
        let mut tables = with_sevens(&[TOP]);
        assert_eq!(up(&mut tables, lower, TOP - 1), [DONE]);
        assert_eq!(down(&mut tables, lower, TOP - 1), [Report::MovedOn, DONE]);
    }
}

#[test]
fn the_words_after_the_pair_at_the_largest_key() {
    for lower in [0, 1, TOP - 1, TOP] {
        let mut tables = with_sevens(&[TOP]);
        start(&mut tables, 7, SCAN, lower, TOP, 99);
        assert_eq!(ends(&tables), [lower, TOP]);
        let mut after = tables.clone();
        assert_eq!(tables.step(7), Report::Pair(TOP, 7));
        assert_eq!(ends(&tables), [TOP, TOP - 1]);
        after.tasks[7] = tables.tasks[7].map(|task| Task {
            key: TOP,
            argument: TOP - 1,
            ..task
        });
        assert_eq!(tables, after);
        assert_eq!(tables.step(7), DONE);
        assert_eq!(tables.tasks[7], None);
    }
}

#[test]
fn the_words_after_other_pairs() {
    let mut tables = with_sevens(&[0, TOP - 1, TOP]);
    start(&mut tables, 7, SCAN, 0, TOP, 0);
    for (key, after) in [(0, [1, TOP]), (TOP - 1, [TOP, TOP]), (TOP, [TOP, TOP - 1])] {
        assert_eq!((tables.step(7), ends(&tables)), (Report::Pair(key, 7), after));
    }
    assert_eq!(tables.step(7), DONE);
    start(&mut tables, 7, SCAN, 1, TOP - 1, 0);
    assert_eq!((tables.step(7), ends(&tables)), (Report::Pair(TOP - 1, 7), [TOP, TOP - 1]));
    assert_eq!(tables.step(7), DONE);
    start(&mut tables, 7, SCAN, 0, 0, 0);
    assert_eq!((tables.step(7), ends(&tables)), (Report::Pair(0, 7), [1, 0]));
    assert_eq!(tables.step(7), DONE);
}

#[test]
fn a_scan_down_keeps_its_ends() {
    let mut tables = with_sevens(&[TOP - 1, TOP]);
    start(&mut tables, 7, SCAN_DOWN, TOP - 1, TOP, 0);
    for told in [Report::MovedOn, Report::Pair(TOP, 7), Report::Pair(TOP - 1, 7)] {
        assert_eq!((tables.step(7), ends(&tables)), (told, [TOP - 1, TOP]));
    }
    assert_eq!(tables.step(7), DONE);
}

#[test]
fn nothing_that_is_put_after_the_pair_at_the_largest_key_is_given() {
    let mut tables = with_sevens(&[TOP]);
    start(&mut tables, 7, SCAN, 0, TOP, 0);
    assert_eq!(tables.step(7), Report::Pair(TOP, 7));
    for key in [0, TOP - 1, TOP] {
        whole(&mut tables, 0, PUT, key, 8, 0);
    }
    assert_eq!(tables.step(7), DONE);
}

#[test]
fn a_chunk_whose_minimum_key_is_the_largest() {
    let mut tables = with_sevens(&[3, TOP]);
    let entry = tables.chunks[0].entries[1];
    (tables.chunks[0].entries[0].next, tables.chunks[0].next) = (None, Some(1));
    tables.chunks[1] = Chunk {
        status: Status::Live,
        min: TOP,
        head: Some(0),
        used: 1,
        ..Chunk::default()
    };
    tables.chunks[1].entries[0] = entry;
    let [three, top] = [3, TOP].map(|key| Report::Pair(key, 7));
    assert_eq!(up(&mut tables, 0, TOP), [three, Report::MovedOn, top, DONE]);
    assert_eq!(up(&mut tables, 0, TOP - 1), [three, Report::MovedOn, DONE]);
    assert_eq!(up(&mut tables, TOP, TOP), [top, DONE]);
    assert_eq!(down(&mut tables, 0, TOP), [Report::MovedOn, top, Report::MovedOn, three, DONE]);
    assert_eq!(down(&mut tables, TOP - 1, TOP), [Report::MovedOn, top, Report::MovedOn, DONE]);
    assert_eq!(down(&mut tables, TOP, TOP), [Report::MovedOn, top, DONE]);
}

#[test]
fn a_range_of_one_key_upward() {
    for key in [1, 5, 9, 10, 18, 19, 20, 26] {
        assert_eq!(up(&mut three_chunks(), key, key), [Report::Pair(key, key * 10), DONE]);
    }
    assert_eq!(up(&mut three_chunks(), 0, 0), [Report::MovedOn, DONE]);
    for key in [27, TOP] {
        assert_eq!(up(&mut three_chunks(), key, key), [DONE]);
    }
}

#[test]
fn a_range_that_ends_at_a_minimum_key() {
    let (moved_on, done) = (vec![Report::MovedOn], vec![DONE]);
    let mut tables = three_chunks();
    assert_eq!(up(&mut tables, 5, 10), [pairs(5..=10), done.clone()].concat());
    let [at, below] = [pairs(10..=10), pairs((5..=9).rev())];
    let downward = [moved_on.clone(), at, moved_on.clone(), below, done.clone()].concat();
    assert_eq!(down(&mut tables, 5, 10), downward);
    assert_eq!(whole(&mut tables, 0, REMOVE, 9, 0, 0).1, value(90));
    assert_eq!(up(&mut tables, 5, 10), [pairs(5..=8), moved_on, pairs(10..=10), done].concat());
}

#[test]
fn a_range_that_ends_at_a_minimum_key_that_is_absent() {
    let (moved_on, done) = (vec![Report::MovedOn], vec![DONE]);
    let mut tables = three_chunks();
    assert_eq!(whole(&mut tables, 0, REMOVE, 10, 0, 0).1, value(100));
    assert_eq!(up(&mut tables, 5, 10), [pairs(5..=9), moved_on.clone(), done.clone()].concat());
    let taken_off = moved_on.clone();
    let downward = [moved_on.clone(), taken_off, moved_on, pairs((5..=9).rev()), done].concat();
    assert_eq!(down(&mut tables, 5, 10), downward);
}

#[test]
fn a_range_that_ends_just_below_a_minimum_key() {
    let upward = [pairs(5..=9), vec![DONE]].concat();
    assert_eq!(up(&mut three_chunks(), 5, 9), upward);
    let downward = [vec![Report::MovedOn], pairs((5..=9).rev()), vec![DONE]].concat();
    assert_eq!(down(&mut three_chunks(), 5, 9), downward);
}

/// The keys 8 to 21 of three chunks are removed, and their entries still linked.
fn with_a_gap() -> Tables {
    let mut tables = three_chunks();
    for key in 8..=21 {
        assert_eq!(whole(&mut tables, 0, REMOVE, key, 0, 0).1, value(key * 10));
    }
    assert_eq!(tables.chain().map(|number| tables.chunks[number].linked().count()).sum::<usize>(), 26);
    tables
}

/// So many steps, all but the last moving on.
fn nothing_in(count: u64) -> Vec<Report> {
    (1..count).map(|_| Report::MovedOn).chain([DONE]).collect()
}

#[test]
fn ranges_without_a_present_key() {
    let mut tables = with_a_gap();
    for from in 8..=21 {
        for to in from..=21 {
            let chunks = [0..10, 10..19, 19..u64::MAX]
                .iter()
                .filter(|range| range.start <= to && from < range.end)
                .count() as u64;
            let goes_on = (to < 19) as u64;
            assert_eq!(up(&mut tables, from, to), nothing_in(chunks + goes_on), "{from} {to}");
            assert_eq!(down(&mut tables, from, to), nothing_in(chunks + 1 + (to - from + 1)), "{from} {to}");
        }
    }
}

#[test]
fn ranges_without_a_linked_entry() {
    for (from, to, upward) in [(0, 0, 2), (27, 27, 1), (27, TOP - 1, 1), (27, TOP, 1), (TOP, TOP, 1)] {
        assert_eq!(up(&mut three_chunks(), from, to), nothing_in(upward), "{from} {to}");
        assert_eq!(down(&mut three_chunks(), from, to), nothing_in(2), "{from} {to}");
    }
}

/// Task 7 at a scan's stage with these ends and this held chunk, whatever a start would refuse.
fn scanning(operation: u64, from: u64, to: u64, chunk: Option<ChunkNo>) -> Tables {
    let mut tables = three_chunks();
    start(&mut tables, 7, operation, 0, 0, 0);
    tables.tasks[7] = tables.tasks[7].map(|task| Task {
        key: from,
        argument: to,
        chunk,
        ..task
    });
    tables
}

#[test]
fn a_lower_end_above_the_upper_in_damaged_tables() {
    for (from, to) in [(6, 5), (10, 9), (11, 10), (TOP, TOP - 1), (TOP, 0), (1, 0)] {
        assert_eq!(reports(&mut scanning(SCAN, from, to, None), 7), nothing_in(1));
        assert_eq!(reports(&mut scanning(SCAN_DOWN, from, to, None), 7), nothing_in(2));
    }
}

#[test]
fn a_held_chunk_above_the_upper_end_in_damaged_tables() {
    let fill = |keys: &[u64]| [&[Report::MovedOn], &pairs(keys.iter().copied())[..]].concat();
    let cases: [(u64, u64, Vec<Report>); 6] = [
        (16, 18, fill(&[18, 17, 16])),
        (16, 19, fill(&[18, 17, 16])),
        (16, 17, fill(&[17, 16])),
        (16, 10, fill(&[])),
        (9, 10, [fill(&[10]), fill(&[9])].concat()),
        (19, TOP, vec![]),
    ];
    for (from, to, told) in cases {
        let told = [told, vec![DONE]].concat();
        assert_eq!(reports(&mut scanning(SCAN_DOWN, from, to, Some(3)), 7), told, "{from} {to}");
    }
}

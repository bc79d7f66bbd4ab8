//! The index: what fresh and the rebalance make of it, what the shape asks of it, and its words.
use super::shapes::{expect, Change};
use super::*;

fn rows(rows: &[(u64, ChunkNo)]) -> Index {
    rows.iter().map(|&(min, chunk)| IndexRow { min, chunk }).collect()
}

/// Chunks 1 and 2, from keys 0 and 10, and a rebalance of the second of 17 keys at the stage that its next call does.
fn rebalancing(stage: usize) -> Tables {
    let mut tables = with_keys(17);
    rebalance_all(&mut tables, 1);
    for key in 18..=26 {
        assert_eq!(whole(&mut tables, 0, PUT, key, key * 10, 0), (9, ABSENT));
    }
    assert_eq!(tables.begin(10), Report::MovedOn);
    for _ in 1..stage {
        assert_eq!(tables.rebalance(), Report::MovedOn);
    }
    tables
}

/// Chunks 1, 0 and 3 in the chain, from keys 0, 10 and 19.
fn three() -> Tables {
    let mut tables = rebalancing(5);
    assert_eq!(tables.rebalance(), Report::Released);
    assert_eq!(tables.index, rows(&[(0, 1), (10, 0), (19, 3)]));
    assert!(tables.has_shape());
    tables
}

#[test]
fn fresh_has_one_row() {
    assert_eq!(Tables::fresh().index, rows(&[(0, 0)]));
    assert!(Tables::fresh().has_shape());
}

#[test]
fn the_index_step_makes_the_rows_and_nothing_else() {
    for stage in 1..=4 {
        assert_eq!(rebalancing(stage).index, rows(&[(0, 1), (10, 2)]), "before stage {stage}");
    }
    let mut tables = rebalancing(4);
    let before = tables.clone();
    assert_eq!(tables.rebalance(), Report::MovedOn);
    let made = Tables {
        index: rows(&[(0, 1), (10, 0), (19, 3)]),
        rebalance: Rebalance::Release(2, 0, Some(3)),
        ..before
    };
    assert_eq!(tables, made);
}

#[test]
fn the_index_step_never_waits() {
    let mut tables = rebalancing(1);
    for (n, operation) in [(0, GET), (1, REMOVE), (2, SCAN_DOWN)] {
        start(&mut tables, n, operation, 20, 30, 0);
        steps(&mut tables, n, 1);
    }
    for _ in 0..4 {
        assert_eq!(tables.rebalance(), Report::MovedOn);
    }
    assert_eq!(tables.rebalance(), Report::Waiting);
}

#[test]
fn the_index_step_makes_the_same_rows_of_any_index() {
    let indexes: [&[(u64, ChunkNo)]; 6] = [&[], &[(0, 1)], &[(10, 2)], &[(19, 3)], &[(10, 0), (19, 3)], &[(0, 1), (10, 0), (19, 3)]];
    for index in indexes {
        let mut tables = rebalancing(4);
        tables.index = rows(index);
        assert_eq!(tables.rebalance(), Report::MovedOn);
        assert_eq!(tables.index, rows(&[(0, 1), (10, 0), (19, 3)]), "{index:?}");
    }
}

#[test]
fn indexes_without_shape() {
    let changes: &[(&str, Change)] = &[
        ("the first two change places", |t| t.index = rows(&[(10, 0), (0, 1), (19, 3)])),
        ("the last two change places", |t| t.index = rows(&[(0, 1), (19, 3), (10, 0)])),
        ("a row twice", |t| t.index = rows(&[(0, 1), (10, 0), (10, 0), (19, 3)])),
        ("the last row twice", |t| t.index.put_last(IndexRow { min: 19, chunk: 3 })),
        ("a minimum key too large", |t| t.index = rows(&[(0, 1), (11, 0), (19, 3)])),
        ("a minimum key too small", |t| t.index = rows(&[(0, 1), (10, 0), (18, 3)])),
        ("the first minimum key", |t| t.index = rows(&[(1, 1)])),
        ("the chunk of another row", |t| t.index = rows(&[(0, 1), (10, 3)])),
        ("an unused chunk", |t| t.index = rows(&[(0, 2), (10, 0)])),
        ("an unused chunk alone", |t| t.index = rows(&[(0, 31)])),
        ("an unused chunk last", |t| t.index.put_last(IndexRow { min: 20, chunk: 2 })),
        ("past the table", |t| t.index = rows(&[(0, 1), (10, 32)])),
        ("far past the table", |t| t.index = rows(&[(0, 1), (10, 64)])),
        ("a chunk that has another minimum key", |t| t.chunks[3].min = 20),
    ];
    expect(&three(), false, changes);
}

#[test]
fn indexes_with_shape() {
    let changes: &[(&str, Change)] = &[
        ("without the first row", |t| t.index = rows(&[(10, 0), (19, 3)])),
        ("without the second", |t| t.index = rows(&[(0, 1), (19, 3)])),
        ("without the last", |t| t.index = rows(&[(0, 1), (10, 0)])),
        ("only the first", |t| t.index = rows(&[(0, 1)])),
        ("only the last", |t| t.index = rows(&[(19, 3)])),
        ("no row", |t| t.index = rows(&[])),
    ];
    expect(&three(), true, changes);
}

#[test]
fn new_chunks_are_not_indexed() {
    let changes: &[(&str, Change)] = &[
        ("the first new one", |t| t.index = rows(&[(0, 1), (10, 0)])),
        ("the second", |t| t.index = rows(&[(0, 1), (10, 2), (19, 3)])),
    ];
    expect(&rebalancing(3), false, changes);
}

#[test]
fn a_retired_chunk_may_be_indexed() {
    let with: &[(&str, Change)] = &[
        ("the retired one alone", |t| t.index = rows(&[(10, 2)])),
        ("before a live one", |t| t.index = rows(&[(0, 1), (10, 2), (19, 3)])),
        ("no row", |t| t.index = rows(&[])),
        ("with another minimum key", |t| {
            t.chunks[2].min = 15;
            t.index = rows(&[(0, 1), (10, 0), (15, 2), (19, 3)]);
        }),
    ];
    let without: &[(&str, Change)] = &[
        ("beside the one in its place", |t| t.index = rows(&[(0, 1), (10, 2), (10, 0)])),
        ("after the one in its place", |t| t.index = rows(&[(0, 1), (10, 0), (10, 2), (19, 3)])),
        ("not its minimum key", |t| t.index = rows(&[(0, 1), (15, 2)])),
    ];
    for stage in [4, 5] {
        expect(&rebalancing(stage), true, with);
        expect(&rebalancing(stage), false, without);
    }
    expect(&rebalancing(4), false, &[("a minimum key that its row has not", |t| t.chunks[2].min = 15)]);
    expect(&rebalancing(5), true, &[("a minimum key without a row", |t| t.chunks[2].min = 15)]);
}

#[test]
fn release_leaves_the_index() {
    let mut tables = rebalancing(5);
    tables.index = rows(&[(0, 1), (10, 2)]);
    assert_eq!(tables.rebalance(), Report::Released);
    assert_eq!((tables.index, tables.has_shape()), (rows(&[(0, 1), (10, 2)]), false));
}

#[test]
fn every_chunk_may_be_indexed() {
    let mut tables = Tables::fresh();
    for number in 1..CHUNKS {
        tables.chunks[number] = Chunk {
            status: Status::Live,
            min: number as u64,
            ..Chunk::default()
        };
        tables.chunks[number - 1].next = Some(number);
    }
    assert!(tables.has_shape());
    tables.index = tables.live_rows();
    assert_eq!((tables.index.rows().len(), tables.has_shape()), (CHUNKS, true));
    assert_eq!(Tables::from_words(&as_words(&tables)), Some(tables.clone()));
    let full = tables.index;
    tables.index.put_last(IndexRow { min: 99, chunk: 0 });
    assert_eq!(tables.index, full);
}

/// Place in the directory's slice, and word, beside three rows.
#[rustfmt::skip]
const NOT_HELD: [(usize, u64); 16] = [
    (5, 0), (5, 2), (5, 4), (5, 32), (5, 33), (5, 1 << 63), (5, NONE - 1), (5, NONE),
    (7, NONE), (11, NONE), (12, 1), (12, NONE), (13, 0), (13, 1), (68, 1), (69, 0),
];

#[test]
fn words_that_no_index_holds() {
    let base = as_words(&three());
    assert_eq!(base[0][..14], [1, 0, NONE, NONE, NONE, 3, 0, 1, 10, 0, 19, 3, 0, NONE]);
    assert_eq!(Tables::from_words(&base), Some(three()));
    for (index, word) in NOT_HELD {
        let mut words = base.clone();
        words[0][index] = word;
        assert_eq!(Tables::from_words(&words), None, "{index} {word}");
    }
    for (index, word) in [(6, 1), (8, NONE), (9, 2), (9, 32), (11, NONE - 1)] {
        let mut words = base.clone();
        words[0][index] = word;
        assert_eq!(Tables::from_words(&words).map(|t| t.has_shape()), Some(false), "{index} {word}");
    }
}

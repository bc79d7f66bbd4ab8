//! What the shape refuses and what it lets pass, point by point.
use super::*;

pub type Change = fn(&mut Tables);

/// Chunk 0 of three linked entries (keys 1 to 3) and one unlinked, a task at each of several stages, no rebalance.
fn worked() -> Tables {
    let mut tables = with_keys(3);
    start(&mut tables, 0, PUT, 9, 90, 0);
    steps(&mut tables, 0, 3);
    start(&mut tables, 1, GET, 2, 0, 0);
    steps(&mut tables, 1, 3);
    start(&mut tables, 2, REMOVE, 3, 0, 0);
    steps(&mut tables, 2, 8);
    start(&mut tables, 3, UPSERT, 1, 4, 2);
    start(&mut tables, 4, SCAN, 1, 4, 0);
    assert_eq!([0, 1, 2, 3, 4, 5].map(|n| stage(&tables, n)), [7, 4, 19, 1, 22, 0]);
    assert!(tables.has_shape());
    tables
}

/// Seventeen keys with a rebalance at the stage that its next call does.
fn rebalancing(stage: usize) -> Tables {
    let mut tables = with_keys(17);
    assert_eq!(tables.begin(0), Report::MovedOn);
    for _ in 1..stage {
        assert_eq!(tables.rebalance(), Report::MovedOn);
    }
    tables
}

/// The named task of the tables.
pub fn task(tables: &mut Tables, n: usize) -> &mut Task {
    tables.tasks[n].as_mut().unwrap()
}

/// Each change is of some effect, and leaves the shape or takes it away.
pub fn expect(base: &Tables, shape: bool, changes: &[(&str, Change)]) {
    for (name, change) in changes {
        let mut tables = base.clone();
        change(&mut tables);
        assert_ne!(tables, *base, "{name} changes nothing");
        assert_eq!(tables.has_shape(), shape, "{name}");
        let refused = [tables.clone().start(8, 0, 0, 0, 0), tables.clone().step(8)].map(|report| report == Report::Refused(10));
        assert_eq!(refused, [!shape; 2], "{name}");
    }
}

#[test]
fn chunks_without_shape() {
    let changes: &[(&str, Change)] = &[
        ("first past the table", |t| t.first = 32),
        ("first unused", |t| t.first = 1),
        ("used past 32", |t| t.chunks[0].used = 33),
        ("used grown", |t| t.chunks[31].used = 1),
        ("used shrunk below an unlinked one", |t| t.chunks[0].used = 3),
        ("handle past the table", |t| t.chunks[0].entries[1].handle = Some(560)),
        ("unlinked handle past the table", |t| t.chunks[0].entries[3].handle = Some(560)),
        ("unlinked next past the table", |t| t.chunks[0].entries[3].next = Some(32)),
        ("head past the table", |t| t.chunks[0].head = Some(32)),
        ("head unused", |t| t.chunks[0].head = Some(4)),
        ("next past the table", |t| t.chunks[0].next = Some(32)),
        ("next unused", |t| t.chunks[0].next = Some(1)),
        ("next itself", |t| t.chunks[0].next = Some(0)),
        ("a list in a ring", |t| t.chunks[0].entries[2].next = Some(0)),
        ("equal keys", |t| t.chunks[0].entries[0].key = 2),
        ("descending keys", |t| t.chunks[0].entries[0].key = 4),
        ("minimum key", |t| t.chunks[0].min = 1),
        ("frozen", |t| t.chunks[0].frozen = true),
        ("new", |t| t.chunks[1].status = Status::New),
        ("retired", |t| t.chunks[1].status = Status::Retired),
        ("live and not in the chain", |t| t.chunks[1].status = Status::Live),
        ("unused slot key", |t| t.chunks[0].entries[4].key = 1),
        ("unused slot handle", |t| t.chunks[0].entries[31].handle = Some(0)),
        ("unused slot next", |t| t.chunks[0].entries[31].next = Some(0)),
        ("unused chunk frozen", |t| t.chunks[7].frozen = true),
        ("unused chunk min", |t| t.chunks[7].min = 1),
        ("unused chunk next", |t| t.chunks[7].next = Some(0)),
        ("unused chunk head", |t| t.chunks[7].head = Some(0)),
        ("unused chunk slot", |t| t.chunks[7].entries[0].key = 1),
    ];
    expect(&worked(), false, changes);
}

#[test]
fn chunks_with_shape() {
    let changes: &[(&str, Change)] = &[
        ("an unlinked entry names a handle", |t| t.chunks[0].entries[3].handle = Some(559)),
        ("an unlinked entry has an unused next", |t| t.chunks[0].entries[3].next = Some(31)),
        ("an entry names another's handle", |t| t.chunks[0].entries[0].handle = Some(2)),
        ("a deleted handle is named", |t| t.handles[0].deleted = true),
        ("values are any", |t| t.handles[559].value = u64::MAX),
        ("a free handle is deleted", |t| t.handles[559].deleted = true),
        ("a key past the range", |t| {
            t.chunks[0].next = Some(1);
            t.chunks[1] = Chunk {
                status: Status::Live,
                min: 1,
                ..Chunk::default()
            };
        }),
    ];
    expect(&worked(), true, changes);
}

#[test]
fn chains_without_shape() {
    let mut base = worked();
    base.chunks[0].next = Some(4);
    base.chunks[4] = Chunk {
        status: Status::Live,
        min: 100,
        next: Some(2),
        ..Chunk::default()
    };
    base.chunks[2] = Chunk {
        status: Status::Live,
        min: 200,
        next: None,
        ..Chunk::default()
    };
    assert!(base.has_shape());
    let changes: &[(&str, Change)] = &[
        ("equal minimum keys", |t| t.chunks[2].min = 100),
        ("descending minimum keys", |t| t.chunks[2].min = 99),
        ("a ring", |t| t.chunks[2].next = Some(4)),
        ("left out", |t| t.chunks[4].next = None),
        ("leaps one", |t| t.chunks[0].next = Some(2)),
        ("first is another", |t| t.first = 4),
        ("retired in the chain", |t| t.chunks[4].status = Status::Retired),
    ];
    expect(&base, false, changes);
}

#[test]
fn tasks_without_shape() {
    let changes: &[(&str, Change)] = &[
        ("stage does not fit", |t| task(t, 1).stage = Stage::Apply),
        ("operation does not fit", |t| task(t, 0).operation = Operation::Get),
        ("scan elsewhere", |t| task(t, 4).stage = Stage::Locate),
        ("stage 22 of another", |t| task(t, 3).stage = Stage::Scan),
        ("function 0", |t| task(t, 3).function = 0),
        ("function 4", |t| task(t, 3).function = 4),
        ("function of compute", |t| {
            *task(t, 3) = Task {
                operation: Operation::Compute,
                function: 9,
                ..*task(t, 3)
            };
        }),
    ];
    expect(&worked(), false, changes);
}

#[test]
fn places_without_shape() {
    let changes: &[(&str, Change)] = &[
        ("chunk where none", |t| task(t, 3).chunk = Some(0)),
        ("no chunk", |t| task(t, 1).chunk = None),
        ("chunk past the table", |t| task(t, 1).chunk = Some(32)),
        ("chunk unused", |t| task(t, 1).chunk = Some(1)),
        ("no entry", |t| task(t, 1).entry = None),
        ("entry of another key", |t| task(t, 1).entry = Some(0)),
        ("key of another entry", |t| task(t, 1).key = 1),
        ("entry unused", |t| task(t, 1).entry = Some(4)),
        ("entry past the table", |t| task(t, 1).entry = Some(32)),
        ("unlinked entry", |t| {
            t.chunks[0].entries[3].key = 2;
            task(t, 0).key = 2;
            task(t, 1).entry = Some(3);
        }),
    ];
    expect(&worked(), false, changes);
}

#[test]
fn handles_and_marks_without_shape() {
    let changes: &[(&str, Change)] = &[
        ("no old", |t| task(t, 1).old = None),
        ("old past the table", |t| task(t, 1).old = Some(560)),
        ("new where none", |t| task(t, 1).new = Some(5)),
        ("published where not", |t| task(t, 1).published = true),
        ("swapped where not", |t| task(t, 1).swapped = true),
        ("not published", |t| task(t, 2).stage = Stage::SwapRemoval),
        ("swapped at 21", |t| {
            *task(t, 2) = Task {
                stage: Stage::UnpublishRemoval,
                published: true,
                swapped: true,
                ..*task(t, 2)
            };
        }),
        ("undeleted at 19", |t| t.handles[2].deleted = false),
        ("another handle at 19", |t| task(t, 2).old = Some(1)),
    ];
    expect(&worked(), false, changes);
}

#[test]
fn removals_hold_a_deleted_handle() {
    for count in 5..=10 {
        let mut tables = with_keys(1);
        start(&mut tables, 0, REMOVE, 1, 0, 0);
        steps(&mut tables, 0, count);
        assert_eq!(stage(&tables, 0), 11 + count);
        assert!(tables.has_shape());
        tables.handles[0].deleted = false;
        assert!(!tables.has_shape(), "undeleted at {}", 11 + count);
    }
}

#[test]
fn tasks_with_shape() {
    let changes: &[(&str, Change)] = &[
        ("function that is not used", |t| task(t, 1).function = 77),
        ("argument that is not used", |t| task(t, 1).argument = 77),
        ("cursor past the upper end", |t| task(t, 4).key = 77),
        ("published at 20", |t| {
            *task(t, 2) = Task {
                stage: Stage::SwapRemoval,
                published: true,
                ..*task(t, 2)
            };
        }),
        ("swapped at 15", |t| {
            *task(t, 2) = Task {
                stage: Stage::UnpublishAbsence,
                published: true,
                swapped: true,
                ..*task(t, 2)
            };
        }),
        ("undeleted at 13", |t| {
            task(t, 2).stage = Stage::PublishAbsence;
            t.handles[2].deleted = false;
        }),
        ("linked at 7", |t| {
            *task(t, 0) = Task {
                key: 2,
                entry: Some(1),
                ..*task(t, 0)
            };
        }),
        ("old is any handle", |t| task(t, 1).old = Some(559)),
    ];
    expect(&worked(), true, changes);
}

#[test]
fn rebalances_without_shape() {
    let idle: &[(&str, Change)] = &[
        ("drain of a live one", |t| t.rebalance = Rebalance::Drain(0)),
        ("no such old", |t| t.rebalance = Rebalance::Drain(32)),
    ];
    expect(&worked(), false, idle);
    let early: &[(&str, Change)] = &[
        ("thawed", |t| t.chunks[0].frozen = false),
        ("idle", |t| t.rebalance = Rebalance::Idle),
        ("another old", |t| t.rebalance = Rebalance::Copy(1)),
        ("no new one", |t| t.rebalance = Rebalance::SwapIn(0, 1, None)),
        ("retired too early", |t| t.rebalance = Rebalance::Release(0, 0, None)),
        ("one unused", |t| {
            for number in 1..31 {
                t.chunks[number] = Chunk {
                    status: Status::Live,
                    min: number as u64,
                    ..Chunk::default()
                };
                t.chunks[number - 1].next = Some(number);
            }
        }),
    ];
    expect(&rebalancing(1), false, early);
    expect(&rebalancing(2), false, early);
}

#[test]
fn copied_and_swapped_without_shape() {
    let copied: &[(&str, Change)] = &[
        ("thawed", |t| t.chunks[0].frozen = false),
        ("new one frozen", |t| t.chunks[1].frozen = true),
        ("second live", |t| t.chunks[2].status = Status::Live),
        ("second left out", |t| t.rebalance = Rebalance::SwapIn(0, 1, None)),
        ("old is new", |t| t.rebalance = Rebalance::SwapIn(0, 0, Some(1))),
        ("second past the table", |t| t.rebalance = Rebalance::SwapIn(0, 1, Some(32))),
        ("another new", |t| t.chunks[3].status = Status::New),
        ("back to copy", |t| t.rebalance = Rebalance::Copy(0)),
    ];
    expect(&rebalancing(3), false, copied);
    let swapped: &[(&str, Change)] = &[
        ("thawed", |t| t.chunks[0].frozen = false),
        ("new one frozen", |t| t.chunks[1].frozen = true),
        ("another retired", |t| t.chunks[3].status = Status::Retired),
        ("old live", |t| t.rebalance = Rebalance::Index(1, 2, None)),
        ("new unused", |t| t.rebalance = Rebalance::Index(0, 3, None)),
        ("new retired", |t| t.rebalance = Rebalance::Index(0, 0, None)),
        ("new twice", |t| t.rebalance = Rebalance::Index(0, 1, Some(1))),
        ("old live at release", |t| t.rebalance = Rebalance::Release(1, 2, None)),
        ("new unused at release", |t| t.rebalance = Rebalance::Release(0, 3, None)),
        ("new retired at release", |t| t.rebalance = Rebalance::Release(0, 0, None)),
        ("new twice at release", |t| t.rebalance = Rebalance::Release(0, 1, Some(1))),
        ("idle", |t| t.rebalance = Rebalance::Idle),
    ];
    expect(&rebalancing(4), false, swapped);
    expect(&rebalancing(5), false, swapped);
}

#[test]
fn rebalances_with_shape() {
    let copied: &[(&str, Change)] = &[
        ("a new chunk has a next", |t| t.chunks[1].next = Some(2)),
        ("a new chunk has any minimum key", |t| t.chunks[1].min = 99),
        ("the new ones in another order", |t| t.rebalance = Rebalance::SwapIn(0, 2, Some(1))),
        ("a task holds a new chunk", |t| {
            start(t, 0, GET, 5, 0, 0);
            steps(t, 0, 1);
            task(t, 0).chunk = Some(1);
        }),
    ];
    expect(&rebalancing(3), true, copied);
    let swapped: &[(&str, Change)] = &[
        ("the retired one has another next", |t| t.chunks[0].next = Some(31)),
        ("second left out", |t| t.rebalance = Rebalance::Index(0, 1, None)),
        ("second left out at release", |t| t.rebalance = Rebalance::Release(0, 1, None)),
    ];
    expect(&rebalancing(4), true, swapped);
    expect(&rebalancing(5), true, swapped);
    expect(&rebalancing(5), true, &[("the retired one has any minimum key", |t| t.chunks[0].min = 99)]);
}

#[test]
fn the_second_new_chunk_is_not_the_first() {
    let mut tables = with_keys(3);
    assert_eq!(tables.begin(0), Report::MovedOn);
    assert_eq!([tables.rebalance(), tables.rebalance()], [Report::MovedOn; 2]);
    tables.rebalance = Rebalance::SwapIn(0, 1, Some(1));
    assert!(!tables.has_shape());
}

/// Table, index and word.
#[rustfmt::skip]
const NOT_HELD: [(usize, usize, u64); 24] = [
    (0, 0, NONE), (0, 1, 5), (0, 1, 6), (0, 1, 1), (0, 2, 0), (0, 3, 0), (0, 4, 0), (1, 0, 24), (1, 0, 0),
    (1, 1, 0), (1, 1, 9), (1, 9, 2), (1, 10, 2), (1, 55, 1), (1, 56, 1), (1, 57, 1), (1, 58, 1),
    (1, 59, 1), (1, 60, 0), (1, 63, 0), (1, 65, 1), (2, 0, 4), (2, 1, 2), (5, 0, 2),
];

#[test]
fn words_that_no_struct_holds() {
    let base = as_words(&worked());
    assert_eq!(Tables::from_words(&base), Some(worked()));
    for (table, index, word) in NOT_HELD {
        let mut words = base.clone();
        words[table][index] = word;
        assert_eq!(Tables::from_words(&words), None, "{table} {index} {word}");
    }
    for table in 0..6 {
        let mut words = base.clone();
        words[table].pop();
        assert_eq!(Tables::from_words(&words), None);
    }
}

#[test]
fn the_fresh_words() {
    let words = as_words(&Tables::fresh());
    assert_eq!(words[0][..8], [0, 0, NONE, NONE, NONE, 1, 0, 0]);
    assert!(words[0].len() == 70 && words[0][8..].chunks(2).all(|row| row == [0, NONE]));
    assert_eq!(words[1][..11], [0, 0, 0, 0, 0, NONE, NONE, NONE, NONE, 0, 0]);
    assert!(words[1].len() == 344 && words[1][88..].iter().all(|&word| word == NONE));
    assert_eq!(words[2][..12], [1, 0, 0, NONE, NONE, 0, 0, 0, 0, NONE, NONE, 0]);
    assert_eq!(words[3][..3], [0, NONE, NONE]);
    assert!(words[4].iter().chain(&words[5]).all(|&word| word == 0));
}

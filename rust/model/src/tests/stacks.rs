//! What the shape refuses of a downward scan and its stack, and what it lets pass.
use super::shapes::{expect, task, Change};
use super::*;

/// Chunk 0 of three linked entries (keys 1 to 3) and one unlinked; tasks 0 to 3 at 7, 22, 1 and 23, the last with all three entries on its stack; task 4 at 23 holding nothing.
fn stacked() -> Tables {
    let mut tables = with_keys(3);
    start(&mut tables, 0, PUT, 9, 90, 0);
    steps(&mut tables, 0, 3);
    start(&mut tables, 1, SCAN, 1, 4, 0);
    start(&mut tables, 2, GET, 2, 0, 0);
    start(&mut tables, 3, SCAN_DOWN, 0, 7, 0);
    steps(&mut tables, 3, 1);
    start(&mut tables, 4, SCAN_DOWN, 0, 7, 0);
    assert_eq!([0, 1, 2, 3, 4, 5].map(|n| stage(&tables, n)), [7, 22, 1, 23, 23, 0]);
    assert_eq!(tables.tasks[3].map(|task| task.stack), Some(stack(&[0, 1, 2])));
    assert!(tables.has_shape());
    tables
}

fn stack(entries: &[EntryNo]) -> Stack {
    entries.iter().copied().collect()
}

#[test]
fn stacks_without_shape() {
    let changes: &[(&str, Change)] = &[
        ("falls", |t| task(t, 3).stack = stack(&[2, 1])),
        ("falls at the top", |t| task(t, 3).stack = stack(&[0, 2, 1])),
        ("falls at the bottom", |t| task(t, 3).stack = stack(&[1, 0, 2])),
        ("repeats", |t| task(t, 3).stack = stack(&[1, 1])),
        ("repeats at the top", |t| task(t, 3).stack = stack(&[0, 1, 2, 2])),
        ("an unlinked entry", |t| task(t, 3).stack = stack(&[3])),
        ("an unlinked entry on top", |t| task(t, 3).stack = stack(&[0, 1, 2, 3])),
        ("an unused entry", |t| task(t, 3).stack = stack(&[4])),
        ("an unused entry below", |t| task(t, 3).stack = stack(&[31, 0])),
        ("past the table", |t| task(t, 3).stack = stack(&[0, 32])),
        ("far past the table", |t| task(t, 3).stack = stack(&[64])),
        ("without a chunk", |t| task(t, 3).chunk = None),
        ("before the first fill", |t| task(t, 4).stack = stack(&[0])),
        ("at 7", |t| task(t, 0).stack = stack(&[0])),
        ("at 22", |t| task(t, 1).stack = stack(&[0])),
        ("at 1", |t| task(t, 2).stack = stack(&[0])),
        ("entries unlinked from below", |t| t.chunks[0].head = Some(1)),
    ];
    expect(&stacked(), false, changes);
}

#[test]
fn downward_scans_without_shape() {
    let changes: &[(&str, Change)] = &[
        ("an entry is held", |t| task(t, 3).entry = Some(0)),
        ("an old handle is held", |t| task(t, 3).old = Some(0)),
        ("a new handle is held", |t| task(t, 3).new = Some(0)),
        ("published", |t| task(t, 3).published = true),
        ("swapped", |t| task(t, 4).swapped = true),
        ("an entry without a chunk", |t| task(t, 4).entry = Some(0)),
        ("an unused chunk", |t| task(t, 4).chunk = Some(1)),
        ("an unused chunk under a stack", |t| task(t, 3).chunk = Some(1)),
        ("a chunk past the table", |t| task(t, 4).chunk = Some(32)),
        ("at 22", |t| task(t, 4).stage = Stage::Scan),
        ("at 1", |t| task(t, 4).stage = Stage::Locate),
        ("an upward scan at 23", |t| task(t, 1).stage = Stage::ScanDown),
        ("a get at 23", |t| task(t, 2).stage = Stage::ScanDown),
        ("at 23 as an upward scan", |t| task(t, 4).operation = Operation::Scan),
        ("at 23 as a put", |t| task(t, 3).operation = Operation::Put),
    ];
    expect(&stacked(), false, changes);
}

#[test]
fn downward_scans_with_shape() {
    let changes: &[(&str, Change)] = &[
        ("a stack with gaps", |t| task(t, 3).stack = stack(&[0, 2])),
        ("one entry", |t| task(t, 3).stack = stack(&[1])),
        ("an empty stack", |t| task(t, 3).stack = stack(&[])),
        ("nothing held", |t| (task(t, 3).chunk, task(t, 3).stack) = (None, stack(&[]))),
        ("a chunk and no stack", |t| task(t, 4).chunk = Some(0)),
        ("keys below the lower end", |t| task(t, 3).key = 77),
        ("keys past the upper end", |t| task(t, 3).argument = 0),
        ("a function that is not used", |t| task(t, 3).function = 77),
        ("entries that name none", |t| t.chunks[0].entries[1].handle = None),
        ("deleted handles", |t| t.handles[2].deleted = true),
        ("keys are any that rise", |t| t.chunks[0].entries[2].key = u64::MAX),
    ];
    expect(&stacked(), true, changes);
}

#[test]
fn chunks_that_a_downward_scan_may_hold() {
    let mut tables = with_keys(17);
    start(&mut tables, 0, SCAN_DOWN, 0, 9, 0);
    steps(&mut tables, 0, 1);
    assert_eq!(tables.begin(0), Report::MovedOn);
    for _ in 0..2 {
        assert_eq!(tables.rebalance(), Report::MovedOn);
    }
    let held: &[(&str, Change)] = &[
        ("new", |t| task(t, 0).chunk = Some(1)),
        ("new, less deep", |t| (task(t, 0).chunk, task(t, 0).stack) = (Some(2), stack(&[0, 7]))),
    ];
    expect(&tables, true, held);
    expect(
        &tables,
        false,
        &[("new, too deep", |t| (task(t, 0).chunk, task(t, 0).stack) = (Some(2), stack(&[0, 8])))],
    );
    assert_eq!(tables.rebalance(), Report::MovedOn);
    assert!(tables.has_shape() && tables.chunks[0].status == Status::Retired);
    expect(&tables, true, &[("retired, deeper", |t| task(t, 0).stack.put_on(16))]);
    expect(&tables, false, &[("retired, falling", |t| task(t, 0).stack.put_on(0))]);
}

/// Task, place in its stack, and word.
const NOT_HELD: [(usize, usize, u64); 9] = [
    (3, 3, NONE - 1),
    (3, 4, 0),
    (3, 31, 0),
    (3, 31, 32),
    (4, 1, 0),
    (5, 0, 0),
    (5, 31, 0),
    (7, 0, NONE - 1),
    (7, 31, 1),
];

#[test]
fn words_of_stacks() {
    let base = as_words(&stacked());
    let at = |n: usize, e: usize| TASK_ROWS + n * ENTRIES + e;
    assert_eq!(base[1].len(), 344);
    assert_eq!(base[1][at(3, 0)..at(3, 5)], [0, 1, 2, NONE, NONE]);
    assert!(base[1][88..at(3, 0)].iter().chain(&base[1][at(3, 3)..]).all(|&word| word == NONE));
    assert_eq!(Tables::from_words(&base), Some(stacked()));
    for (n, e, word) in NOT_HELD {
        let mut words = base.clone();
        words[1][at(n, e)] = word;
        let shaped = Tables::from_words(&words).is_some_and(|tables| tables.has_shape());
        assert!(!shaped, "{n} {e} {word}");
    }
    let mut words = base.clone();
    words[1][at(3, 1)] = NONE;
    assert_eq!(Tables::from_words(&words), None, "a gap");
    words[1][at(3, 2)] = NONE;
    assert!(Tables::from_words(&words).is_some_and(|tables| tables.has_shape()));
}

#[test]
fn a_full_stack() {
    let mut tables = with_keys(32);
    start(&mut tables, 6, SCAN_DOWN, 0, u64::MAX, 0);
    steps(&mut tables, 6, 1);
    assert_eq!(tables.tasks[6].map(|task| task.stack.entries().len()), Some(32));
    assert!(tables.has_shape());
    let mut words = as_words(&tables);
    assert_eq!(Tables::from_words(&words), Some(tables));
    words[1][TASK_ROWS + 7 * ENTRIES - 1] = 30;
    assert!(!Tables::from_words(&words).is_some_and(|tables| tables.has_shape()));
}

#[test]
fn a_stack_stands_at_no_other_stage() {
    let mut seen = std::collections::BTreeSet::new();
    for (operation, key, count) in [(PUT, 5, 8), (PUT, 1, 4), (REMOVE, 1, 10)] {
        let mut tables = with_keys(3);
        start(&mut tables, 0, operation, key, 7, 0);
        for step in 0..=count {
            seen.insert(stage(&tables, 0));
            expect(&tables, false, &[("a linked entry", |t| task(t, 0).stack.put_on(0))]);
            steps(&mut tables, 0, (step < count) as u64);
        }
    }
    assert_eq!(
        seen.into_iter().collect::<Vec<_>>(),
        [1, 2, 3, 4, 5, 6, 7, 8, 9, 10, 11, 12, 16, 17, 18, 19, 20, 21]
    );
}

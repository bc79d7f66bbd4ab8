//! M1 to M12.
use super::*;

#[test]
fn m1_get_of_fresh_is_absent_at_step_2() {
    assert_eq!(whole(&mut Tables::fresh(), 0, GET, 5, 0, 0), (2, ABSENT));
}

#[test]
fn m2_put_if_absent_is_true_at_step_9_with_handle_0() {
    let tables = after_m2();
    assert_eq!(
        tables.chunks[0].entries[0],
        Entry {
            key: 5,
            handle: Some(0),
            next: None
        }
    );
    assert_eq!(tables.handles[0], Handle { value: 50, deleted: false });
    assert_eq!(tables.tasks[0], None);
}

#[test]
fn m3_put_answers_50_at_step_5_and_get_60_at_4() {
    let mut tables = after_m2();
    assert_eq!(whole(&mut tables, 0, PUT, 5, 60, 0), (5, value(50)));
    assert_eq!(whole(&mut tables, 0, GET, 5, 0, 0), (4, value(60)));
}

#[test]
fn m4_remove_answers_50_at_step_11_then_absent_at_3() {
    let mut tables = after_m2();
    assert_eq!(whole(&mut tables, 0, REMOVE, 5, 0, 0), (11, value(50)));
    assert_eq!(whole(&mut tables, 0, REMOVE, 5, 0, 0), (3, ABSENT));
}

#[test]
fn m5_add_wraps() {
    let mut tables = Tables::fresh();
    assert_eq!(whole(&mut tables, 0, PUT, 5, u64::MAX, 0), (9, ABSENT));
    assert_eq!(whole(&mut tables, 0, COMPUTE, 5, 1, 1), (5, TRUE));
    assert_eq!(whole(&mut tables, 0, GET, 5, 0, 0), (4, value(0)));
}

#[test]
fn m6_a_held_handle_is_not_free() {
    let mut tables = after_m2();
    start(&mut tables, 0, GET, 5, 0, 0);
    steps(&mut tables, 0, 3);
    assert_eq!(whole(&mut tables, 1, REMOVE, 5, 0, 0), (11, value(50)));
    assert_eq!(whole(&mut tables, 2, PUT, 9, 90, 0), (9, ABSENT));
    assert_eq!(tables.chunks[0].entries[1].handle, Some(1));
    assert_eq!(tables.step(0), ABSENT);
    assert_eq!(whole(&mut tables, 3, PUT, 11, 110, 0), (9, ABSENT));
    assert_eq!(tables.chunks[0].entries[2].handle, Some(0));
}

#[test]
fn m7_the_second_put_if_absent_ends_false_at_step_13() {
    let mut tables = Tables::fresh();
    start(&mut tables, 0, PUT_IF_ABSENT, 7, 70, 0);
    start(&mut tables, 1, PUT_IF_ABSENT, 7, 71, 0);
    steps(&mut tables, 0, 2);
    assert_eq!(run(&mut tables, 1), (9, TRUE));
    assert_eq!(run(&mut tables, 0), (7, LOST));
    assert_eq!(run(&mut tables, 0), (4, FALSE));
    assert_eq!((tables.chunks[0].used, tables.chunks[0].linked().count()), (2, 1));
}

#[test]
fn m8_drain_waits_for_a_publisher() {
    let mut tables = Tables::fresh();
    start(&mut tables, 0, PUT, 5, 50, 0);
    steps(&mut tables, 0, 7);
    assert!(tables.tasks[0].is_some_and(|task| task.published));
    assert_eq!(tables.begin(5), Report::MovedOn);
    let before = tables.clone();
    assert_eq!(tables.rebalance(), Report::Waiting);
    assert_eq!(tables, before);
    assert_eq!(run(&mut tables, 0), (2, ABSENT));
    assert_eq!(tables.rebalance(), Report::MovedOn);
    assert_eq!(tables.rebalance(), Report::MovedOn);
    assert_eq!(tables.rebalance, Rebalance::SwapIn(0, 1, None));
    assert_eq!(tables.chunks[1].find(5), Some(0));
}

#[test]
fn m9_release_waits_for_a_reader() {
    let mut tables = Tables::fresh();
    start(&mut tables, 0, GET, 5, 0, 0);
    steps(&mut tables, 0, 1);
    assert_eq!(tables.begin(5), Report::MovedOn);
    for _ in 0..3 {
        assert_eq!(tables.rebalance(), Report::MovedOn);
    }
    assert_eq!(whole(&mut tables, 1, PUT, 5, 50, 0), (9, ABSENT));
    assert_eq!(tables.rebalance(), Report::MovedOn);
    let before = tables.clone();
    assert_eq!(tables.rebalance(), Report::Waiting);
    assert_eq!(tables, before);
    assert_eq!(tables.step(0), ABSENT);
    assert_eq!(tables.rebalance(), Report::Released);
    assert_eq!(tables.chunks[0], Chunk::default());
    assert_eq!(whole(&mut tables, 0, GET, 5, 0, 0), (4, value(50)));
}

#[test]
fn m10_sixteen_keys_give_one_chunk_and_seventeen_two() {
    let mut tables = with_keys(16);
    let before = map(&tables);
    rebalance_all(&mut tables, 3);
    assert_eq!(tables.chain().collect::<Vec<_>>(), [1]);
    assert_eq!((tables.chunks[1].used, tables.chunks[1].min), (16, 0));
    assert_eq!(map(&tables), before);

    let mut tables = with_keys(17);
    let before = map(&tables);
    rebalance_all(&mut tables, 3);
    assert_eq!(tables.chain().collect::<Vec<_>>(), [1, 2]);
    assert_eq!([1, 2].map(|number| (tables.chunks[number].used, tables.chunks[number].min)), [(9, 0), (8, 10)]);
    assert_eq!(map(&tables), before);
}

#[test]
fn m11_a_full_chunk_restarts_at_step_3() {
    let mut tables = with_keys(32);
    let before = tables.clone();
    assert_eq!(whole(&mut tables, 0, PUT, 33, 0, 0), (3, FULL));
    assert_eq!((stage(&tables, 0), &tables.chunks), (1, &before.chunks));
    assert_eq!(tables.begin(0), Report::MovedOn);
    assert_eq!(run(&mut tables, 0), (3, FROZEN));
}

#[test]
fn m12_scans() {
    let mut tables = after_m2();
    assert_eq!(whole(&mut tables, 0, SCAN, 0, 10, 0), (1, Report::Pair(5, 50)));
    assert_eq!(tables.step(0), DONE);
    assert_eq!(whole(&mut tables, 0, SCAN, 5, 5, 0), (1, Report::Pair(5, 50)));
    assert_eq!(tables.step(0), DONE);
    assert_eq!(tables.start(0, SCAN, 6, 5, 0), Report::Refused(4));
}

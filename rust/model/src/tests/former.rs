//! E2: a put and a remove answer the value that the map has just before their deciding step, or absent.
use super::*;

/// Key 5 is present with 50, and a task has done so many steps of an operation on it.
fn at_work(n: u64, operation: u64, argument: u64, count: u64) -> Tables {
    let mut tables = after_m2();
    start(&mut tables, n, operation, 5, argument, 0);
    steps(&mut tables, n, count);
    tables
}

#[test]
fn puts_and_removes_of_present_and_absent_keys() {
    let mut tables = Tables::fresh();
    assert_eq!(whole(&mut tables, 0, REMOVE, 5, 0, 0), (2, ABSENT));
    assert_eq!(whole(&mut tables, 0, PUT, 5, 50, 0), (9, ABSENT));
    assert_eq!(whole(&mut tables, 0, PUT, 5, 60, 0), (5, value(50)));
    assert_eq!(whole(&mut tables, 0, PUT, 5, 60, 0), (5, value(60)));
    assert_eq!(whole(&mut tables, 0, REMOVE, 5, 0, 0), (11, value(60)));
    assert_eq!(whole(&mut tables, 0, REMOVE, 5, 0, 0), (3, ABSENT));
    assert_eq!(whole(&mut tables, 0, PUT, 5, 70, 0), (8, ABSENT));
    assert_eq!(whole(&mut tables, 0, REMOVE, 5, 0, 0), (11, value(70)));
}

#[test]
fn every_value_is_told_from_absent() {
    for former in [0, 1, 7, 8, u64::MAX - 1, u64::MAX] {
        let mut tables = Tables::fresh();
        assert_eq!(whole(&mut tables, 0, PUT, former, former, 0), (9, ABSENT));
        assert_eq!(whole(&mut tables, 0, PUT, former, former, 0), (5, value(former)));
        let removed = whole(&mut tables, 0, REMOVE, former, 0, 0).1;
        assert_eq!((removed, removed.told()), (value(former), (6, former, 0)));
        assert_eq!(whole(&mut tables, 0, REMOVE, former, 0, 0).1.told(), (7, 0, 0));
    }
}

#[test]
fn the_other_operations_answer_as_before() {
    let mut tables = Tables::fresh();
    let answers = [
        (GET, ABSENT),
        (COMPUTE, FALSE),
        (UPSERT, DONE),
        (UPSERT, DONE),
        (COMPUTE, TRUE),
        (PUT_IF_ABSENT, FALSE),
        (GET, value(3)),
    ];
    for (operation, answer) in answers {
        assert_eq!(whole(&mut tables, 0, operation, 5, 1, 1).1, answer);
    }
    assert_eq!(whole(&mut tables, 0, PUT_IF_ABSENT, 6, 1, 0).1, TRUE);
}

#[test]
fn what_changes_between_check_and_apply_is_answered() {
    for (operation, answer) in [(UPSERT, DONE), (COMPUTE, TRUE)] {
        for other in [PUT, REMOVE] {
            let mut tables = at_work(0, other, 60, 4);
            assert_eq!(stage(&tables, 0), 5);
            assert_eq!(whole(&mut tables, 1, operation, 5, 7, 1), (5, answer));
            assert_eq!(run(&mut tables, 0).1, value(57));
        }
    }
    let mut tables = at_work(0, PUT, 60, 4);
    assert_eq!(whole(&mut tables, 1, PUT, 5, 55, 0), (5, value(50)));
    assert_eq!(tables.step(0), value(55));
    assert_eq!(map(&tables)[&5], 60);
}

/// Another task's put swaps the removed handle 0 out; handle 0 is taken by nobody until the remove ends.
fn swapped_out(tables: &mut Tables) {
    assert_eq!(whole(tables, 1, PUT, 5, 70, 0), (9, ABSENT));
    assert_eq!(tables.chunks[0].entries[0].handle, Some(1));
    assert_eq!(whole(tables, 2, PUT, 9, 90, 0), (9, ABSENT));
    assert_eq!(tables.chunks[0].entries[1].handle, Some(2));
    assert_eq!(tables.handles[0], Handle { value: 50, deleted: true });
}

#[test]
fn a_remove_answers_what_it_removed_though_its_entry_is_swapped_out() {
    for (done, left) in [(5, 3), (6, 2), (7, 1), (8, 3)] {
        let mut tables = at_work(0, REMOVE, 0, done);
        swapped_out(&mut tables);
        assert_eq!(tables.lowest_free(), Some(3));
        assert_eq!(run(&mut tables, 0), (left, value(50)));
        assert_eq!(tables.lowest_free(), Some(0));
        assert_eq!(map(&tables), [(5, 70), (9, 90)].into());
    }
}

#[test]
fn a_remove_answers_what_it_removed_though_its_swap_fails() {
    let mut tables = at_work(0, REMOVE, 0, 9);
    assert_eq!(stage(&tables, 0), 20);
    swapped_out(&mut tables);
    assert_eq!(run(&mut tables, 0), (2, value(50)));
    assert_eq!(whole(&mut tables, 0, REMOVE, 5, 0, 0), (11, value(70)));
}

#[test]
fn a_remove_answers_what_it_removed_though_its_entry_is_gone() {
    let mut tables = at_work(0, REMOVE, 0, 5);
    assert_eq!(whole(&mut tables, 1, REMOVE, 5, 0, 0), (7, ABSENT));
    rebalance_all(&mut tables, 5);
    assert_eq!(tables.chunks[1].find(5), None);
    assert_eq!(whole(&mut tables, 1, PUT, 9, 90, 0), (9, ABSENT));
    assert_eq!(tables.chunks[1].entries[0].handle, Some(1));
    assert_eq!(run(&mut tables, 0), (2, value(50)));
}

#[test]
fn a_remove_through_a_retired_chunk_answers_what_it_removed() {
    let mut tables = at_work(0, REMOVE, 0, 4);
    assert_eq!(tables.begin(5), Report::MovedOn);
    (0..3).for_each(|_| assert_eq!(tables.rebalance(), Report::MovedOn));
    assert_eq!(whole(&mut tables, 1, UPSERT, 5, 7, 1), (5, DONE));
    assert_eq!(run(&mut tables, 0), (7, value(57)));
    assert_eq!(tables.chunks[1].entries[0].handle, None);
    assert_eq!([tables.rebalance(), tables.rebalance()], [Report::MovedOn, Report::Released]);
}

#[test]
fn of_two_removes_one_answers_the_value() {
    let mut tables = at_work(0, REMOVE, 0, 4);
    start(&mut tables, 1, REMOVE, 5, 0, 0);
    steps(&mut tables, 1, 4);
    steps(&mut tables, 0, 1);
    assert_eq!(run(&mut tables, 1), (4, ABSENT));
    assert_eq!(run(&mut tables, 0), (3, value(50)));
}

#[test]
fn a_put_that_lost_its_key_restarts_and_answers_absent() {
    let mut tables = at_work(0, PUT, 60, 4);
    assert_eq!(whole(&mut tables, 1, REMOVE, 5, 0, 0), (11, value(50)));
    assert_eq!(tables.step(0), LOST);
    steps(&mut tables, 0, 7);
    assert_eq!(stage(&tables, 0), 12);
    assert_eq!(tables.step(0), ABSENT);
    assert_eq!(map(&tables)[&5], 60);
}

#[test]
fn a_put_whose_swap_failed_restarts_and_answers_what_the_other_put() {
    let mut tables = Tables::fresh();
    start(&mut tables, 0, PUT, 5, 60, 0);
    steps(&mut tables, 0, 6);
    assert_eq!(stage(&tables, 0), 10);
    assert_eq!(whole(&mut tables, 1, PUT, 5, 70, 0), (8, ABSENT));
    assert_eq!(run(&mut tables, 0), (3, LOST));
    assert_eq!(run(&mut tables, 0), (5, value(70)));
    assert_eq!(map(&tables)[&5], 60);
}

//! Each refusal, its order, and that it changes nothing.
use super::*;

/// The call is refused by the number and changes nothing.
fn refuses(tables: &mut Tables, number: u64, call: impl FnOnce(&mut Tables) -> Report) {
    let before = tables.clone();
    assert_eq!(call(tables), Report::Refused(number));
    assert_eq!(*tables, before);
}

#[test]
fn one_task_number_past_the_table() {
    for n in [8, 9, u64::MAX] {
        refuses(&mut Tables::fresh(), 1, |tables| tables.start(n, 99, 6, 5, 9));
        refuses(&mut Tables::fresh(), 1, |tables| tables.step(n));
    }
}

#[test]
fn two_start_on_a_task_at_work() {
    let mut tables = Tables::fresh();
    start(&mut tables, 7, GET, 5, 0, 0);
    refuses(&mut tables, 2, |tables| tables.start(7, 99, 6, 5, 9));
}

#[test]
fn three_step_of_an_idle_task() {
    refuses(&mut Tables::fresh(), 3, |tables| tables.step(7));
}

#[test]
fn four_scan_backwards() {
    for scan in [SCAN, SCAN_DOWN] {
        refuses(&mut Tables::fresh(), 4, |tables| tables.start(0, scan, 6, 5, 0));
        refuses(&mut Tables::fresh(), 4, |tables| tables.start(0, scan, u64::MAX, 0, 77));
        start(&mut Tables::fresh(), 0, scan, 6, 6, 77);
    }
    start(&mut Tables::fresh(), 0, PUT, 6, 5, 77);
}

#[test]
fn five_operation_or_function() {
    for operation in [0, 9, u64::MAX] {
        refuses(&mut Tables::fresh(), 5, |tables| tables.start(0, operation, 6, 5, 1));
    }
    for function in [0, 4, u64::MAX] {
        refuses(&mut Tables::fresh(), 5, |tables| tables.start(0, UPSERT, 6, 5, function));
        refuses(&mut Tables::fresh(), 5, |tables| tables.start(0, COMPUTE, 6, 5, function));
        for operation in [GET, PUT, PUT_IF_ABSENT, REMOVE] {
            start(&mut Tables::fresh(), 0, operation, 6, 5, function);
        }
    }
}

#[test]
fn unused_arguments_are_kept_as_0() {
    let kept = [
        (GET, 0, 0),
        (PUT, 9, 0),
        (PUT_IF_ABSENT, 9, 0),
        (UPSERT, 9, 3),
        (COMPUTE, 9, 3),
        (REMOVE, 0, 0),
        (SCAN, 9, 0),
        (SCAN_DOWN, 9, 0),
    ];
    for (operation, argument, function) in kept {
        let mut tables = Tables::fresh();
        start(&mut tables, 0, operation, 5, 9, 3);
        let task = tables.tasks[0].unwrap();
        assert_eq!(
            (task.operation.number(), task.key, task.argument, task.function),
            (operation, 5, argument, function)
        );
        let stage = match operation {
            SCAN => 22,
            SCAN_DOWN => 23,
            _ => 1,
        };
        assert_eq!((task.stage.number(), task.stack), (stage, Stack::default()));
    }
}

#[test]
fn six_begin_while_under_way() {
    let mut tables = Tables::fresh();
    for _ in 0..5 {
        assert_eq!(
            if tables.rebalance == Rebalance::Idle {
                tables.begin(0)
            } else {
                tables.rebalance()
            },
            Report::MovedOn
        );
        refuses(&mut tables, 6, |tables| tables.begin(0));
    }
    assert_eq!(tables.rebalance(), Report::Released);
}

/// Live chunks of that many, each empty, by hand.
fn live(count: usize) -> Tables {
    let mut tables = Tables::fresh();
    for number in 0..count {
        let next = Some(number + 1).filter(|&next| next < count);
        tables.chunks[number] = Chunk {
            status: Status::Live,
            min: number as u64 * 100,
            next,
            ..Chunk::default()
        };
    }
    tables
}

#[test]
fn seven_fewer_than_two_unused() {
    refuses(&mut live(31), 7, |tables| tables.begin(0));
    refuses(&mut live(32), 7, |tables| tables.begin(0));
    let mut tables = live(30);
    assert_eq!(tables.begin(2950), Report::MovedOn);
    assert_eq!(tables.rebalance, Rebalance::Drain(29));
}

#[test]
fn eight_rebalance_while_idle() {
    refuses(&mut Tables::fresh(), 8, |tables| tables.rebalance());
}

#[test]
fn nine_no_free_handle() {
    let mut tables = runs::with_all_handles();
    start(&mut tables, 3, PUT, 100_000, 1, 0);
    let before = loop {
        match stage(&tables, 3) {
            8 => break tables.clone(),
            _ => assert_eq!(tables.step(3), Report::MovedOn),
        }
    };
    assert_eq!(tables.step(3), Report::Refused(9));
    let mut after = before;
    after.tasks[3] = None;
    assert_eq!(tables, after);
    refuses(&mut tables, 3, |tables| tables.step(3));
}

#[test]
fn ten_is_first_always() {
    let mut tables = Tables::fresh();
    tables.chunks[0].used = 33;
    refuses(&mut tables, 10, |tables| tables.start(8, 0, 6, 5, 0));
    refuses(&mut tables, 10, |tables| tables.step(8));
    refuses(&mut tables, 10, |tables| tables.begin(0));
    refuses(&mut tables, 10, |tables| tables.rebalance());
}

//! Random runs that keep operations finishing and rebalances going, and now and then ask for what is refused.
use crate::{ends, Call, Chance};
use model::words::{Words, NONE};
use model::TASKS;

/// What a run keeps to: which tasks work at which operations, how often a rebalance is called, and whether the keys come in turn.
pub struct Habit {
    busy: Vec<u64>,
    mix: &'static [u64],
    eager: usize,
    in_turn: Option<usize>,
}

/// All tasks insert one key after another, until chunks or handles run out.
pub fn filling() -> Habit {
    Habit {
        busy: (0..TASKS as u64).collect(),
        mix: &[2, 3, 4],
        eager: 3,
        in_turn: Some(0),
    }
}

pub fn habit(r: &mut Chance) -> Habit {
    const MIXES: [&[u64]; 11] = [
        &[1, 2, 3, 4, 5, 6, 7, 8],
        &[2, 3, 4],
        &[2, 2, 3, 6],
        &[6, 5, 1],
        &[2, 6, 7],
        &[2, 6, 8],
        &[8, 8, 2, 3, 6],
        &[7, 7, 2, 3, 6],
        &[7, 8, 2, 3],
        &[3, 6],
        &[5, 6, 4],
    ];
    let count = 1 + r.below(TASKS);
    let mut busy: Vec<u64> = (0..TASKS as u64).collect();
    for i in 0..count {
        let j = i + r.below(TASKS - i);
        busy.swap(i, j);
    }
    busy.truncate(count);
    Habit {
        busy,
        mix: r.of(&MIXES),
        eager: r.of(&[100, 10, 3]),
        in_turn: None,
    }
}

pub fn run_keys(r: &mut Chance) -> Vec<u64> {
    let mut keys = vec![0, 1, 2, NONE, NONE - 1];
    let count = r.of(&[1, 4, 30, 300, 620]);
    let near = r.once_in(2);
    keys.extend((0..count).map(|_| if near { r.word() % 2000 } else { r.word() }));
    keys
}

/// One of the run's keys, at times the largest of all or the one below it.
fn any_key(r: &mut Chance, keys: &[u64]) -> u64 {
    match r.below(32) {
        0 | 1 => NONE,
        2 => NONE - 1,
        _ => r.of(keys),
    }
}

pub fn odd_call(r: &mut Chance, keys: &[u64]) -> Call {
    match r.below(4) {
        0 => Call::Start(
            r.of(&[0, 7, 8, NONE]),
            r.of(&[0, 1, 4, 5, 7, 8, 9, NONE]),
            r.of(keys),
            r.of(keys),
            r.of(&[0, 1, 3, 4, NONE]),
        ),
        1 => Call::Step(r.of(&[0, 3, 8, NONE])),
        2 => Call::Begin(r.of(keys)),
        _ => Call::Rebalance,
    }
}

pub fn next_call(r: &mut Chance, words: &Words, keys: &[u64], habit: &mut Habit, full: Option<u64>) -> Call {
    if let Some(k) = full {
        return Call::Begin(k);
    }
    if r.once_in(40 * habit.eager) {
        return Call::Begin(r.of(keys));
    }
    if r.once_in(habit.eager + 1) {
        return Call::Rebalance;
    }
    let t = r.of(&habit.busy);
    if words[1][t as usize * 11] != 0 {
        return Call::Step(t);
    }
    let (op, mut k, mut a) = (r.of(habit.mix), any_key(r, keys), if r.once_in(4) { 1 + r.below(3) as u64 } else { r.of(keys) });
    if let Some(n) = &mut habit.in_turn {
        k = keys[*n % keys.len()];
        *n += 1;
    }
    if op >= 7 && r.once_in(2) {
        [k, a] = ends::to_start(r, words);
    } else if op >= 7 && k > a && !r.once_in(10) {
        (k, a) = (a, k);
    }
    Call::Start(t, op, k, a, 1 + r.below(3) as u64)
}

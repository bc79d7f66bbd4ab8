//! Damage to lent words, and calls on what is left.
use crate::stacks::{change, WAYS};
use crate::{ends, indexes, Call, Chance};
use model::words::{Words, INDEX, INDEX_WORDS, NONE, TASK_ROWS};
use model::{CHUNKS, ENTRIES, HANDLES, TASKS};

/// A number that a damaged word may hold, at times one that its table could have.
pub fn damage(r: &mut Chance, was: u64) -> u64 {
    const EDGES: [u64; 23] = [
        0,
        1,
        2,
        3,
        4,
        5,
        7,
        8,
        11,
        16,
        22,
        23,
        24,
        31,
        32,
        33,
        559,
        560,
        561,
        1 << 63,
        (1 << 63) - 1,
        NONE - 1,
        NONE,
    ];
    match r.below(8) {
        0 => r.word(),
        1 => was.wrapping_add(1),
        2 => was.wrapping_sub(1),
        3 => r.below(CHUNKS) as u64,
        4 => r.below(HANDLES) as u64,
        5 => was ^ 1,
        _ => r.of(&EDGES),
    }
}

/// A word of a state: of any row, or at times of one that is in use.
pub fn place(r: &mut Chance, w: &Words) -> (usize, usize) {
    let table = r.of(&[0, 0, 1, 1, 1, 2, 2, 3, 3, 3, 4, 5]);
    let length = w[table].len();
    if length == 0 {
        return place(r, w);
    }
    if table == 0 && r.once_in(2) {
        return (table, r.below(length.min(INDEX)));
    }
    let width = [1, 11, 6, 3, 1, 1][table];
    for _ in 0..6 {
        let i = r.below(length);
        let row = &w[table][i - i % width..];
        let used = match table {
            0 => i < INDEX || ((i - INDEX) / INDEX_WORDS) as u64 <= w[0][5],
            1 if i >= TASK_ROWS => w[1][(i - TASK_ROWS) / ENTRIES * 11] == 23,
            1 | 2 => row[0] != 0,
            3 => row[0] != 0 || row.get(1).is_some_and(|&h| h != NONE),
            _ => true,
        };
        if used {
            return (table, i);
        }
    }
    (table, r.below(length))
}

/// Words that keep the shape more often than others do: values, keys, arguments, marks, stages, and numbers of handles and chunks.
pub fn gentle(r: &mut Chance, w: &mut Words) {
    match r.below(17) {
        0 => w[4][r.below(HANDLES)] = r.word(),
        1 => w[5][r.below(HANDLES)] ^= 1,
        2 => {
            let at = r.below(CHUNKS * ENTRIES) * 3;
            if w[3][at + 1] != NONE {
                w[3][at + 1] = if r.once_in(4) { NONE } else { r.below(HANDLES) as u64 };
            }
        }
        3 => {
            let at = r.below(TASKS) * 11;
            for i in 7..9 {
                if w[1][at + i] != NONE {
                    w[1][at + i] = r.below(HANDLES) as u64;
                }
            }
        }
        4 => {
            let at = r.below(TASKS) * 11;
            if w[1][at] != 0 {
                let i = r.of(&[2, 4]);
                w[1][at + i] = damage(r, w[1][at + i]);
            }
        }
        5 => {
            let at = r.below(TASKS) * 11;
            if w[1][at] != 0 {
                w[1][at] = 1 + r.below(23) as u64;
            }
        }
        6 => {
            let known = [w[0][0], w[0][2], w[0][3], w[0][4], NONE, r.below(CHUNKS) as u64];
            w[0][2 + r.below(3)] = r.of(&known);
        }
        7 => {
            let at = r.below(TASKS) * 11;
            if w[1][at + 5] != NONE {
                let known = [w[0][2], w[0][3], r.below(CHUNKS) as u64];
                w[1][at + 5] = r.of(&known);
            }
        }
        8 => {
            let at = w[0][r.of(&[2, 3, 4])].min(31) as usize * 6;
            w[2][at + 1] ^= 1;
        }
        9 => waits_to_link(r, w),
        10 => {
            let count = r.of(&[1, 2, 30]);
            lengthen(w, count);
        }
        11 => {
            let old = w[1][r.below(TASKS) * 11 + 7] as usize;
            let table = r.of(&[4, 5]);
            if let Some(word) = w[table].get_mut(old) {
                *word = if table == 4 { r.word() } else { *word ^ 1 };
            }
        }
        12 => ends::to_scan(r, w),
        13 => {
            let (n, way) = (r.below(TASKS), r.below(WAYS));
            change(r, w, n, way);
        }
        14 | 15 => {
            let way = r.below(indexes::WAYS.len());
            indexes::change(r, w, way);
        }
        _ => {
            let at = r.below(CHUNKS * ENTRIES) * 3;
            if w[3][at] != 0 {
                w[3][at] = if r.once_in(2) { w[3][at].wrapping_add(1) } else { r.word() };
            }
        }
    }
}

/// A task is to link a slot, used or not yet, of a live chunk, for the key that the slot has.
fn waits_to_link(r: &mut Chance, w: &mut Words) {
    let (n, c) = (r.below(TASKS), w[0][0].min(31) as usize);
    let e = (w[2][c * 6 + 5] as usize + r.below(2)).saturating_sub(1).min(ENTRIES - 1);
    let key = w[3][(c * ENTRIES + e) * 3];
    w[1][n * 11..n * 11 + 11].copy_from_slice(&[7, r.of(&[2, 3]), 0, key, 5, c as u64, e as u64, NONE, NONE, 0, 0]);
}

/// Empty live chunks at the chain's end, where there are unused ones.
pub fn lengthen(w: &mut Words, count: usize) {
    let mut last = w[0][0].min(31) as usize;
    for _ in 0..CHUNKS {
        let next = w[2][last * 6 + 3] as usize;
        if next < CHUNKS {
            last = next;
        }
    }
    for _ in 0..count {
        let Some(c) = (0..CHUNKS).find(|&c| w[2][c * 6] == 0) else { return };
        w[2][c * 6] = 1;
        w[2][c * 6 + 2] = w[2][last * 6 + 2].saturating_add(1);
        w[2][last * 6 + 3] = c as u64;
        last = c;
    }
}

pub fn any_call(r: &mut Chance, w: &Words) -> Call {
    let busy = (0..TASKS as u64)
        .filter(|&t| w[1].get(t as usize * 11).is_some_and(|&s| s != 0))
        .collect::<Vec<_>>();
    let key = if r.once_in(2) || w[3].is_empty() {
        r.word()
    } else {
        w[3][r.below(w[3].len())]
    };
    match r.below(16) {
        0 | 1 => {
            let any = r.word();
            let argument = r.of(&[any, key, key.wrapping_add(1), key.wrapping_sub(1), NONE, 0]);
            Call::Start(r.below(TASKS + 1) as u64, r.below(10) as u64, key, argument, r.below(5) as u64)
        }
        2 | 3 => Call::Begin(key),
        4..=6 => Call::Rebalance,
        7 if r.once_in(20) => Call::Fresh,
        _ if busy.is_empty() => Call::Step(r.below(TASKS + 1) as u64),
        _ => Call::Step(r.of(&busy)),
    }
}

//! Tasks that scan down, put into lent words, and damage aimed at their stacks.
use crate::damage::damage;
use crate::{ends, Chance};
use model::words::{Words, NONE, TASK_ROWS};
use model::{CHUNKS, ENTRIES, TASKS};

/// Where word e of task n's stack lies in the tasks' table.
fn at(n: usize, e: usize) -> usize {
    TASK_ROWS + n * ENTRIES + e
}

/// The words of task n's stack up to the first none.
pub fn entries(w: &Words, n: usize) -> Vec<u64> {
    w[1][at(n, 0)..at(n + 1, 0)].iter().copied().take_while(|&e| e != NONE).collect()
}

pub fn write(w: &mut Words, n: usize, stack: &[u64]) {
    for e in 0..ENTRIES {
        w[1][at(n, e)] = stack.get(e).copied().unwrap_or(NONE);
    }
}

/// The linked entries of a chunk, as far as its words let one follow them.
pub fn linked(w: &Words, c: usize) -> Vec<u64> {
    let next = |&e: &u64| w[3].get((c * ENTRIES + e as usize) * 3 + 2).copied();
    let numbers = std::iter::successors(w[2].get(c * 6 + 4).copied(), next);
    numbers.take_while(|&e| e < ENTRIES as u64).take(ENTRIES).collect()
}

/// A chunk in use, at times the rebalance's old one.
pub fn in_use(r: &mut Chance, w: &Words) -> usize {
    let old = w[0][2] as usize;
    if old < CHUNKS && r.once_in(2) {
        return old;
    }
    let used: Vec<usize> = (0..CHUNKS).filter(|&c| w[2][c * 6] != 0).collect();
    if used.is_empty() {
        0
    } else {
        r.of(&used)
    }
}

/// A task comes to scan down: it holds nothing, or a chunk, at times the first, with none, some or all of its linked entries on the stack.
pub fn scan_down(r: &mut Chance, w: &mut Words) -> usize {
    let (n, first, keep) = (r.below(TASKS), w[0][0].min(31) as usize, r.below(4));
    let c = if r.once_in(4) { first } else { in_use(r, w) };
    let mut stack = linked(w, c);
    match keep {
        0 => stack.clear(),
        1 => stack.retain(|_| r.once_in(2)),
        2 => stack.truncate(1 + r.below(ENTRIES)),
        _ => {}
    }
    let held = if keep == 0 && r.once_in(2) { NONE } else { c as u64 };
    let [lower, upper] = ends::both(r, w, c);
    w[1][n * 11..n * 11 + 11].copy_from_slice(&[23, 8, 0, lower, upper, held, NONE, NONE, NONE, 0, 0]);
    write(w, n, &stack);
    n
}

/// How many ways there are to change a stack.
pub const WAYS: usize = 17;

/// Changes task n's stack, or what it leans on, in one way, or in none; the first four keep the shape.
pub fn change(r: &mut Chance, w: &mut Words, n: usize, way: usize) {
    match way {
        0..=7 => change_entries(r, w, n, way),
        8..=12 => change_words(r, w, n, way),
        13..WAYS => change_around(r, w, n, way),
        _ => {}
    }
}

/// The stack has other entries: fewer, one more, in another order, twice, or such as are not linked.
fn change_entries(r: &mut Chance, w: &mut Words, n: usize, way: usize) {
    let mut stack = entries(w, n);
    let (depth, c) = (stack.len(), (w[1][n * 11 + 5] as usize).min(CHUNKS - 1));
    match way {
        0 if depth > 0 => drop(stack.remove(r.below(depth))),
        1 => drop(stack.pop()),
        2 if w[1][n * 11 + 5] != NONE => {
            let all = linked(w, c);
            stack = all.into_iter().filter(|e| stack.contains(e) || r.once_in(2)).collect();
        }
        3 => stack.clear(),
        4 if depth > 1 => stack.swap(r.below(depth), depth - 1),
        5 if depth > 1 => {
            let e = r.below(depth - 1);
            stack[e + 1] = stack[e];
        }
        6 if depth > 0 => stack.push(stack[r.below(depth)]),
        7 => {
            let all = linked(w, c);
            let loose: Vec<u64> = (0..=ENTRIES as u64).filter(|e| !all.contains(e)).collect();
            if depth > 0 && r.once_in(2) {
                stack[r.below(depth)] = r.of(&loose);
            } else {
                stack.push(r.of(&loose));
            }
        }
        _ => {}
    }
    write(w, n, &stack);
}

/// One word of the tasks' table: past the top, in the midst of the stack, or on the stack of another task.
fn change_words(r: &mut Chance, w: &mut Words, n: usize, way: usize) {
    let depth = entries(w, n).len();
    let e = r.below(ENTRIES) as u64;
    match way {
        8 if depth + 1 < ENTRIES => w[1][at(n, depth + 1 + r.below(ENTRIES - depth - 1))] = e,
        9 if depth > 1 => w[1][at(n, r.below(depth - 1))] = NONE,
        10 => {
            let other = r.below(TASKS);
            w[1][at(other, r.of(&[0, 0, 1, ENTRIES - 1]))] = e;
        }
        11 => {
            let i = at(n, r.below(ENTRIES));
            w[1][i] = damage(r, w[1][i]);
        }
        _ => {
            let i = at(n, r.below((depth + 1).min(ENTRIES)));
            w[1][i] = r.of(&[0, 1, 31, 32, 33, 560, NONE, NONE - 1, 1 << 63]);
        }
    }
}

/// What the stack leans on: the held chunk, the stage and the operation, the other holds, the chunk's list and its keys.
fn change_around(r: &mut Chance, w: &mut Words, n: usize, way: usize) {
    let (row, c) = (n * 11, (w[1][n * 11 + 5] as usize).min(CHUNKS - 1));
    match way {
        13 => w[1][row + 5] = if r.once_in(3) { NONE } else { r.below(CHUNKS + 1) as u64 },
        14 => {
            let (stage, operation) = (r.of(&[0, 1, 2, 22, 23, 24]), r.of(&[0, 1, 7, 8, 9]));
            if r.once_in(2) {
                w[1][row] = stage;
            } else {
                w[1][row + 1] = operation;
            }
        }
        15 => {
            let (i, to) = (r.of(&[2, 3, 4, 6, 7, 8, 9, 10]), r.of(&[0, 1, NONE]));
            w[1][row + i] = to;
        }
        _ => {
            let e = r.below(ENTRIES);
            let slot = (c * ENTRIES + e) * 3;
            match r.below(3) {
                0 => w[2][c * 6 + 4] = w[3][(c * ENTRIES + (w[2][c * 6 + 4] as usize).min(ENTRIES - 1)) * 3 + 2],
                1 => w[3][slot + 2] = NONE,
                _ => w[3][slot] = w[3][slot].wrapping_add(r.of(&[1, NONE, 1000])),
            }
        }
    }
}

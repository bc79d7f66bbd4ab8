//! Damage aimed at the index, tasks that come to locate, and how the index stood to a call that located.
use crate::damage::{any_call, damage, lengthen};
use crate::{ends, stacks, Call, Chance};
use model::words::{Words, INDEX, INDEX_WORDS, NONE};
use model::{Report, CHUNKS, HANDLES, TASKS};

type Row = [u64; INDEX_WORDS];

/// Where row i begins in the directory's slice.
fn at(i: usize) -> usize {
    INDEX + i * INDEX_WORDS
}

/// The rows in use, as many as the count says or as there are.
fn rows(w: &Words) -> Vec<Row> {
    let count = w[0][5].min(CHUNKS as u64) as usize;
    w[0][at(0)..at(count)].chunks(INDEX_WORDS).map(|row| [row[0], row[1]]).collect()
}

/// Writes the rows and their count, and clears those past them.
fn write(w: &mut Words, rows: &[Row]) {
    w[0][5] = rows.len().min(CHUNKS) as u64;
    for i in 0..CHUNKS {
        w[0][at(i)..at(i + 1)].copy_from_slice(rows.get(i).unwrap_or(&[0, NONE]));
    }
}

fn status(w: &Words, c: u64) -> Option<u64> {
    w[2].get((c as usize).checked_mul(6)?).copied()
}

/// The row that a chunk would have.
fn row_of(w: &Words, c: usize) -> Row {
    [w[2][c * 6 + 2], c as u64]
}

/// The rows of the live chunks, as far as the words let one follow the chain.
fn live_rows(w: &Words) -> Vec<Row> {
    let next = |&c: &u64| w[2].get(c as usize * 6 + 3).copied();
    let chain = std::iter::successors(Some(w[0][0]), next).take_while(|&c| c < CHUNKS as u64);
    chain.take(CHUNKS).map(|c| row_of(w, c as usize)).collect()
}

/// A chunk that has the status.
fn of_status(r: &mut Chance, w: &Words, status: u64) -> Option<usize> {
    let all: Vec<usize> = (0..CHUNKS).filter(|&c| w[2][c * 6] == status).collect();
    (!all.is_empty()).then(|| r.of(&all))
}

/// The ways to change an index; the first seven keep the shape.
pub const WAYS: [&str; 18] = [
    "some rows left out",
    "emptied",
    "the rows of the live chunks",
    "of the retired chunk, to index",
    "of the retired chunk, to release",
    "of the retired chunk, with another minimum key",
    "of up to 32 live chunks",
    "two rows change places",
    "equal minimum keys",
    "another minimum key",
    "an unused or new chunk in its order",
    "no chunk, none of the table or another live one",
    "another count",
    "words past the count",
    "any word",
    "a chunk that has another minimum key",
    "a chunk that has another status",
    "another stage of the rebalance",
];

/// The ways that ask for a retired chunk.
pub fn of_retired(way: usize) -> bool {
    matches!(way, 3..=5)
}

/// A chunk of the words is retired.
pub fn has_retired(w: &Words) -> bool {
    (0..CHUNKS as u64).any(|c| status(w, c) == Some(3))
}

/// Changes the index, or what it leans on, in one way, or in none.
pub fn change(r: &mut Chance, w: &mut Words, way: usize) {
    match way {
        0..=2 => change_whole(r, w, way),
        3..=5 => name_retired(r, w, way),
        6 => {
            let count = r.of(&[1, 2, 30]);
            lengthen(w, count);
            write(w, &live_rows(w));
        }
        7..=11 => change_row(r, w, way),
        12..=14 => change_words(r, w, way),
        15..=17 => change_around(r, w, way),
        _ => {}
    }
}

/// Fewer rows, none, or those that the index step makes.
fn change_whole(r: &mut Chance, w: &mut Words, way: usize) {
    let mut rows = rows(w);
    match way {
        0 => rows.retain(|_| r.once_in(2)),
        1 => rows.clear(),
        _ => rows = live_rows(w),
    }
    write(w, &rows);
}

/// The retired chunk has a row among those of the live chunks, some of which are at times left out.
fn name_retired(r: &mut Chance, w: &mut Words, way: usize) {
    let Some(c) = of_status(r, w, 3) else { return };
    let mut rows = live_rows(w);
    match way {
        3 => w[0][1] = 4,
        4 => w[0][1] = 5,
        _ => {
            let beside = near(r, w);
            w[2][c * 6 + 2] = beside;
        }
    }
    let row = row_of(w, c);
    rows.retain(|live| live[0] != row[0]);
    if r.once_in(2) {
        rows.retain(|_| r.once_in(2));
    }
    rows.push(row);
    rows.sort();
    write(w, &rows);
}

/// One row is wrong: its place, its minimum key or its chunk.
fn change_row(r: &mut Chance, w: &mut Words, way: usize) {
    let mut rows = rows(w);
    let count = rows.len();
    if count == 0 {
        return;
    }
    let (i, j) = (r.below(count), r.below(count));
    match way {
        7 => rows.swap(i, j),
        8 => {
            let retired = of_status(r, w, 3).filter(|_| r.once_in(2)).map(|c| row_of(w, c));
            rows.insert(i, retired.unwrap_or(rows[i]));
            rows.sort();
        }
        9 => rows[i][0] = if r.once_in(2) { damage(r, rows[i][0]) } else { rows[j][0].wrapping_add(1) },
        10 => {
            let new = of_status(r, w, 2).filter(|_| !r.once_in(4));
            let Some(c) = new.or_else(|| of_status(r, w, 0)) else { return };
            let row = row_of(w, c);
            rows.retain(|live| live[0] != row[0]);
            rows.push(row);
            rows.sort();
        }
        _ => {
            let live = of_status(r, w, 1).map_or(NONE, |c| c as u64);
            rows[i][1] = r.of(&[NONE, NONE - 1, 32, 33, 1 << 63, 1 << 61, live, rows[j][1]]);
        }
    }
    write(w, &rows);
}

/// One word of the directory's slice: the count, one past the count, or any of a row.
fn change_words(r: &mut Chance, w: &mut Words, way: usize) {
    let count = w[0][5].min(CHUNKS as u64) as usize;
    match way {
        12 => {
            let count = w[0][5];
            let odd = [
                count.wrapping_add(1),
                count.wrapping_sub(1),
                0,
                1,
                32,
                33,
                64,
                1 << 63,
                (1 << 63) + 1,
                NONE - 1,
                NONE,
            ];
            w[0][5] = r.of(&odd);
        }
        13 if count < CHUNKS => {
            let i = if r.once_in(2) { count } else { count + r.below(CHUNKS - count) };
            let (key, chunk) = (r.of(&[0, 1, NONE]), r.of(&[0, 1, 31, 32, NONE - 1, NONE]));
            w[0][at(i)..at(i + 1)].copy_from_slice(&[key, chunk]);
        }
        _ => {
            let i = INDEX + r.below(CHUNKS * INDEX_WORDS);
            w[0][i] = damage(r, w[0][i]);
        }
    }
}

/// What the index leans on: the minimum key or the status of a chunk that a row names, or the rebalance's stage.
fn change_around(r: &mut Chance, w: &mut Words, way: usize) {
    let named: Vec<usize> = rows(w).iter().map(|row| row[1] as usize).filter(|&c| c < CHUNKS).collect();
    if way == 17 {
        w[0][1] = r.of(&[0, 1, 3, 4, 5, 6]);
    } else if !named.is_empty() {
        let c = r.of(&named);
        match way {
            15 => w[2][c * 6 + 2] = w[2][c * 6 + 2].wrapping_add(r.of(&[1, NONE, 1000])),
            _ => w[2][c * 6] = r.of(&[0, 1, 2, 3]),
        }
    }
}

// ---- locating

/// A key at or beside a minimum key, of a row or of a chunk in use, or any.
fn near(r: &mut Chance, w: &Words) -> u64 {
    let mut mins: Vec<u64> = rows(w).iter().map(|row| row[0]).collect();
    mins.extend((0..CHUNKS).filter(|&c| w[2][c * 6] != 0).map(|c| w[2][c * 6 + 2]));
    mins.push(0);
    let min = r.of(&mins);
    match r.below(8) {
        0 => r.word(),
        1 => NONE,
        2 => min.wrapping_sub(1),
        3 => min.wrapping_add(1),
        _ => min,
    }
}

/// A task comes to locate a key, at stage 1, 16, 22 or 23.
pub fn to_locate(r: &mut Chance, w: &mut Words) {
    let (n, key, held) = (r.below(TASKS), near(r, w), stacks::in_use(r, w));
    let (chunk, handle) = (if r.once_in(2) { NONE } else { held as u64 }, r.below(HANDLES) as u64);
    let end = ends::end(r, w, held);
    let (lower, upper) = (r.of(&[0, 0, key, end]), r.of(&[NONE, NONE, key, end]));
    let row = match r.below(4) {
        0 => [1, 1 + r.below(6) as u64, 1, key, 5, NONE, NONE, NONE, NONE, 0, 0],
        1 => [16, 6, 0, key, 0, NONE, NONE, handle, NONE, 0, 0],
        2 => [22, 7, 0, key, upper, NONE, NONE, NONE, NONE, 0, 0],
        _ => [23, 8, 0, lower, key, chunk, NONE, NONE, NONE, 0, 0],
    };
    if row[0] == 16 {
        w[5][handle as usize] = 1;
    }
    w[1][n * 11..n * 11 + 11].copy_from_slice(&row);
    stacks::write(w, n, &[]);
}

/// A call that is likely to locate, or any.
pub fn locating_call(r: &mut Chance, w: &Words) -> Call {
    let ready: Vec<u64> = (0..TASKS as u64).filter(|&n| matches!(w[1][n as usize * 11], 1 | 16 | 22 | 23)).collect();
    match r.below(4) {
        0 => Call::Begin(near(r, w)),
        1 | 2 if !ready.is_empty() => Call::Step(r.of(&ready)),
        _ => any_call(r, w),
    }
}

/// The key that a call located, told from the words before it and its report.
pub fn located(w: &Words, call: Call, report: Report) -> Option<u64> {
    match (call, report) {
        (_, Report::Refused(_)) => None,
        (Call::Begin(key), _) => Some(key),
        (Call::Step(n), _) => match w[1][n as usize * 11..][..11] {
            [1 | 16, _, _, key, ..] => Some(key),
            [22, _, _, cursor, end, ..] => (cursor <= end).then_some(cursor),
            [23, _, _, _, upper, chunk, ..] if report == Report::MovedOn && stacks::entries(w, n as usize).is_empty() => match chunk {
                NONE => Some(upper),
                chunk => w[2][chunk as usize * 6 + 2].checked_sub(1),
            },
            _ => None,
        },
        _ => None,
    }
}

/// How an index may stand to the key that a call located.
pub const STOOD: [&str; 8] = [
    "whole",
    "partial",
    "partial, no row at or under the key",
    "empty",
    "stale, a live chunk's row found",
    "stale, no row at or under the key",
    "stale, the retired chunk's row found, a live one's below it",
    "stale, the retired chunk's row found, none below it",
];

/// How the index of the words stands to the key, as a number of the list above.
pub fn stood(w: &Words, key: u64) -> usize {
    let rows = rows(w);
    let live = |row: &Row| status(w, row[1]) == Some(1);
    let under: Vec<Row> = rows.iter().copied().filter(|row| row[0] <= key).collect();
    match under.last() {
        _ if rows.is_empty() => 3,
        _ if rows == live_rows(w) => 0,
        Some(_) if rows.iter().all(live) => 1,
        None if rows.iter().all(live) => 2,
        Some(row) if live(row) => 4,
        None => 5,
        Some(_) if under.iter().any(live) => 6,
        Some(_) => 7,
    }
}

//! Ends of scans: for starts, in the rows of tasks that come to scan, whatever a start would refuse, and how often they were met.
use crate::damage::any_call;
use crate::stacks::{in_use, linked, scan_down, write};
use crate::{Call, Chance};
use model::words::{Words, NONE};
use model::{CHUNKS, ENTRIES, TASKS};

/// At a key, or at times one below or above it.
fn beside(r: &mut Chance, key: u64) -> u64 {
    match r.below(6) {
        0 => key.wrapping_sub(1),
        1 => key.wrapping_add(1),
        _ => key,
    }
}

fn minimum(w: &Words, c: usize) -> u64 {
    w[2][c * 6 + 2]
}

/// Where the key of entry e of chunk c lies in the entries' table.
fn key_at(c: usize, e: u64) -> usize {
    (c * ENTRIES + e as usize) * 3
}

/// An end at or beside the least key of all or the largest, the chunk's minimum key or that of a linked entry, or any.
pub fn end(r: &mut Chance, w: &Words, c: usize) -> u64 {
    let key = match (r.below(8), &linked(w, c)[..]) {
        (0, _) => 0,
        (1 | 2, _) => NONE,
        (3 | 4, all) if !all.is_empty() => w[3][key_at(c, r.of(all))],
        (5, _) => r.word(),
        _ => minimum(w, c),
    };
    beside(r, key)
}

/// A lower and an upper end by the chunk or by any other; at times they are equal, or the lower is 0.
pub fn both(r: &mut Chance, w: &Words, c: usize) -> [u64; 2] {
    let [by, other] = [0; 2].map(|_| if r.once_in(2) { c } else { in_use(r, w) });
    let upper = end(r, w, by);
    match r.below(8) {
        0 | 1 => [upper; 2],
        2 => [beside(r, upper), upper],
        3 | 4 => [0, upper],
        _ => [end(r, w, other), upper],
    }
}

/// Ends as a start is given them, the lower mostly first.
pub fn to_start(r: &mut Chance, w: &Words) -> [u64; 2] {
    let c = in_use(r, w);
    let mut ends = both(r, w, c);
    if !r.once_in(10) {
        ends.sort();
    }
    ends
}

/// A task comes to scan upward.
fn scan_up(r: &mut Chance, w: &mut Words) -> usize {
    let (n, c) = (r.below(TASKS), in_use(r, w));
    let [lower, upper] = both(r, w, c);
    w[1][n * 11..n * 11 + 11].copy_from_slice(&[22, 7, 0, lower, upper, NONE, NONE, NONE, NONE, 0, 0]);
    write(w, n, &[]);
    n
}

/// The live chunk that has the key, as far as the words tell.
fn having(w: &Words, key: u64) -> usize {
    let live = (0..CHUNKS).filter(|&c| w[2][c * 6] == 1 && minimum(w, c) <= key);
    live.max_by_key(|&c| minimum(w, c)).unwrap_or(0)
}

/// The largest key of the chunk that task n comes to next rises to its upper end, to the minimum key of the chunk that it holds, or to
/// the largest of all, or one below or above.
fn raise(r: &mut Chance, w: &mut Words, n: usize) {
    let (lower, upper, held) = (w[1][n * 11 + 3], w[1][n * 11 + 4], w[1][n * 11 + 5] as usize);
    let least = if held < CHUNKS { minimum(w, held) } else { NONE };
    let c = match w[1][n * 11] {
        22 => having(w, lower),
        _ if held < CHUNKS => having(w, least.wrapping_sub(1)),
        _ => having(w, upper),
    };
    let to = r.of(&[upper, least, NONE]);
    let to = beside(r, to);
    if let Some(&e) = linked(w, c).last() {
        let key = &mut w[3][key_at(c, e)];
        *key = to.max(*key);
    }
}

/// One to four tasks come to scan, upward or downward, at times with an empty stack or with a key that rises to an end of theirs.
pub fn to_scan(r: &mut Chance, w: &mut Words) {
    for _ in 0..1 + r.below(4) {
        let n = if r.once_in(2) { scan_up(r, w) } else { scan_down(r, w) };
        if r.once_in(2) {
            write(w, n, &[]);
        }
        if r.once_in(2) {
            raise(r, w, n);
        }
    }
}

/// A step of a task that scans, or any call.
pub fn scanning_call(r: &mut Chance, w: &Words) -> Call {
    let scans: Vec<u64> = (0..TASKS as u64).filter(|&n| matches!(w[1][n as usize * 11], 22 | 23)).collect();
    if scans.is_empty() || r.once_in(6) {
        return any_call(r, w);
    }
    Call::Step(r.of(&scans))
}

/// How often a scan had equal ends, at its start and at a step, and gave a pair at the largest key, upward and downward.
#[derive(Default)]
pub struct Met {
    equal: [u64; 2],
    top: [u64; 2],
}

impl Met {
    /// A call, with the words before it and what it told.
    pub fn count(&mut self, w: &Words, call: Call, (report, key, _): (u64, u64, u64)) {
        match call {
            _ if report == 0 => {}
            Call::Start(_, 7 | 8, lower, upper, _) => self.equal[0] += (lower == upper) as u64,
            Call::Step(n) => {
                if let [stage @ (22 | 23), _, _, lower, upper, ..] = w[1][n as usize * 11..] {
                    self.equal[1] += (lower == upper) as u64;
                    self.top[(stage == 23) as usize] += ((report, key) == (5, NONE)) as u64;
                }
            }
            _ => {}
        }
    }

    pub fn print(&self) {
        let ([starts, steps], [up, down]) = (self.equal, self.top);
        println!("  scans with equal ends: {starts} starts, {steps} steps; pairs at 2^64-1: {up} upward, {down} downward");
    }
}

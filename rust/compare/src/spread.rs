//! The longest state, but which entries name a handle is drawn at random over all rows.
use crate::states::{busy_in, chain, operate, retire, with_chunks};
use crate::Chance;
use model::{HandleNo, Tables, CHUNKS, ENTRIES, HANDLES};

/// The seed of the retired chunk, of which two chunks come.
const RETIRED: u64 = 8;

/// Which rows of which chunks name a handle.
type Names = [[bool; ENTRIES]; CHUNKS];

/// The least key above the chunk's first that it doesn't have.
fn absent(t: &Tables, c: usize) -> u64 {
    let first = t.chunks[c].linked().next().unwrap().1.key;
    (first + 1..).find(|&k| t.chunks[c].find(k).is_none()).unwrap()
}

/// Each chunk gets entries up to its length, in random turns, and every row's key stays or is removed as drawn.
fn settle(t: &mut Tables, lengths: &[(usize, usize)], names: &Names, r: &mut Chance) {
    let mut puts = vec![];
    for &(c, length) in lengths {
        let used = t.chunks[c].used;
        for e in (0..used).filter(|&e| !names[c][e]) {
            operate(t, 6, t.chunks[c].entries[e].key, 0);
        }
        puts.extend((used..length).map(|_| c));
    }
    r.shuffle(&mut puts);
    for c in puts {
        let (e, key) = (t.chunks[c].used, absent(t, c));
        operate(t, 2, key, key);
        assert_eq!(t.chunks[c].entries[e].key, key);
        if !names[c][e] {
            operate(t, 6, key, 0);
        }
    }
}

/// Draws rows until all handles but one are named. A row that has one of these handles already costs none: another entry names it too.
fn draw(t: &Tables, lengths: &[(usize, usize)], too: &[HandleNo], r: &mut Chance) -> Names {
    let (mut names, mut left) = ([[false; ENTRIES]; CHUNKS], HANDLES - 1 - too.len());
    let mut rows: Vec<(usize, usize)> = lengths.iter().flat_map(|&(c, length)| (0..length).map(move |e| (c, e))).collect();
    r.shuffle(&mut rows);
    for (c, e) in rows {
        if left == 0 {
            break;
        }
        names[c][e] = true;
        if !t.chunks[c].entries[e].handle.is_some_and(|h| too.contains(&h)) {
            left -= 1;
        }
    }
    names
}

fn named(t: &Tables, c: usize) -> Vec<HandleNo> {
    t.chunks[c].entries.iter().filter_map(|entry| entry.handle).collect()
}

/// As drawn by the seed: 31 live chunks and a retired one, every list of 32 and the last chunk's of 31, one handle free; seven tasks at stage 5, each at the
/// end of a list of 32.
pub fn spread(seed: u64) -> Tables {
    let (mut t, mut r) = (with_chunks(CHUNKS - 2), Chance::new(RETIRED));
    let old = r.of(&chain(&t)[..CHUNKS - 3]);
    let mut names = [[false; ENTRIES]; CHUNKS];
    names[old].fill_with(|| r.below(CHUNKS * ENTRIES) < HANDLES);
    settle(&mut t, &[(old, ENTRIES)], &names, &mut r);
    retire(&mut t, old);
    let mut r = Chance::new(seed);
    let live = chain(&t);
    let end = live[live.len() - 1];
    let lengths: Vec<(usize, usize)> = live.iter().map(|&c| (c, ENTRIES - (c == end) as usize)).collect();
    let names = draw(&t, &lengths, &named(&t, old), &mut r);
    settle(&mut t, &lengths, &names, &mut r);
    assert!(lengths.iter().all(|&(c, length)| t.chunks[c].linked().count() == length));
    let mut all: Vec<HandleNo> = (0..CHUNKS).flat_map(|c| named(&t, c)).collect();
    all.sort();
    all.dedup();
    assert_eq!(all.len(), HANDLES - 1);
    let ends = |c: &usize| t.chunks[*c].linked().last().is_some_and(|(_, entry)| entry.handle.is_some());
    let chunks: Vec<usize> = live.iter().copied().filter(|c| *c != end && ends(c)).collect();
    busy_in(t, &chunks)
}

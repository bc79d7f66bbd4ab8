//! The stages of the rebalance, on tables that have the shape.
use crate::calls::refusal;
use crate::*;

/// Up to this many entries go to one new chunk.
const ONE_CHUNK: usize = 16;

impl Chunk {
    /// A new chunk that has the entries' keys and handles in its first slots, linked in order.
    fn of_entries(min: u64, taken: &[Entry]) -> Chunk {
        let used = taken.len();
        let mut chunk = Chunk {
            status: Status::New,
            min,
            used,
            head: (used > 0).then_some(0),
            ..Chunk::default()
        };
        for (number, (slot, entry)) in chunk.entries.iter_mut().zip(taken).enumerate() {
            let next = number + 1;
            *slot = Entry {
                next: (next < used).then_some(next),
                ..*entry
            };
        }
        chunk
    }
}

impl Tables {
    /// Begin: the live chunk that has the key is frozen.
    pub(crate) fn freeze(&mut self, key: u64) -> Report {
        let old = self.locate(key);
        self.chunks[old].frozen = true;
        self.rebalance = Rebalance::Drain(old);
        Report::MovedOn
    }

    /// Drain: waits for every publisher on the old chunk.
    pub(crate) fn drain(&mut self, old: ChunkNo) -> Report {
        if self.tasks.iter().flatten().any(|task| task.published && task.chunk == Some(old)) {
            return Report::Waiting;
        }
        self.rebalance = Rebalance::Copy(old);
        Report::MovedOn
    }

    /// Copy: the linked entries that name a handle go to one new chunk or to two.
    pub(crate) fn copy(&mut self, old: ChunkNo) -> Report {
        let Some((new, spare)) = self.two_unused() else {
            return Report::Refused(refusal::NO_SHAPE);
        };
        let Chunk { min, .. } = self.chunks[old];
        let taken: Vec<Entry> = self.chunks[old]
            .linked()
            .map(|(_, entry)| *entry)
            .filter(|entry| entry.handle.is_some())
            .collect();
        let half = if taken.len() <= ONE_CHUNK { taken.len() } else { taken.len().div_ceil(2) };
        let (lower, upper) = taken.split_at(half);
        self.chunks[new] = Chunk::of_entries(min, lower);
        let second = upper.first().map(|entry| {
            self.chunks[spare] = Chunk::of_entries(entry.key, upper);
            spare
        });
        self.rebalance = Rebalance::SwapIn(old, new, second);
        Report::MovedOn
    }

    /// The two lowest numbers of unused chunks.
    fn two_unused(&self) -> Option<(ChunkNo, ChunkNo)> {
        let mut unused = (0..CHUNKS).filter(|&number| self.chunks[number].status == Status::Unused);
        Some((unused.next()?, unused.next()?))
    }

    /// Swap in: the new chunks take the old one's place in the chain, and it retires, else as it was.
    pub(crate) fn swap_in(&mut self, old: ChunkNo, new: ChunkNo, second: Option<ChunkNo>) -> Report {
        let before = self.chain().find(|&number| self.chunks[number].next == Some(old));
        match before {
            Some(before) => self.chunks[before].next = Some(new),
            None => self.first = new,
        }
        if second.is_some() {
            self.chunks[new].next = second;
        }
        self.chunks[second.unwrap_or(new)].next = self.chunks[old].next;
        for number in std::iter::once(new).chain(second) {
            self.chunks[number].status = Status::Live;
        }
        self.chunks[old].status = Status::Retired;
        self.rebalance = Rebalance::Index(old, new, second);
        Report::MovedOn
    }

    /// Release: waits for every task that holds the old chunk, then clears it.
    pub(crate) fn release(&mut self, old: ChunkNo) -> Report {
        if self.tasks.iter().flatten().any(|task| task.chunk == Some(old)) {
            return Report::Waiting;
        }
        self.chunks[old] = Chunk::default();
        self.rebalance = Rebalance::Idle;
        Report::Released
    }
}

//! The shape, which every call checks first.
use crate::*;

/// Whether a stage has a hold.
#[derive(Clone, Copy)]
enum Hold {
    No,
    Perhaps,
    Must,
}
use Hold::{Must, No, Perhaps};

impl Hold {
    fn fits(self, held: bool) -> bool {
        match self {
            No => !held,
            Perhaps => true,
            Must => held,
        }
    }
}

/// What a stage holds; a deleted handle is held as the old one.
#[derive(Clone, Copy)]
struct Holds {
    chunk: Hold,
    entry: Hold,
    old: Hold,
    new: Hold,
    published: Hold,
    swapped: Hold,
    /// The old handle is a deleted one.
    deleted: bool,
    stack: Hold,
}

const NOTHING: Holds = Holds {
    chunk: No,
    entry: No,
    old: No,
    new: No,
    published: No,
    swapped: No,
    deleted: false,
    stack: No,
};
/// A stack only with its chunk.
const STACK: Holds = Holds {
    chunk: Perhaps,
    stack: Perhaps,
    ..NOTHING
};
const CHUNK: Holds = Holds { chunk: Must, ..NOTHING };
const ENTRY: Holds = Holds { entry: Must, ..CHUNK };
const PERHAPS_OLD: Holds = Holds { old: Perhaps, ..ENTRY };
const NEW: Holds = Holds { new: Must, ..PERHAPS_OLD };
const NEW_PUBLISHED: Holds = Holds { published: Must, ..NEW };
const NEW_OUTCOME: Holds = Holds {
    swapped: Perhaps,
    ..NEW_PUBLISHED
};
const OLD: Holds = Holds { old: Must, ..ENTRY };
const OLD_PUBLISHED: Holds = Holds { published: Must, ..OLD };
const OLD_OUTCOME: Holds = Holds {
    swapped: Perhaps,
    ..OLD_PUBLISHED
};
const DELETED: Holds = Holds {
    old: Must,
    deleted: true,
    ..NOTHING
};
const DELETED_CHUNK: Holds = Holds { chunk: Must, ..DELETED };
const DELETED_ENTRY: Holds = Holds { entry: Must, ..DELETED_CHUNK };
const DELETED_PUBLISHED: Holds = Holds {
    published: Must,
    ..DELETED_ENTRY
};

impl Stage {
    /// What the stage list says that the stage holds.
    fn holds(self) -> Holds {
        match self {
            Stage::Locate | Stage::Scan => NOTHING,
            Stage::ScanDown => STACK,
            Stage::Find | Stage::TakeEntry => CHUNK,
            Stage::Read | Stage::Link => ENTRY,
            Stage::Check | Stage::Apply | Stage::PublishAbsence => OLD,
            Stage::TakeHandle => PERHAPS_OLD,
            Stage::Write | Stage::Publish => NEW,
            Stage::Swap => NEW_PUBLISHED,
            Stage::Unpublish => NEW_OUTCOME,
            Stage::SwapAbsence => OLD_PUBLISHED,
            Stage::UnpublishAbsence => OLD_OUTCOME,
            Stage::LocateAgain => DELETED,
            Stage::FindAgain => DELETED_CHUNK,
            Stage::ReadAgain | Stage::PublishRemoval => DELETED_ENTRY,
            Stage::SwapRemoval | Stage::UnpublishRemoval => DELETED_PUBLISHED,
        }
    }

    /// The stage is one of the operation's.
    fn fits(self, operation: Operation) -> bool {
        let number = self.number();
        match operation {
            Operation::Get => matches!(number, 1..=4),
            Operation::PutIfAbsent => matches!(number, 1..=4 | 6..=12),
            Operation::Put | Operation::Upsert => matches!(number, 1..=12),
            Operation::Compute => matches!(number, 1..=5 | 13..=15),
            Operation::Remove => matches!(number, 1..=5 | 13..=21),
            Operation::Scan => number == 22,
            Operation::ScanDown => number == 23,
        }
    }
}

impl Task {
    /// The task holds what its stage does, no less and no more.
    fn holds_fit(&self) -> bool {
        let holds = self.stage.holds();
        holds.chunk.fits(self.chunk.is_some())
            && holds.entry.fits(self.entry.is_some())
            && holds.old.fits(self.old.is_some())
            && holds.new.fits(self.new.is_some())
            && holds.published.fits(self.published)
            && holds.swapped.fits(self.swapped)
            && holds.stack.fits(!self.stack.is_empty())
    }

    /// The stage fits the operation, and the function is one where one is used.
    fn asks_fit(&self) -> bool {
        let function_fits = !self.operation.uses_function() || Function::from_number(self.function).is_some();
        self.stage.fits(self.operation) && function_fits
    }
}

/// The number is none or lies in a table of that many.
fn lies(number: Option<usize>, table: usize) -> bool {
    number.is_none_or(|number| number < table)
}

impl Entry {
    /// The slot holds only 0 and none.
    fn is_clear(&self) -> bool {
        self.key == 0 && self.handle.is_none() && self.next.is_none()
    }

    /// The slot's numbers lie in their tables.
    fn lies(&self) -> bool {
        lies(self.handle, HANDLES) && lies(self.next, ENTRIES)
    }
}

impl Chunk {
    /// The chunk's own words, its slots left aside, hold only 0 and none.
    fn is_clear(&self) -> bool {
        !self.frozen && self.min == 0 && self.next.is_none() && self.head.is_none() && self.used == 0
    }

    /// The chunk's numbers lie in their tables, and what is unused is clear.
    fn slots_fit(&self) -> bool {
        let Some((used, unused)) = self.entries.split_at_checked(self.used) else {
            return false;
        };
        (self.status != Status::Unused || self.is_clear()) && lies(self.next, CHUNKS) && used.iter().all(Entry::lies) && unused.iter().all(Entry::is_clear)
    }

    /// The slots that the list links, as bits; none where a linked entry is unused or the keys do not ascend strictly.
    fn linked_bits(&self) -> Option<u32> {
        let used = self.entries.get(..self.used)?;
        let (mut bits, mut last, mut at) = (0, None, self.head);
        while let Some(number) = at {
            let entry = used.get(number)?;
            if last >= Some(entry.key) {
                return None;
            }
            bits |= 1 << number;
            (last, at) = (Some(entry.key), entry.next);
        }
        Some(bits)
    }
}

/// The old chunk and the new ones that a rebalance names, with the status that its stage asks of each.
type Named = [Option<(ChunkNo, Status)>; 3];

impl Rebalance {
    fn named(self) -> Named {
        let with = |number, status| Some((number, status));
        match self {
            Rebalance::Idle => [None; 3],
            Rebalance::Drain(old) | Rebalance::Copy(old) => [with(old, Status::Live), None, None],
            Rebalance::SwapIn(old, new, second) => [with(old, Status::Live), with(new, Status::New), second.map(|second| (second, Status::New))],
            Rebalance::Index(old, new, second) | Rebalance::Release(old, new, second) => {
                [with(old, Status::Retired), with(new, Status::Live), second.map(|second| (second, Status::Live))]
            }
        }
    }

    /// The two new chunks are not one (docs/DECISIONS.md, "May the second new chunk repeat the first").
    fn news_differ(self) -> bool {
        match self {
            Rebalance::SwapIn(_, new, second) | Rebalance::Index(_, new, second) | Rebalance::Release(_, new, second) => second != Some(new),
            _ => true,
        }
    }

    /// Before copy two chunks must be unused.
    fn is_before_copy(self) -> bool {
        matches!(self, Rebalance::Drain(_) | Rebalance::Copy(_))
    }
}

/// Only the old chunk is frozen, and only named chunks are new or retired.
fn marks_fit(named: &Named, number: ChunkNo, chunk: &Chunk) -> bool {
    let is_old = named[0].is_some_and(|(old, _)| old == number);
    let is_named = named.iter().flatten().any(|(named, _)| *named == number);
    chunk.frozen == is_old && (is_named || matches!(chunk.status, Status::Unused | Status::Live))
}

impl Tables {
    /// The tables have the shape.
    pub fn has_shape(&self) -> bool {
        let Some(linked) = self.linked_bits() else { return false };
        let tasks_fit = || self.tasks.iter().flatten().all(|task| self.task_fits(task, &linked));
        self.chain_fits() && self.rebalance_fits() && tasks_fit() && self.index_fits()
    }

    /// The linked slots of each chunk; none where a chunk by itself fails the shape.
    fn linked_bits(&self) -> Option<[u32; CHUNKS]> {
        let mut linked = [0; CHUNKS];
        for (chunk, bits) in self.chunks.iter().zip(&mut linked) {
            if !chunk.slots_fit() {
                return None;
            }
            *bits = chunk.linked_bits()?;
        }
        Some(linked)
    }

    /// The chain holds every live chunk and no other, from key 0, minimum keys strictly ascending.
    fn chain_fits(&self) -> bool {
        let (mut count, mut last, mut at) = (0, None, Some(self.first));
        while let Some(number) = at {
            let Some(chunk) = self.chunks.get(number) else { return false };
            let ascends = last.map_or(chunk.min == 0, |last| last < chunk.min);
            if chunk.status != Status::Live || !ascends {
                return false;
            }
            count += 1;
            (last, at) = (Some(chunk.min), chunk.next);
        }
        count == self.count(Status::Live)
    }

    /// How many chunks have the status.
    pub(crate) fn count(&self, status: Status) -> usize {
        self.chunks.iter().filter(|chunk| chunk.status == status).count()
    }

    /// The rebalancer's chunks fit its stage, and no other is frozen, new or retired.
    fn rebalance_fits(&self) -> bool {
        let named = self.rebalance.named();
        let has_status = |(number, status): &(ChunkNo, Status)| self.chunks.get(*number).is_some_and(|chunk| chunk.status == *status);
        self.rebalance.news_differ()
            && named.iter().flatten().all(has_status)
            && self.chunks.iter().enumerate().all(|(number, chunk)| marks_fit(&named, number, chunk))
            && (!self.rebalance.is_before_copy() || self.count(Status::Unused) >= 2)
    }

    /// A task at work holds what its stage does, and what it holds is there.
    fn task_fits(&self, task: &Task, linked: &[u32; CHUNKS]) -> bool {
        task.holds_fit()
            && task.asks_fit()
            && self.held_place_fits(task, linked)
            && self.stack_fits(task, linked)
            && lies(task.old, HANDLES)
            && lies(task.new, HANDLES)
            && self.held_mark_fits(task)
    }

    /// Where the stage holds a deleted handle, its mark is set.
    fn held_mark_fits(&self, task: &Task) -> bool {
        let is_deleted = |old: HandleNo| self.handles.get(old).is_some_and(|handle| handle.deleted);
        !task.stage.holds().deleted || task.old.is_some_and(is_deleted)
    }

    /// What is on a stack is linked in the held chunk, keys strictly rising to the top.
    fn stack_fits(&self, task: &Task, linked: &[u32; CHUNKS]) -> bool {
        let Some(number) = task.chunk else { return task.stack.is_empty() };
        let (Some(chunk), Some(bits)) = (self.chunks.get(number), linked.get(number)) else {
            return false;
        };
        let is_linked = |&entry: &EntryNo| entry < ENTRIES && bits >> entry & 1 == 1;
        let entries = task.stack.entries();
        entries.iter().all(is_linked) && entries.windows(2).all(|pair| chunk.entries[pair[0]].key < chunk.entries[pair[1]].key)
    }

    /// A held chunk is in use; a held entry is used, has the task's key, and is linked except at 7.
    fn held_place_fits(&self, task: &Task, linked: &[u32; CHUNKS]) -> bool {
        let Some(number) = task.chunk else { return task.entry.is_none() };
        let Some(chunk) = self.chunks.get(number).filter(|chunk| chunk.status != Status::Unused) else {
            return false;
        };
        task.entry.is_none_or(|entry| {
            let used = entry < chunk.used && chunk.entries[entry].key == task.key;
            used && (task.stage == Stage::Link || linked[number] >> entry & 1 == 1)
        })
    }
}

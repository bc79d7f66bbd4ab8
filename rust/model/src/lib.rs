//! A second implementation of document 01 and of requests E1 to E5, in plain Rust with typed structs, written from those documents and
//! the header, apart from the rules and the code. Its locating is the plain walk along the chain: no answer of it goes by the index.

mod calls;
mod index;
mod rebalance;
mod shape;
mod stages;
#[cfg(test)]
mod tests;
pub mod words;

pub use index::{Index, IndexRow};

pub const TASKS: usize = 8;
pub const CHUNKS: usize = 32;
pub const ENTRIES: usize = 32;
pub const HANDLES: usize = 560;

pub type ChunkNo = usize;
pub type EntryNo = usize;
pub type HandleNo = usize;

#[derive(Clone, Copy, PartialEq, Eq, Debug, Default)]
pub enum Status {
    #[default]
    Unused,
    Live,
    New,
    Retired,
}

#[derive(Clone, Copy, PartialEq, Eq, Debug, Default)]
pub struct Entry {
    pub key: u64,
    pub handle: Option<HandleNo>,
    pub next: Option<EntryNo>,
}

#[derive(Clone, Copy, PartialEq, Eq, Debug, Default)]
pub struct Chunk {
    pub status: Status,
    pub frozen: bool,
    pub min: u64,
    pub next: Option<ChunkNo>,
    pub head: Option<EntryNo>,
    pub used: usize,
    pub entries: [Entry; ENTRIES],
}

#[derive(Clone, Copy, PartialEq, Eq, Debug, Default)]
pub struct Handle {
    pub value: u64,
    pub deleted: bool,
}

#[derive(Clone, Copy, PartialEq, Eq, Debug, PartialOrd, Ord)]
pub enum Operation {
    Get,
    Put,
    PutIfAbsent,
    Upsert,
    Compute,
    Remove,
    Scan,
    ScanDown,
}

#[derive(Clone, Copy, PartialEq, Eq, Debug)]
pub enum Function {
    Add,
    Larger,
    Or,
}

#[derive(Clone, Copy, PartialEq, Eq, Debug, PartialOrd, Ord)]
pub enum Stage {
    Locate,
    Find,
    Read,
    Check,
    Apply,
    TakeEntry,
    Link,
    TakeHandle,
    Write,
    Publish,
    Swap,
    Unpublish,
    PublishAbsence,
    SwapAbsence,
    UnpublishAbsence,
    LocateAgain,
    FindAgain,
    ReadAgain,
    PublishRemoval,
    SwapRemoval,
    UnpublishRemoval,
    Scan,
    ScanDown,
}

/// Entries of a held chunk, the top last; 0 past the top.
#[derive(Clone, Copy, PartialEq, Eq, Debug, Default)]
pub struct Stack {
    entries: [EntryNo; ENTRIES],
    depth: usize,
}

/// A task at work.
#[derive(Clone, Copy, PartialEq, Eq, Debug)]
pub struct Task {
    pub stage: Stage,
    pub operation: Operation,
    pub function: u64,
    /// an upward scan's cursor, a downward one's lower end
    pub key: u64,
    /// a scan's upper end, which counts
    pub argument: u64,
    pub chunk: Option<ChunkNo>,
    pub entry: Option<EntryNo>,
    pub old: Option<HandleNo>,
    pub new: Option<HandleNo>,
    pub published: bool,
    pub swapped: bool,
    pub stack: Stack,
}

/// The rebalance: idle, or the stage that its next call does.
#[derive(Clone, Copy, PartialEq, Eq, Debug, Default)]
pub enum Rebalance {
    #[default]
    Idle,
    Drain(ChunkNo),
    Copy(ChunkNo),
    SwapIn(ChunkNo, ChunkNo, Option<ChunkNo>),
    Index(ChunkNo, ChunkNo, Option<ChunkNo>),
    Release(ChunkNo, ChunkNo, Option<ChunkNo>),
}

/// Every table; an idle task is none.
#[derive(Clone, PartialEq, Eq, Debug)]
pub struct Tables {
    pub first: ChunkNo,
    pub rebalance: Rebalance,
    pub index: Index,
    pub tasks: [Option<Task>; TASKS],
    pub chunks: [Chunk; CHUNKS],
    pub handles: [Handle; HANDLES],
}

#[derive(Clone, Copy, PartialEq, Eq, Debug)]
pub enum Restart {
    Frozen,
    Full,
    Lost,
}

#[derive(Clone, Copy, PartialEq, Eq, Debug)]
pub enum Answer {
    Value(u64),
    Absent,
    Done,
    True,
    False,
}

#[derive(Clone, Copy, PartialEq, Eq, Debug)]
pub enum Report {
    Refused(u64),
    MovedOn,
    Restarted(Restart),
    Pair(u64, u64),
    Finished(Answer),
    Waiting,
    Released,
}

impl Report {
    /// Its number and two values, as the header has them.
    pub fn told(self) -> (u64, u64, u64) {
        match self {
            Report::Refused(n) => (0, n, 0),
            Report::MovedOn => (1, 0, 0),
            Report::Restarted(Restart::Frozen) => (2, 0, 0),
            Report::Restarted(Restart::Full) => (3, 0, 0),
            Report::Restarted(Restart::Lost) => (4, 0, 0),
            Report::Pair(k, v) => (5, k, v),
            Report::Finished(Answer::Value(v)) => (6, v, 0),
            Report::Finished(Answer::Absent) => (7, 0, 0),
            Report::Finished(Answer::Done) => (8, 0, 0),
            Report::Finished(Answer::True) => (9, 0, 0),
            Report::Finished(Answer::False) => (10, 0, 0),
            Report::Waiting => (11, 0, 0),
            Report::Released => (12, 0, 0),
        }
    }
}

impl Status {
    /// The status that has the header's number.
    pub fn from_number(number: u64) -> Option<Status> {
        [Status::Unused, Status::Live, Status::New, Status::Retired]
            .into_iter()
            .find(|status| *status as u64 == number)
    }
}

impl Operation {
    pub const ALL: [Operation; 8] = [
        Operation::Get,
        Operation::Put,
        Operation::PutIfAbsent,
        Operation::Upsert,
        Operation::Compute,
        Operation::Remove,
        Operation::Scan,
        Operation::ScanDown,
    ];

    /// Its number, 1 to 8.
    pub fn number(self) -> u64 {
        self as u64 + 1
    }

    /// The operation that has the number.
    pub fn from_number(number: u64) -> Option<Operation> {
        Operation::ALL.into_iter().find(|operation| operation.number() == number)
    }

    /// Upsert and compute apply a function.
    pub fn uses_function(self) -> bool {
        matches!(self, Operation::Upsert | Operation::Compute)
    }

    /// Both scans go from a lower end to an upper, both counted.
    pub fn is_scan(self) -> bool {
        matches!(self, Operation::Scan | Operation::ScanDown)
    }

    /// All but get and remove have a value, an amount or an upper end.
    pub fn uses_argument(self) -> bool {
        !matches!(self, Operation::Get | Operation::Remove)
    }
}

impl Function {
    /// The function that has the number, 1 to 3.
    pub fn from_number(number: u64) -> Option<Function> {
        match number {
            1 => Some(Function::Add),
            2 => Some(Function::Larger),
            3 => Some(Function::Or),
            _ => None,
        }
    }

    /// The value that it makes of a stored value and an amount.
    pub fn apply(self, value: u64, amount: u64) -> u64 {
        match self {
            Function::Add => value.wrapping_add(amount),
            Function::Larger => value.max(amount),
            Function::Or => value | amount,
        }
    }
}

impl Stage {
    pub const ALL: [Stage; 23] = [
        Stage::Locate,
        Stage::Find,
        Stage::Read,
        Stage::Check,
        Stage::Apply,
        Stage::TakeEntry,
        Stage::Link,
        Stage::TakeHandle,
        Stage::Write,
        Stage::Publish,
        Stage::Swap,
        Stage::Unpublish,
        Stage::PublishAbsence,
        Stage::SwapAbsence,
        Stage::UnpublishAbsence,
        Stage::LocateAgain,
        Stage::FindAgain,
        Stage::ReadAgain,
        Stage::PublishRemoval,
        Stage::SwapRemoval,
        Stage::UnpublishRemoval,
        Stage::Scan,
        Stage::ScanDown,
    ];

    /// Its number in the stage list, 1 to 23.
    pub fn number(self) -> u64 {
        self as u64 + 1
    }

    /// The stage that has the number; 0 is idle and no stage of a task at work.
    pub fn from_number(number: u64) -> Option<Stage> {
        let index = usize::try_from(number.checked_sub(1)?).ok()?;
        Stage::ALL.get(index).copied()
    }
}

impl Stack {
    /// What is on it, the top last.
    pub fn entries(&self) -> &[EntryNo] {
        self.entries.get(..self.depth).unwrap_or_default()
    }

    pub fn is_empty(&self) -> bool {
        self.depth == 0
    }

    /// Puts an entry on top; one more than a chunk has finds no room.
    pub fn put_on(&mut self, entry: EntryNo) {
        if let Some(place) = self.entries.get_mut(self.depth) {
            *place = entry;
            self.depth += 1;
        }
    }

    /// Takes the top off.
    pub fn take_off(&mut self) -> Option<EntryNo> {
        self.depth = self.depth.checked_sub(1)?;
        self.entries.get_mut(self.depth).map(std::mem::take)
    }
}

impl FromIterator<EntryNo> for Stack {
    fn from_iter<I: IntoIterator<Item = EntryNo>>(entries: I) -> Stack {
        let mut stack = Stack::default();
        entries.into_iter().for_each(|entry| stack.put_on(entry));
        stack
    }
}

impl Chunk {
    /// The linked entries with their numbers, in order.
    pub fn linked(&self) -> impl Iterator<Item = (EntryNo, &Entry)> + '_ {
        let follow = |&(_, entry): &(EntryNo, &Entry)| self.slot(entry.next);
        std::iter::successors(self.slot(self.head), follow).take(ENTRIES)
    }

    /// The entry of a number that a head or a next names, with that number.
    fn slot(&self, number: Option<EntryNo>) -> Option<(EntryNo, &Entry)> {
        let number = number?;
        Some((number, self.entries.get(number)?))
    }

    /// The linked entry that has the key.
    pub fn find(&self, key: u64) -> Option<EntryNo> {
        self.linked().find(|(_, entry)| entry.key == key).map(|(number, _)| number)
    }
}

impl Tables {
    /// The fresh directory.
    pub fn fresh() -> Tables {
        let mut chunks = [Chunk::default(); CHUNKS];
        chunks[0].status = Status::Live;
        Tables {
            first: 0,
            rebalance: Rebalance::Idle,
            index: Index::from_iter([IndexRow { min: 0, chunk: 0 }]),
            tasks: [None; TASKS],
            chunks,
            handles: [Handle::default(); HANDLES],
        }
    }

    /// The numbers of the live chunks, from the first.
    pub fn chain(&self) -> impl Iterator<Item = ChunkNo> + '_ {
        std::iter::successors(Some(self.first), |&number| self.chunks.get(number)?.next).take(CHUNKS)
    }

    /// The live chunk whose range has the key.
    pub fn locate(&self, key: u64) -> ChunkNo {
        let starts_by = |number: &ChunkNo| self.chunks.get(*number).is_some_and(|chunk| chunk.min <= key);
        self.chain().take_while(starts_by).last().unwrap_or(self.first)
    }
}

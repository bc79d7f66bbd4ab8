//! The tables as words, and back.
use crate::*;

pub const NONE: u64 = u64::MAX;
/// The words of the directory's row; the index's rows stand after it.
pub const INDEX: usize = 6;
/// A row of the index is a minimum key and a chunk.
pub const INDEX_WORDS: usize = 2;
/// Every task's row; its stack stands after all of them.
pub const TASK_ROWS: usize = TASKS * 11;
/// Directory, tasks, chunks, entries, values, marks.
pub const LENGTHS: [usize; 6] = [
    INDEX + CHUNKS * INDEX_WORDS,
    TASK_ROWS + TASKS * ENTRIES,
    CHUNKS * 6,
    CHUNKS * ENTRIES * 3,
    HANDLES,
    HANDLES,
];

pub type Words = [Vec<u64>; 6];

/// The row of an idle task.
const IDLE: [u64; 11] = [0, 0, 0, 0, 0, NONE, NONE, NONE, NONE, 0, 0];

/// A row past the index's count.
const NO_ROW: [u64; INDEX_WORDS] = [0, NONE];

/// Words of the right lengths.
pub fn blank() -> Words {
    LENGTHS.map(|n| vec![0; n])
}

/// The number of a row of some table; none where no row could have it.
fn number(word: u64) -> Option<usize> {
    if word == NONE {
        return None;
    }
    usize::try_from(word).ok()
}

/// A number or none; the outer none where no row could have it.
fn number_or_none(word: u64) -> Option<Option<usize>> {
    match word {
        NONE => Some(None),
        word => number(word).map(Some),
    }
}

/// A mark, 0 or 1.
fn mark(word: u64) -> Option<bool> {
    match word {
        0 => Some(false),
        1 => Some(true),
        _ => None,
    }
}

/// The word of a number or none.
fn word(number: Option<usize>) -> u64 {
    number.map_or(NONE, |number| number as u64)
}

/// The words as rows of a fixed length.
fn rows<const N: usize>(words: &[u64]) -> impl Iterator<Item = [u64; N]> + '_ {
    words.chunks_exact(N).filter_map(|row| row.try_into().ok())
}

/// Writes rows over the words.
fn write<const N: usize>(words: &mut [u64], rows: impl Iterator<Item = [u64; N]>) {
    for (words, row) in words.chunks_exact_mut(N).zip(rows) {
        words.copy_from_slice(&row);
    }
}

impl Rebalance {
    fn from_words([stage, old, new, second]: [u64; 4]) -> Option<Rebalance> {
        let none_new = new == NONE && second == NONE;
        match stage {
            0 if none_new && old == NONE => Some(Rebalance::Idle),
            1 if none_new => Some(Rebalance::Drain(number(old)?)),
            2 if none_new => Some(Rebalance::Copy(number(old)?)),
            3 => Some(Rebalance::SwapIn(number(old)?, number(new)?, number_or_none(second)?)),
            4 => Some(Rebalance::Index(number(old)?, number(new)?, number_or_none(second)?)),
            5 => Some(Rebalance::Release(number(old)?, number(new)?, number_or_none(second)?)),
            _ => None,
        }
    }

    fn to_words(self) -> [u64; 4] {
        match self {
            Rebalance::Idle => [0, NONE, NONE, NONE],
            Rebalance::Drain(old) => [1, old as u64, NONE, NONE],
            Rebalance::Copy(old) => [2, old as u64, NONE, NONE],
            Rebalance::SwapIn(old, new, second) => [3, old as u64, new as u64, word(second)],
            Rebalance::Index(old, new, second) => [4, old as u64, new as u64, word(second)],
            Rebalance::Release(old, new, second) => [5, old as u64, new as u64, word(second)],
        }
    }
}

impl Index {
    /// The index of its count and its words: so many rows of a chunk, and nothing past them.
    fn from_words(count: u64, words: &[u64]) -> Option<Index> {
        let length = usize::try_from(count).ok()?.checked_mul(INDEX_WORDS)?;
        let (on, past) = words.split_at_checked(length)?;
        if rows(past).any(|row| row != NO_ROW) {
            return None;
        }
        let row = |[min, chunk]: [u64; INDEX_WORDS]| Some(IndexRow { min, chunk: number(chunk)? });
        rows(on).map(row).collect()
    }

    fn to_words(self) -> [[u64; INDEX_WORDS]; CHUNKS] {
        let mut words = [NO_ROW; CHUNKS];
        for (words, row) in words.iter_mut().zip(self.rows()) {
            *words = [row.min, row.chunk as u64];
        }
        words
    }
}

impl Stack {
    /// The stack of its words: the first none ends it, and there is nothing past that.
    fn from_words(words: [u64; ENTRIES]) -> Option<Stack> {
        let depth = words.iter().position(|&word| word == NONE).unwrap_or(ENTRIES);
        let (on, past) = words.split_at(depth);
        if past.iter().any(|&word| word != NONE) {
            return None;
        }
        on.iter().map(|&word| number(word)).collect()
    }

    fn to_words(self) -> [u64; ENTRIES] {
        let mut words = [NONE; ENTRIES];
        for (word, &entry) in words.iter_mut().zip(self.entries()) {
            *word = entry as u64;
        }
        words
    }
}

impl Task {
    /// The task of a row and a stack: the inner none where it is idle, the outer where no task has them.
    fn from_words(row: [u64; 11], stack: [u64; ENTRIES]) -> Option<Option<Task>> {
        let stack = Stack::from_words(stack)?;
        if row == IDLE {
            return stack.is_empty().then_some(None);
        }
        let [stage, operation, function, key, argument, chunk, entry, old, new, published, swapped] = row;
        Some(Some(Task {
            stage: Stage::from_number(stage)?,
            operation: Operation::from_number(operation)?,
            function,
            key,
            argument,
            chunk: number_or_none(chunk)?,
            entry: number_or_none(entry)?,
            old: number_or_none(old)?,
            new: number_or_none(new)?,
            published: mark(published)?,
            swapped: mark(swapped)?,
            stack,
        }))
    }

    fn to_words(self) -> [u64; 11] {
        let [chunk, entry, old, new] = [self.chunk, self.entry, self.old, self.new].map(word);
        let (stage, operation) = (self.stage.number(), self.operation.number());
        [
            stage,
            operation,
            self.function,
            self.key,
            self.argument,
            chunk,
            entry,
            old,
            new,
            self.published as u64,
            self.swapped as u64,
        ]
    }
}

impl Chunk {
    /// The chunk of its row, its entries still clear.
    fn from_words([status, frozen, min, next, head, used]: [u64; 6]) -> Option<Chunk> {
        Some(Chunk {
            status: Status::from_number(status)?,
            frozen: mark(frozen)?,
            min,
            next: number_or_none(next)?,
            head: number_or_none(head)?,
            used: usize::try_from(used).ok()?,
            ..Chunk::default()
        })
    }

    fn to_words(self) -> [u64; 6] {
        [
            self.status as u64,
            self.frozen as u64,
            self.min,
            word(self.next),
            word(self.head),
            self.used as u64,
        ]
    }
}

impl Entry {
    fn from_words([key, handle, next]: [u64; 3]) -> Option<Entry> {
        Some(Entry {
            key,
            handle: number_or_none(handle)?,
            next: number_or_none(next)?,
        })
    }
}

impl Tables {
    /// The tables of the words; none where a length or a number is such that the call is refused by 10 whatever else the tables hold, since these structs cannot hold it.
    pub fn from_words(w: &Words) -> Option<Tables> {
        if w.each_ref().map(Vec::len) != LENGTHS {
            return None;
        }
        let [directory, tasks, chunks, entries, values, marks] = w;
        let (directory_row, index) = directory.split_at(INDEX);
        let [first, stage, old, new, second, indexed] = <[u64; INDEX]>::try_from(directory_row).ok()?;
        let mut tables = Tables {
            first: number(first)?,
            rebalance: Rebalance::from_words([stage, old, new, second])?,
            index: Index::from_words(indexed, index)?,
            ..Tables::fresh()
        };
        let (task_rows, stacks) = tasks.split_at(TASK_ROWS);
        for (task, (row, stack)) in tables.tasks.iter_mut().zip(rows(task_rows).zip(rows(stacks))) {
            *task = Task::from_words(row, stack)?;
        }
        for (chunk, row) in tables.chunks.iter_mut().zip(rows(chunks)) {
            *chunk = Chunk::from_words(row)?;
        }
        for (entry, row) in tables.chunks.iter_mut().flat_map(|chunk| &mut chunk.entries).zip(rows(entries)) {
            *entry = Entry::from_words(row)?;
        }
        for (handle, (&value, &deleted)) in tables.handles.iter_mut().zip(values.iter().zip(marks)) {
            *handle = Handle {
                value,
                deleted: mark(deleted)?,
            };
        }
        Some(tables)
    }

    /// The words of the tables, written over words of the right lengths.
    pub fn to_words(&self, w: &mut Words) {
        let [directory, tasks, chunks, entries, values, marks] = w;
        let [stage, old, new, second] = self.rebalance.to_words();
        let (directory_row, index) = directory.split_at_mut(INDEX);
        let indexed = self.index.rows().len() as u64;
        write(directory_row, std::iter::once([self.first as u64, stage, old, new, second, indexed]));
        write(index, self.index.to_words().into_iter());
        let (task_rows, stacks) = tasks.split_at_mut(TASK_ROWS);
        write(task_rows, self.tasks.iter().map(|task| task.map_or(IDLE, Task::to_words)));
        write(
            stacks,
            self.tasks.iter().map(|task| task.map_or_else(Stack::default, |task| task.stack).to_words()),
        );
        write(chunks, self.chunks.iter().map(|chunk| chunk.to_words()));
        let slots = self.chunks.iter().flat_map(|chunk| &chunk.entries);
        write(entries, slots.map(|entry| [entry.key, word(entry.handle), word(entry.next)]));
        write(values, self.handles.iter().map(|handle| [handle.value]));
        write(marks, self.handles.iter().map(|handle| [handle.deleted as u64]));
    }
}

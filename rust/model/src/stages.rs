//! The stages of a task, on tables that have the shape.
use crate::*;

/// What a stage did to its task; the call writes the task's record.
pub(crate) enum Outcome {
    MovedOn(Task),
    Pair(Task, u64, u64),
    Restarted(Restart),
    Finished(Answer),
    /// Stage 8 found no free handle.
    NoHandle,
    /// The task lacks what its stage holds, which the shape shuts out.
    NoShape,
}
use Outcome::{Finished, MovedOn, Restarted};

impl Task {
    /// The record at another stage, holding the same.
    fn at(self, stage: Stage) -> Outcome {
        MovedOn(Task { stage, ..self })
    }

    /// The key is absent to a get, a compute or a remove; a compute says so by false.
    fn finish_absent(self) -> Outcome {
        Finished(match self.operation {
            Operation::Compute => Answer::False,
            _ => Answer::Absent,
        })
    }

    /// The change is made; a put answers what stood there.
    fn finish_changed(self, former: Answer) -> Outcome {
        Finished(match self.operation {
            Operation::Put => former,
            Operation::Upsert => Answer::Done,
            _ => Answer::True,
        })
    }

    /// No handle is named under the key: insertions go to the stage, the others finish absent.
    fn absent_or(self, stage: Stage) -> Outcome {
        match self.operation {
            Operation::Put | Operation::PutIfAbsent | Operation::Upsert => self.at(stage),
            _ => self.finish_absent(),
        }
    }

    /// A removal has only its deleted handle and looks for the key's chunk again.
    fn locate_again(self) -> Outcome {
        MovedOn(Task {
            stage: Stage::LocateAgain,
            chunk: None,
            entry: None,
            ..self
        })
    }

    /// An upward scan past the key that it gave: the cursor is one above it, or at the largest key stays there, the upper end one below.
    fn past(self, key: u64) -> Task {
        match key.checked_add(1) {
            Some(cursor) => Task { key: cursor, ..self },
            None => Task {
                key,
                argument: key - 1,
                ..self
            },
        }
    }
}

impl Tables {
    /// The task does its stage; everything but the task's own record is changed here.
    pub(crate) fn do_stage(&mut self, task: Task) -> Outcome {
        match (task.stage, task.chunk, task.entry) {
            (Stage::Locate, _, _) => MovedOn(Task {
                stage: Stage::Find,
                chunk: Some(self.locate(task.key)),
                ..task
            }),
            (Stage::LocateAgain, _, _) => MovedOn(Task {
                stage: Stage::FindAgain,
                chunk: Some(self.locate(task.key)),
                ..task
            }),
            (Stage::Scan, _, _) => self.scan(task),
            (Stage::ScanDown, _, _) => self.scan_down(task),
            (Stage::Find, Some(chunk), _) => self.find(task, chunk),
            (Stage::FindAgain, Some(chunk), _) => self.find_again(task, chunk),
            (Stage::TakeEntry, Some(chunk), _) => self.take_entry(task, chunk),
            (_, Some(chunk), Some(entry)) => self.do_entry_stage(task, chunk, entry),
            _ => Outcome::NoShape,
        }
    }

    /// The stages that hold a chunk and an entry.
    fn do_entry_stage(&mut self, task: Task, chunk: ChunkNo, entry: EntryNo) -> Outcome {
        match (task.stage, task.old, task.new) {
            (Stage::Read, _, _) => self.read(task, chunk, entry),
            (Stage::Check, Some(old), _) => self.check(task, old),
            (Stage::Apply, Some(old), _) => self.apply(task, old),
            (Stage::Link, _, _) => self.link(task, chunk, entry),
            (Stage::TakeHandle, _, _) => self.take_handle(task),
            (Stage::Write, _, Some(new)) => {
                self.handles[new].value = task.argument;
                task.at(Stage::Publish)
            }
            (Stage::Publish, _, _) => self.publish(task, chunk, Stage::Swap),
            (Stage::PublishAbsence, _, _) => self.publish(task, chunk, Stage::SwapAbsence),
            (Stage::PublishRemoval, _, _) if self.chunks[chunk].frozen => task.locate_again(),
            (Stage::PublishRemoval, _, _) => self.publish(task, chunk, Stage::SwapRemoval),
            (Stage::Swap, _, Some(new)) => self.swap(task, chunk, entry, Some(new), Stage::Unpublish),
            (Stage::SwapAbsence, Some(_), _) => self.swap(task, chunk, entry, None, Stage::UnpublishAbsence),
            (Stage::SwapRemoval, Some(old), _) => self.swap_removal(task, chunk, entry, old),
            (Stage::Unpublish | Stage::UnpublishAbsence, _, _) if !task.swapped => Restarted(Restart::Lost),
            (Stage::Unpublish, _, _) => task.finish_changed(Answer::Absent),
            (Stage::UnpublishAbsence, _, _) => task.finish_absent(),
            (Stage::ReadAgain, Some(old), _) if self.chunks[chunk].entries[entry].handle == Some(old) => task.at(Stage::PublishRemoval),
            (Stage::ReadAgain | Stage::UnpublishRemoval, Some(old), _) => self.finish_removed(old),
            _ => Outcome::NoShape,
        }
    }

    /// Stage 2: the linked entry with the key.
    fn find(&self, task: Task, chunk: ChunkNo) -> Outcome {
        match self.chunks[chunk].find(task.key) {
            Some(entry) => MovedOn(Task {
                stage: Stage::Read,
                entry: Some(entry),
                ..task
            }),
            None => task.absent_or(Stage::TakeEntry),
        }
    }

    /// Stage 17: the linked entry with the key, after a removal.
    fn find_again(&self, task: Task, chunk: ChunkNo) -> Outcome {
        match self.chunks[chunk].find(task.key) {
            Some(entry) => MovedOn(Task {
                stage: Stage::ReadAgain,
                entry: Some(entry),
                ..task
            }),
            None => task.old.map_or(Outcome::NoShape, |old| self.finish_removed(old)),
        }
    }

    /// Stages 17, 18 and 21, where a removal ends: nobody stores into its deleted handle, so the value that it removed still stands there.
    fn finish_removed(&self, old: HandleNo) -> Outcome {
        Finished(Answer::Value(self.handles[old].value))
    }

    /// Stage 3: the entry's handle.
    fn read(&self, task: Task, chunk: ChunkNo, entry: EntryNo) -> Outcome {
        match self.chunks[chunk].entries[entry].handle {
            Some(handle) => MovedOn(Task {
                stage: Stage::Check,
                old: Some(handle),
                ..task
            }),
            None => task.absent_or(Stage::TakeHandle),
        }
    }

    /// Stage 4: what the old handle's mark means to the operation.
    fn check(&self, task: Task, old: HandleNo) -> Outcome {
        let Handle { value, deleted } = self.handles[old];
        match task.operation {
            Operation::Get if deleted => Finished(Answer::Absent),
            Operation::Get => Finished(Answer::Value(value)),
            Operation::Compute | Operation::Remove if deleted => task.at(Stage::PublishAbsence),
            _ if deleted => task.at(Stage::TakeHandle),
            Operation::PutIfAbsent => Finished(Answer::False),
            _ => task.at(Stage::Apply),
        }
    }

    /// Stage 5: the change of an undeleted handle, in place.
    fn apply(&mut self, task: Task, old: HandleNo) -> Outcome {
        let handle = &mut self.handles[old];
        let former = handle.value;
        match (task.operation, Function::from_number(task.function)) {
            (Operation::Put | Operation::Upsert, _) if handle.deleted => Restarted(Restart::Lost),
            _ if handle.deleted => task.at(Stage::PublishAbsence),
            (Operation::Put, _) => {
                handle.value = task.argument;
                task.finish_changed(Answer::Value(former))
            }
            (Operation::Upsert | Operation::Compute, Some(function)) => {
                handle.value = function.apply(former, task.argument);
                task.finish_changed(Answer::Value(former))
            }
            (Operation::Remove, _) => {
                handle.deleted = true;
                task.locate_again()
            }
            _ => Outcome::NoShape,
        }
    }

    /// Stage 6: the next unused slot gets the key.
    fn take_entry(&mut self, task: Task, chunk: ChunkNo) -> Outcome {
        let chunk = &mut self.chunks[chunk];
        if chunk.frozen {
            return Restarted(Restart::Frozen);
        }
        let entry = chunk.used;
        let Some(slot) = chunk.entries.get_mut(entry) else {
            return Restarted(Restart::Full);
        };
        *slot = Entry {
            key: task.key,
            handle: None,
            next: None,
        };
        chunk.used += 1;
        MovedOn(Task {
            stage: Stage::Link,
            entry: Some(entry),
            ..task
        })
    }

    /// Stage 7: the entry is linked in order, or the linked one that has the key is held instead.
    fn link(&mut self, task: Task, chunk: ChunkNo, entry: EntryNo) -> Outcome {
        let chunk = &mut self.chunks[chunk];
        if chunk.frozen {
            return Restarted(Restart::Frozen);
        }
        let held = match chunk.find(task.key) {
            Some(linked) => linked,
            None => {
                chunk.link(entry);
                entry
            }
        };
        MovedOn(Task {
            stage: Stage::TakeHandle,
            entry: Some(held),
            ..task
        })
    }

    /// Stage 8: the lowest free handle.
    fn take_handle(&mut self, task: Task) -> Outcome {
        let Some(new) = self.lowest_free() else { return Outcome::NoHandle };
        self.handles[new] = Handle { value: 0, deleted: false };
        MovedOn(Task {
            stage: Stage::Write,
            new: Some(new),
            ..task
        })
    }

    /// The lowest number that no entry of a chunk in use names and no task holds.
    pub fn lowest_free(&self) -> Option<HandleNo> {
        let mut taken = [false; HANDLES];
        let in_use = self.chunks.iter().filter(|chunk| chunk.status != Status::Unused);
        let named = in_use.flat_map(|chunk| &chunk.entries).filter_map(|entry| entry.handle);
        let held = self.tasks.iter().flatten().flat_map(|task| [task.old, task.new]).flatten();
        for handle in named.chain(held) {
            if let Some(taken) = taken.get_mut(handle) {
                *taken = true;
            }
        }
        taken.iter().position(|taken| !taken)
    }

    /// Stages 10, 13 and 19: published, unless the chunk is frozen.
    fn publish(&self, task: Task, chunk: ChunkNo, then: Stage) -> Outcome {
        if self.chunks[chunk].frozen {
            return Restarted(Restart::Frozen);
        }
        MovedOn(Task {
            stage: then,
            published: true,
            ..task
        })
    }

    /// Stages 11 and 14: the entry names another handle or none if it still names the old, and the outcome is kept.
    fn swap(&mut self, task: Task, chunk: ChunkNo, entry: EntryNo, to: Option<HandleNo>, then: Stage) -> Outcome {
        let named = &mut self.chunks[chunk].entries[entry].handle;
        let swapped = *named == task.old;
        if swapped {
            *named = to;
        }
        MovedOn(Task { stage: then, swapped, ..task })
    }

    /// Stage 20: the entry names none if it still names the deleted handle; no later stage asks for the outcome.
    fn swap_removal(&mut self, task: Task, chunk: ChunkNo, entry: EntryNo, old: HandleNo) -> Outcome {
        let named = &mut self.chunks[chunk].entries[entry].handle;
        if *named == Some(old) {
            *named = None;
        }
        task.at(Stage::UnpublishRemoval)
    }

    /// Stage 22: the first present key in range of the chunk that has the cursor, or on to the next chunk.
    fn scan(&self, task: Task) -> Outcome {
        let (cursor, end) = (task.key, task.argument);
        if cursor > end {
            return Finished(Answer::Done);
        }
        let chunk = &self.chunks[self.locate(cursor)];
        let in_range = chunk
            .linked()
            .map(|(_, entry)| entry)
            .skip_while(|entry| entry.key < cursor)
            .take_while(|entry| entry.key <= end);
        let mut handles = in_range.filter_map(|entry| Some((entry.key, self.handles[entry.handle?])));
        match (handles.find(|(_, handle)| !handle.deleted), chunk.next) {
            (Some((key, handle)), _) => Outcome::Pair(task.past(key), key, handle.value),
            (None, Some(next)) => MovedOn(Task {
                key: self.chunks[next].min,
                ..task
            }),
            (None, None) => Finished(Answer::Done),
        }
    }

    /// Stage 23: one entry comes off the stack; an empty one is filled, or the scan is at its end.
    fn scan_down(&self, mut task: Task) -> Outcome {
        match (task.chunk, task.stack.take_off()) {
            (Some(chunk), Some(entry)) => self.give(task, chunk, entry),
            (None, Some(_)) => Outcome::NoShape,
            (None, None) => self.fill(task, self.locate(task.argument), task.argument),
            (Some(chunk), None) => {
                let min = self.chunks[chunk].min;
                if min <= task.key {
                    return Finished(Answer::Done);
                }
                let last = min - 1;
                self.fill(task, self.locate(last), last.min(task.argument))
            }
        }
    }

    /// The entry that was on top: a pair if it names an undeleted handle.
    fn give(&self, task: Task, chunk: ChunkNo, entry: EntryNo) -> Outcome {
        let Entry { key, handle, .. } = self.chunks[chunk].entries[entry];
        match handle.map(|handle| self.handles[handle]) {
            Some(Handle { value, deleted: false }) => Outcome::Pair(task, key, value),
            _ => MovedOn(task),
        }
    }

    /// The chunk is held, and its linked entries from the lower end to a last key, both counted, are on the stack.
    fn fill(&self, task: Task, chunk: ChunkNo, last: u64) -> Outcome {
        let in_range = self.chunks[chunk]
            .linked()
            .skip_while(|(_, entry)| entry.key < task.key)
            .take_while(|(_, entry)| entry.key <= last);
        MovedOn(Task {
            chunk: Some(chunk),
            stack: in_range.map(|(number, _)| number).collect(),
            ..task
        })
    }
}

impl Chunk {
    /// Links a slot before the first linked entry of a larger key.
    fn link(&mut self, entry: EntryNo) {
        let key = self.entries[entry].key;
        let before = self.linked().take_while(|(_, linked)| linked.key < key).last().map(|(number, _)| number);
        let place = match before {
            Some(before) => &mut self.entries[before].next,
            None => &mut self.head,
        };
        let after = place.replace(entry);
        self.entries[entry].next = after;
    }
}

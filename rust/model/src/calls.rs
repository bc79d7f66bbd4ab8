//! The four calls, with their refusals in the document's order.
use crate::stages::Outcome;
use crate::*;

/// The numbers of refusal.
pub mod refusal {
    pub const NO_TASK: u64 = 1;
    pub const TASK_AT_WORK: u64 = 2;
    pub const TASK_IDLE: u64 = 3;
    pub const SCAN_BACKWARDS: u64 = 4;
    pub const NO_OPERATION: u64 = 5;
    pub const REBALANCE_AT_WORK: u64 = 6;
    pub const NO_CHUNKS: u64 = 7;
    pub const REBALANCE_IDLE: u64 = 8;
    pub const NO_HANDLE: u64 = 9;
    pub const NO_SHAPE: u64 = 10;
}

/// The task number as an index, where it is less than 8.
fn task_index(n: u64) -> Option<usize> {
    usize::try_from(n).ok().filter(|&index| index < TASKS)
}

impl Task {
    /// The record that a start writes, or the number by which it is refused.
    fn started(operation: u64, key: u64, argument: u64, function: u64) -> Result<Task, u64> {
        let operation = Operation::from_number(operation).ok_or(refusal::NO_OPERATION)?;
        if operation.uses_function() && Function::from_number(function).is_none() {
            return Err(refusal::NO_OPERATION);
        }
        if operation.is_scan() && key > argument {
            return Err(refusal::SCAN_BACKWARDS);
        }
        Ok(Task {
            stage: match operation {
                Operation::Scan => Stage::Scan,
                Operation::ScanDown => Stage::ScanDown,
                _ => Stage::Locate,
            },
            operation,
            function: if operation.uses_function() { function } else { 0 },
            key,
            argument: if operation.uses_argument() { argument } else { 0 },
            chunk: None,
            entry: None,
            old: None,
            new: None,
            published: false,
            swapped: false,
            stack: Stack::default(),
        })
    }

    /// The record after a restart: nothing held, operation, key and arguments kept, stage 1.
    fn restarted(self) -> Task {
        Task {
            stage: Stage::Locate,
            chunk: None,
            entry: None,
            old: None,
            new: None,
            published: false,
            swapped: false,
            stack: Stack::default(),
            ..self
        }
    }
}

impl Tables {
    /// Task n starts an operation.
    pub fn start(&mut self, n: u64, operation: u64, key: u64, argument: u64, function: u64) -> Report {
        if !self.has_shape() {
            return Report::Refused(refusal::NO_SHAPE);
        }
        let Some(index) = task_index(n) else {
            return Report::Refused(refusal::NO_TASK);
        };
        if self.tasks[index].is_some() {
            return Report::Refused(refusal::TASK_AT_WORK);
        }
        match Task::started(operation, key, argument, function) {
            Ok(task) => {
                self.tasks[index] = Some(task);
                Report::MovedOn
            }
            Err(number) => Report::Refused(number),
        }
    }

    /// Task n does one stage.
    pub fn step(&mut self, n: u64) -> Report {
        if !self.has_shape() {
            return Report::Refused(refusal::NO_SHAPE);
        }
        let Some(index) = task_index(n) else {
            return Report::Refused(refusal::NO_TASK);
        };
        let Some(task) = self.tasks[index] else {
            return Report::Refused(refusal::TASK_IDLE);
        };
        let (after, report) = match self.do_stage(task) {
            Outcome::MovedOn(after) => (Some(after), Report::MovedOn),
            Outcome::Pair(after, key, value) => (Some(after), Report::Pair(key, value)),
            Outcome::Restarted(why) => (Some(task.restarted()), Report::Restarted(why)),
            Outcome::Finished(answer) => (None, Report::Finished(answer)),
            Outcome::NoHandle => (None, Report::Refused(refusal::NO_HANDLE)),
            Outcome::NoShape => (Some(task), Report::Refused(refusal::NO_SHAPE)),
        };
        self.tasks[index] = after;
        report
    }

    /// A rebalance of the live chunk that has the key begins.
    pub fn begin(&mut self, key: u64) -> Report {
        if !self.has_shape() {
            return Report::Refused(refusal::NO_SHAPE);
        }
        if self.rebalance != Rebalance::Idle {
            return Report::Refused(refusal::REBALANCE_AT_WORK);
        }
        if self.count(Status::Unused) < 2 {
            return Report::Refused(refusal::NO_CHUNKS);
        }
        self.freeze(key)
    }

    /// The rebalance does its next stage.
    pub fn rebalance(&mut self) -> Report {
        if !self.has_shape() {
            return Report::Refused(refusal::NO_SHAPE);
        }
        match self.rebalance {
            Rebalance::Idle => Report::Refused(refusal::REBALANCE_IDLE),
            Rebalance::Drain(old) => self.drain(old),
            Rebalance::Copy(old) => self.copy(old),
            Rebalance::SwapIn(old, new, second) => self.swap_in(old, new, second),
            Rebalance::Index(old, new, second) => self.make_index(old, new, second),
            Rebalance::Release(old, ..) => self.release(old),
        }
    }
}

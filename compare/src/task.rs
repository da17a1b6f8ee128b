//! Tasks, drafts and tables.

use crate::refusal::Refusal;
use crate::state::Mode;

/// A table has room for this many tasks.
pub const MAX_TASKS: usize = 8;

/// The longest period and the longest offset, in ticks.
const LONGEST: u8 = 127;

#[derive(Clone, Copy, Debug, PartialEq, Eq)]
pub enum Criticality {
    High,
    Low,
}

#[derive(Clone, Copy, Debug, PartialEq, Eq)]
pub struct Task {
    pub criticality: Criticality,
    pub period: u8,
    pub deadline: u8,
    pub low_budget: u8,
    pub high_budget: u8,
    pub offset: u8,
}

impl Task {
    pub fn is_high(&self) -> bool {
        self.criticality == Criticality::High
    }

    pub fn is_right(&self) -> bool {
        1 <= self.low_budget
            && self.low_budget <= self.high_budget
            && self.high_budget <= self.deadline
            && self.deadline <= self.period
            && self.period <= LONGEST
            && self.offset <= LONGEST
            && (self.is_high() || self.low_budget == self.high_budget)
    }

    /// The run time of a job that is counted on in this mode.
    pub fn budget(&self, mode: Mode) -> u8 {
        match mode {
            Mode::Low => self.low_budget,
            Mode::High => self.high_budget,
        }
    }

    /// What the high budget has more than the low one. Right tasks only.
    pub fn extra(&self) -> u8 {
        self.high_budget - self.low_budget
    }
}

/// Tasks that are being put together.
#[derive(Debug, Default)]
pub struct Draft {
    tasks: Vec<Task>,
}

impl Draft {
    pub fn new() -> Self {
        Self::default()
    }

    /// Adds a task. A ninth one is refused before it is looked at.
    pub fn add(&mut self, task: Task) -> Result<(), Refusal> {
        if self.tasks.len() == MAX_TASKS {
            return Err(Refusal::NinthTask);
        }
        if !task.is_right() {
            return Err(Refusal::WrongTask);
        }
        self.tasks.push(task);
        Ok(())
    }

    pub fn seal(self) -> Table {
        Table { tasks: self.tasks }
    }
}

/// At most eight right tasks. Only sealing a draft makes one.
#[derive(Clone, Debug, PartialEq, Eq)]
pub struct Table {
    tasks: Vec<Task>,
}

impl Table {
    /// The tasks in their order: task 1 is at index 0.
    pub fn tasks(&self) -> &[Task] {
        &self.tasks
    }
}

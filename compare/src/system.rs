//! A table under a policy as a transition system, sporadic or periodic.

use crate::policy::Policy;
use crate::refusal::Refusal;
use crate::state::{Job, Kind, Mode, State};
use crate::task::{Table, Task, MAX_TASKS};

/// The number of the event that is a tick.
pub const TICK: u8 = 9;
/// The number of the event that is a finishing tick, and the last one.
pub const FINISHING: u8 = 10;

#[derive(Clone, Debug)]
pub struct System {
    pub table: Table,
    pub kind: Kind,
    pub policy: Policy,
}

impl System {
    pub fn tasks(&self) -> &[Task] {
        self.table.tasks()
    }

    pub fn first(&self) -> State {
        State::first(self.kind, self.tasks())
    }

    pub fn fits(&self, state: &State) -> bool {
        state.fits(self.kind, self.tasks())
    }

    pub fn late(&self, state: &State) -> bool {
        self.fits(state) && state.late_jobs(self.tasks()).next().is_some()
    }

    pub fn doomed(&self, state: &State) -> bool {
        self.fits(state) && state.doomed_jobs(self.tasks()).next().is_some()
    }

    pub fn simulates(&self, one: &State, other: &State) -> bool {
        self.fits(one) && self.fits(other) && one.covers(self.kind, other)
    }

    /// What an event gives in any state at all: the next state or a refusal.
    pub fn gives(&self, state: &State, event: u8) -> Result<State, Refusal> {
        if !self.fits(state) {
            return Err(Refusal::DoesNotFit);
        }
        if self.late(state) {
            return Err(Refusal::Late);
        }
        self.step(state, event)
    }

    /// What an event gives in a state that fits and is not late.
    pub fn step(&self, state: &State, event: u8) -> Result<State, Refusal> {
        match event {
            1..=8 => self.release(state, usize::from(event) - 1),
            TICK => self.tick(state, false),
            FINISHING => self.tick(state, true),
            _ => Err(Refusal::NoSuchEvent),
        }
    }

    fn release(&self, state: &State, index: usize) -> Result<State, Refusal> {
        let task = self.tasks().get(index).ok_or(Refusal::NoSuchEvent)?;
        match state.job(index) {
            Job::Absent => Err(Refusal::NoSuchEvent),
            Job::Dropped => Err(Refusal::Dropped),
            Job::Ready { .. } => Err(Refusal::AlreadyReady),
            Job::Idle { wait: 1.. } => Err(Refusal::TooSoon),
            Job::Idle { wait: 0 } => {
                let mut next = *state;
                let left = task.budget(state.mode());
                next.set_job(index, Job::Ready { wait: task.period, left });
                Ok(next)
            }
        }
    }

    fn tick(&self, state: &State, finishing: bool) -> Result<State, Refusal> {
        if state.due(self.kind).next().is_some() {
            return Err(Refusal::TaskDue);
        }
        let picked = self.pick(state);
        if finishing && picked.is_none() {
            return Err(Refusal::NonePicked);
        }
        let mut next = *state;
        next.pass_time();
        let Some(index) = picked else { return Ok(next) };
        let Job::Ready { wait, left } = next.job(index) else {
            unreachable!("a policy picks ready tasks only")
        };
        let left = left - 1;
        let task = &self.tasks()[index];
        let ends = finishing || left == 0 && (state.mode() == Mode::High || task.extra() == 0);
        if ends {
            next.set_job(index, Job::Idle { wait });
        } else {
            next.set_job(index, Job::Ready { wait, left });
            if left == 0 {
                self.go_high(&mut next);
            }
        }
        Ok(next)
    }

    fn go_high(&self, state: &mut State) {
        state.set_mode(Mode::High);
        for (index, task) in self.tasks().iter().enumerate() {
            if !task.is_high() {
                state.set_job(index, Job::Dropped);
            } else if let Job::Ready { wait, left } = state.job(index) {
                state.set_job(index, Job::Ready { wait, left: left + task.extra() });
            }
        }
    }

    pub fn pick(&self, state: &State) -> Option<usize> {
        self.policy.pick(self.tasks(), state)
    }

    /// The doomed job of least time to deadline, the lowest number among equals, and that time.
    fn first_doomed(&self, state: &State) -> Option<(usize, i16)> {
        state.doomed_jobs(self.tasks()).min_by_key(|&(_, time)| time)
    }

    /// The event that brings a doomed state nearer to a late one.
    pub fn forced_event(&self, state: &State) -> Result<u8, Refusal> {
        if !self.fits(state) {
            return Err(Refusal::DoesNotFit);
        }
        if self.late(state) {
            return Err(Refusal::Late);
        }
        let (doomed, _) = self.first_doomed(state).ok_or(Refusal::NotDoomed)?;
        if let Some(due) = state.due(self.kind).next() {
            return Ok(due as u8 + 1);
        }
        let another_runs = self.pick(state).is_some_and(|picked| picked != doomed);
        Ok(if state.mode() == Mode::Low && another_runs { FINISHING } else { TICK })
    }

    /// A number that falls with each forced event; none where the state is late or not doomed.
    pub fn events_to_miss(&self, state: &State) -> Option<u16> {
        if !self.fits(state) || self.late(state) {
            return None;
        }
        let (_, time) = self.first_doomed(state)?;
        Some(9 * time as u16 + state.due(self.kind).count() as u16)
    }

    /// The numbers of the tasks whose jobs are late, the lowest first.
    pub fn late_tasks(&self, state: &State) -> Vec<u8> {
        state.late_jobs(self.tasks()).map(|index| index as u8 + 1).collect()
    }
}

// A task's number fits a byte and an event below the tick.
const _: () = assert!(MAX_TASKS < TICK as usize);

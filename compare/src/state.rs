//! Jobs and states. Tasks and jobs are found by index here: task 1 has index 0.

use crate::task::{Task, MAX_TASKS};

#[derive(Clone, Copy, Debug, PartialEq, Eq)]
pub enum Mode {
    Low,
    High,
}

#[derive(Clone, Copy, Debug, PartialEq, Eq)]
pub enum Job {
    Absent,
    Dropped,
    Idle { wait: u8 },
    Ready { wait: u8, left: u8 },
}

#[derive(Clone, Copy, Debug, PartialEq, Eq)]
enum Phase {
    Absent,
    Dropped,
    Idle,
    Ready,
}

/// A mode and a job for each task. The figures of the jobs lie side by side, so that two states
/// are told apart by looking at a few bytes; the times left differ most often and come first.
#[derive(Clone, Copy, Debug, PartialEq, Eq)]
pub struct State {
    /// 0 where the job is not ready.
    lefts: [u8; MAX_TASKS],
    /// 0 where the job is absent or dropped.
    waits: [u8; MAX_TASKS],
    mode: Mode,
    phases: [Phase; MAX_TASKS],
}

/// Whether a task may be released once its wait is over, or is.
#[derive(Clone, Copy, Debug, PartialEq, Eq)]
pub enum Kind {
    Sporadic,
    Periodic,
}

/// A ready job's time until its deadline; 0 or less where it is late.
pub fn time_to_deadline(task: &Task, wait: u8) -> i16 {
    i16::from(wait) - i16::from(task.period) + i16::from(task.deadline)
}

/// What a ready job has to spare if it needs its whole high budget; below 0 where it is doomed.
pub fn worst_laxity(task: &Task, mode: Mode, wait: u8, left: u8) -> i16 {
    let more = match mode {
        Mode::Low => i16::from(task.high_budget) - i16::from(task.low_budget),
        Mode::High => 0,
    };
    time_to_deadline(task, wait) - i16::from(left) - more
}

impl State {
    pub fn new(mode: Mode, jobs: [Job; MAX_TASKS]) -> State {
        let mut state = State {
            lefts: [0; MAX_TASKS],
            waits: [0; MAX_TASKS],
            mode,
            phases: [Phase::Absent; MAX_TASKS],
        };
        for (index, job) in jobs.into_iter().enumerate() {
            state.set_job(index, job);
        }
        state
    }

    pub fn first(kind: Kind, tasks: &[Task]) -> State {
        let mut jobs = [Job::Absent; MAX_TASKS];
        for (job, task) in jobs.iter_mut().zip(tasks) {
            let wait = match kind {
                Kind::Sporadic => 0,
                Kind::Periodic => task.offset,
            };
            *job = Job::Idle { wait };
        }
        State::new(Mode::Low, jobs)
    }

    pub fn mode(&self) -> Mode {
        self.mode
    }

    pub fn set_mode(&mut self, mode: Mode) {
        self.mode = mode;
    }

    pub fn job(&self, index: usize) -> Job {
        let (wait, left) = (self.waits[index], self.lefts[index]);
        match self.phases[index] {
            Phase::Absent => Job::Absent,
            Phase::Dropped => Job::Dropped,
            Phase::Idle => Job::Idle { wait },
            Phase::Ready => Job::Ready { wait, left },
        }
    }

    pub fn set_job(&mut self, index: usize, job: Job) {
        let (phase, wait, left) = match job {
            Job::Absent => (Phase::Absent, 0, 0),
            Job::Dropped => (Phase::Dropped, 0, 0),
            Job::Idle { wait } => (Phase::Idle, wait, 0),
            Job::Ready { wait, left } => (Phase::Ready, wait, left),
        };
        self.phases[index] = phase;
        self.waits[index] = wait;
        self.lefts[index] = left;
    }

    /// Each wait falls by one, not below 0.
    pub fn pass_time(&mut self) {
        for wait in &mut self.waits {
            *wait = wait.saturating_sub(1);
        }
    }

    pub fn fits(&self, kind: Kind, tasks: &[Task]) -> bool {
        (0..MAX_TASKS).all(|index| {
            let Some(task) = tasks.get(index) else { return self.job(index) == Job::Absent };
            let drops = self.mode == Mode::High && !task.is_high();
            match self.job(index) {
                Job::Absent => false,
                Job::Dropped => drops,
                Job::Idle { wait } => {
                    let longest = match kind {
                        Kind::Sporadic => task.period,
                        Kind::Periodic => task.period.max(task.offset),
                    };
                    !drops && wait <= longest
                }
                Job::Ready { wait, left } => {
                    !drops && wait <= task.period && (1..=task.budget(self.mode)).contains(&left)
                }
            }
        })
    }

    /// The ready jobs: index, task, wait and time left, the lowest number first.
    pub fn ready<'a>(
        &'a self,
        tasks: &'a [Task],
    ) -> impl Iterator<Item = (usize, &'a Task, u8, u8)> + 'a {
        tasks
            .iter()
            .enumerate()
            .filter(|(index, _)| self.phases[*index] == Phase::Ready)
            .map(|(index, task)| (index, task, self.waits[index], self.lefts[index]))
    }

    /// The indexes of late jobs, the lowest first.
    pub fn late_jobs<'a>(&'a self, tasks: &'a [Task]) -> impl Iterator<Item = usize> + 'a {
        self.ready(tasks)
            .filter(|&(_, task, wait, _)| time_to_deadline(task, wait) <= 0)
            .map(|(index, ..)| index)
    }

    /// The doomed jobs: index and time to deadline, the lowest number first.
    pub fn doomed_jobs<'a>(&'a self, tasks: &'a [Task]) -> impl Iterator<Item = (usize, i16)> + 'a {
        self.ready(tasks)
            .filter(|&(_, task, wait, left)| worst_laxity(task, self.mode, wait, left) < 0)
            .map(|(index, task, wait, _)| (index, time_to_deadline(task, wait)))
    }

    /// The indexes of due tasks, the lowest first. In a sporadic system no task is ever due.
    pub fn due(&self, kind: Kind) -> impl Iterator<Item = usize> + '_ {
        (0..MAX_TASKS).filter(move |&index| {
            kind == Kind::Periodic && self.phases[index] == Phase::Idle && self.waits[index] == 0
        })
    }

    /// Whether this state simulates the other, where both fit: all agrees, but in a sporadic
    /// system the waits of idle jobs may be shorter here.
    pub fn covers(&self, kind: Kind, other: &State) -> bool {
        match kind {
            Kind::Periodic => self == other,
            // Something is left of a ready job only, so that equal times left mean the same ready
            // tasks; who is dropped goes by the mode.
            Kind::Sporadic => {
                self.lefts == other.lefts
                    && self.mode == other.mode
                    && (0..MAX_TASKS).all(|index| {
                        let (here, there) = (self.waits[index], other.waits[index]);
                        here == there || self.lefts[index] == 0 && here < there
                    })
            }
        }
    }
}

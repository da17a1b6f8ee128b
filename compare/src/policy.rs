//! Policies: which ready task runs.

use crate::state::{time_to_deadline, worst_laxity, Job, Mode, State};
use crate::task::{Task, MAX_TASKS};

/// A byte for each task, task 1 first. Numbers past the last task are not read.
pub type Figures = [u8; MAX_TASKS];

#[derive(Clone, Debug, PartialEq, Eq)]
pub enum Policy {
    /// Fixed order: the least rank.
    Fixed(Figures),
    /// The least time to deadline.
    Deadline,
    /// The least worst laxity.
    Laxity,
    /// In low mode, while a high task is ready, the policy below sees ready low tasks as idle.
    HighFirst(Box<Policy>),
    /// In low mode the policy below sees deadlines that are not longer than the figures.
    Shortened(Figures, Box<Policy>),
}

impl Policy {
    /// The index of the task that runs, if one does.
    pub fn pick(&self, tasks: &[Task], state: &State) -> Option<usize> {
        match self {
            Policy::Fixed(ranks) => least(tasks, state, |index, _, _, _| i16::from(ranks[index])),
            Policy::Deadline => {
                least(tasks, state, |_, task, wait, _| time_to_deadline(task, wait))
            }
            Policy::Laxity => least(tasks, state, |_, task, wait, left| {
                worst_laxity(task, state.mode(), wait, left)
            }),
            Policy::HighFirst(below) => {
                let high_waits = state.mode() == Mode::Low
                    && state.ready(tasks).any(|(_, task, _, _)| task.is_high());
                if high_waits {
                    below.pick(tasks, &without_low(tasks, state))
                } else {
                    below.pick(tasks, state)
                }
            }
            Policy::Shortened(figures, below) => match (state.mode(), tasks.first()) {
                (Mode::Low, Some(&any)) => {
                    let mut shown = [any; MAX_TASKS];
                    for (index, task) in tasks.iter().enumerate() {
                        shown[index] = *task;
                        shown[index].deadline = task.deadline.min(figures[index]);
                    }
                    below.pick(&shown[..tasks.len()], state)
                }
                _ => below.pick(tasks, state),
            },
        }
    }
}

/// The ready task of the least figure and, among equals, of the lowest number.
fn least(
    tasks: &[Task],
    state: &State,
    figure: impl Fn(usize, &Task, u8, u8) -> i16,
) -> Option<usize> {
    state
        .ready(tasks)
        .min_by_key(|&(index, task, wait, left)| figure(index, task, wait, left))
        .map(|(index, ..)| index)
}

/// The state with every ready low task shown as idle with wait 0.
fn without_low(tasks: &[Task], state: &State) -> State {
    let mut shown = *state;
    for (index, task, _, _) in state.ready(tasks) {
        if !task.is_high() {
            shown.set_job(index, Job::Idle { wait: 0 });
        }
    }
    shown
}

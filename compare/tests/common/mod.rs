//! What the tests share.
#![allow(dead_code)] // not every test file uses all of it

use model::answer::Story;
use model::explore::{explore, Answer, Node, Outcome, Visit};
use model::file;
use model::policy::Policy;
use model::state::{Job, Kind, Mode, State};
use model::system::System;

pub const ONE: &str = "L 2 2 1 1 0";
pub const PAIR: &str = "H 3 3 2 3 0\nL 3 3 2 2 0";

pub fn system(table: &str, kind: Kind, policy: Policy) -> System {
    System { table: file::read(table.as_bytes()).expect("a right table"), kind, policy }
}

/// Sporadic, earliest deadline.
pub fn plain(table: &str) -> System {
    system(table, Kind::Sporadic, Policy::Deadline)
}

pub fn explored(system: &System, nodes: usize, visits: usize) -> (Outcome, Option<Story>) {
    let mut nodes = Node::lend(nodes, system);
    let mut visits = vec![Visit::default(); visits];
    let outcome = explore(system, &mut nodes, &mut visits);
    let story = (outcome.answer == Answer::Unschedulable)
        .then(|| Story::of(system, &visits[..outcome.visits]));
    (outcome, story)
}

pub fn idle(wait: u8) -> Job {
    Job::Idle { wait }
}

pub fn ready(wait: u8, left: u8) -> Job {
    Job::Ready { wait, left }
}

/// A state with these jobs; all others are absent.
pub fn state(mode: Mode, jobs: &[Job]) -> State {
    let mut all = [Job::Absent; 8];
    all[..jobs.len()].copy_from_slice(jobs);
    State::new(mode, all)
}

/// The answer's number: 0 where the event is accepted.
pub fn number(system: &System, state: &State, event: u8) -> u8 {
    system.gives(state, event).map_or_else(|refusal| refusal.number(), |_| 0)
}

//! Exploring: whether a late state can ever come.

use crate::state::State;
use crate::system::{System, FINISHING};

pub const MAX_NODES: usize = 4096;
pub const MAX_VISITS: usize = 65_535;

/// A state that is kept, and the number of the visit that entered it.
#[derive(Clone, Copy, Debug)]
pub struct Node {
    pub state: State,
    visit: u16,
}

impl Node {
    /// Nodes to be lent; what they hold before exploring means nothing.
    pub fn lend(count: usize, system: &System) -> Vec<Node> {
        vec![Node { state: system.first(), visit: 0 }; count]
    }
}

/// How a state was entered: from which visit, by which event. Visits number from 1.
#[derive(Clone, Copy, Debug, Default, PartialEq, Eq)]
pub struct Visit {
    pub parent: u16,
    pub event: u8,
}

#[derive(Clone, Copy, Debug, PartialEq, Eq)]
pub enum Answer {
    Schedulable,
    Unschedulable,
    TooLarge,
    VisitsFull,
    NodesFull,
}

impl Answer {
    pub fn word(self) -> &'static str {
        match self {
            Answer::Schedulable => "schedulable",
            Answer::Unschedulable => "unschedulable",
            Answer::TooLarge => "10",
            Answer::VisitsFull => "11",
            Answer::NodesFull => "12",
        }
    }
}

/// The answer, how many nodes are kept at the end, and how many visits are written.
#[derive(Clone, Copy, Debug, PartialEq, Eq)]
pub struct Outcome {
    pub answer: Answer,
    pub nodes: usize,
    pub visits: usize,
}

/// Explores the system in the nodes and visits that are lent.
pub fn explore(system: &System, nodes: &mut [Node], visits: &mut [Visit]) -> Outcome {
    if nodes.len() > MAX_NODES || visits.len() > MAX_VISITS {
        return Outcome { answer: Answer::TooLarge, nodes: 0, visits: 0 };
    }
    let mut exploring = Exploring { system, nodes, visits, kept: 0, opened: 0, written: 0 };
    let answer = exploring.open_all().err().unwrap_or(Answer::Schedulable);
    Outcome { answer, nodes: exploring.kept, visits: exploring.written }
}

struct Exploring<'a> {
    system: &'a System,
    nodes: &'a mut [Node],
    visits: &'a mut [Visit],
    /// The nodes in use are the first ones.
    kept: usize,
    /// Nodes are opened in their order, so that the opened ones are the first of the kept.
    opened: usize,
    /// The visits in use are the first ones.
    written: usize,
}

impl Exploring<'_> {
    /// Opens nodes until none is left; the error is the answer where exploring ends before that.
    fn open_all(&mut self) -> Result<(), Answer> {
        self.enter(&self.system.first(), 0, 0)?;
        while self.opened < self.kept {
            let Node { state, visit } = self.nodes[self.opened];
            self.opened += 1;
            for event in 1..=FINISHING {
                // A node is never doomed and so never late: a step is all that is asked.
                if let Ok(next) = self.system.step(&state, event) {
                    self.enter(&next, visit, event)?;
                }
            }
        }
        Ok(())
    }

    fn enter(&mut self, state: &State, parent: u16, event: u8) -> Result<(), Answer> {
        let kind = self.system.kind;
        if self.nodes[..self.kept].iter().any(|node| node.state.covers(kind, state)) {
            return Ok(());
        }
        if self.written == self.visits.len() {
            return Err(Answer::VisitsFull);
        }
        self.visits[self.written] = Visit { parent, event };
        self.written += 1;
        if state.doomed_jobs(self.system.tasks()).next().is_some() {
            return Err(Answer::Unschedulable);
        }
        self.take_out_covered(state);
        if self.kept == self.nodes.len() {
            return Err(Answer::NodesFull);
        }
        self.nodes[self.kept] = Node { state: *state, visit: self.written as u16 };
        self.kept += 1;
        Ok(())
    }

    /// Takes out the nodes that the state simulates; the others close up in their order.
    fn take_out_covered(&mut self, state: &State) {
        let kind = self.system.kind;
        let covered = |node: &Node| state.covers(kind, &node.state);
        let Some(first) = self.nodes[..self.kept].iter().position(covered) else { return };
        let opened = self.opened;
        let mut place = first;
        for from in first..self.kept {
            if covered(&self.nodes[from]) {
                self.opened -= usize::from(from < opened);
            } else {
                self.nodes[place] = self.nodes[from];
                place += 1;
            }
        }
        self.kept = place;
    }
}

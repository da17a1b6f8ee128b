//! What the program should print for a command line and a table file, and its exit status.

use std::fmt::Write;

use crate::explore::{explore, Answer, Node, Outcome, Visit};
use crate::file;
use crate::policy::{Figures, Policy};
use crate::state::{Job, Mode, State};
use crate::system::System;
use crate::task::MAX_TASKS;
use crate::trace::trace;
use crate::words::{self, Command, Order, Request};

/// What is printed and the exit status.
#[derive(Clone, Debug, PartialEq, Eq)]
pub struct Reply {
    pub status: i32,
    pub out: String,
    /// The messages for standard error; their wording is free.
    pub faults: Vec<String>,
    /// Set where a check was made.
    pub outcome: Option<Outcome>,
}

impl Reply {
    fn fault(faults: Vec<String>) -> Reply {
        Reply { status: 1, out: String::new(), faults, outcome: None }
    }
}

/// The reply to a command line that reads its table from `input`.
pub fn reply(words: &[String], input: &[u8]) -> Reply {
    match words::read(words) {
        Ok(request) => reply_to(&request, input),
        Err(fault) => Reply::fault(vec![fault]),
    }
}

pub fn reply_to(request: &Request, input: &[u8]) -> Reply {
    let system = match system(request, input) {
        Ok(system) => system,
        Err(faults) => return Reply::fault(faults),
    };
    match request.command {
        Command::Check => check(request, &system),
        Command::Run => run(&system, request.events.as_deref().unwrap_or_default()),
        Command::Help => Reply::fault(vec!["help reads no table".into()]),
    }
}

/// The system that is asked about, or all faults of the table file and the lists.
pub fn system(request: &Request, input: &[u8]) -> Result<System, Vec<String>> {
    let table = file::read(input)?;
    let policy = policy(request, table.tasks().len()).map_err(|fault| vec![fault])?;
    Ok(System { table, kind: request.kind, policy })
}

fn policy(request: &Request, tasks: usize) -> Result<Policy, String> {
    let mut policy = match request.order {
        Order::Deadline => Policy::Deadline,
        Order::Laxity => Policy::Laxity,
        Order::Fixed => Policy::Fixed(match &request.ranks {
            Some(ranks) => figures("--ranks", ranks, tasks)?,
            None => [1, 2, 3, 4, 5, 6, 7, 8],
        }),
    };
    if let Some(shorten) = &request.shorten {
        policy = Policy::Shortened(figures("--shorten", shorten, tasks)?, Box::new(policy));
    }
    if request.high_first {
        policy = Policy::HighFirst(Box::new(policy));
    }
    Ok(policy)
}

fn figures(option: &str, list: &[u8], tasks: usize) -> Result<Figures, String> {
    if list.len() != tasks {
        return Err(format!("{option} has {} numbers for {tasks} tasks", list.len()));
    }
    let mut figures = [0; MAX_TASKS];
    figures[..tasks].copy_from_slice(list);
    Ok(figures)
}

fn check(request: &Request, system: &System) -> Reply {
    let mut nodes = Node::lend(request.nodes, system);
    let mut visits = vec![Visit::default(); request.visits];
    let outcome = explore(system, &mut nodes, &mut visits);
    let mut out =
        format!("answer {} {} {}\n", outcome.answer.word(), outcome.nodes, outcome.visits);
    if outcome.answer == Answer::Unschedulable {
        let story = Story::of(system, &visits[..outcome.visits]);
        line(&mut out, "trace", &story.trace);
        line(&mut out, "forced", &story.forced);
        line(&mut out, "late", &story.late);
    }
    let failed = request.require_schedulable && outcome.answer != Answer::Schedulable;
    Reply { status: failed.into(), out, faults: Vec::new(), outcome: Some(outcome) }
}

/// A doomed state is no more forced events away from a late one.
const MOST_FORCED: usize = 1151;

/// How a run of an unschedulable table comes to be late.
pub struct Story {
    pub trace: Vec<u8>,
    pub forced: Vec<u8>,
    pub late: Vec<u8>,
}

impl Story {
    /// Makes the events that led to the last visit on a new run, and then the forced ones.
    pub fn of(system: &System, visits: &[Visit]) -> Story {
        let mut list = vec![0; visits.len()];
        let count = trace(visits, visits.len(), &mut list).expect("visits of exploring");
        list.truncate(count);
        let mut state = system.first();
        for &event in &list {
            state = system.gives(&state, event).expect("a traced event is accepted");
        }
        let mut forced = Vec::new();
        while !system.late(&state) {
            let event = system.forced_event(&state).expect("the last visit is doomed");
            state = system.gives(&state, event).expect("a forced event is accepted");
            forced.push(event);
            assert!(forced.len() <= MOST_FORCED, "forced events come to an end");
        }
        Story { trace: list, forced, late: system.late_tasks(&state) }
    }
}

fn line(out: &mut String, word: &str, numbers: &[u8]) {
    out.push_str(word);
    for number in numbers {
        write!(out, " {number}").expect("a string takes all");
    }
    out.push('\n');
}

fn run(system: &System, events: &[u8]) -> Reply {
    let mut state = system.first();
    let mut out = format!("event - answer 0 state {}\n", state_words(&state));
    for &event in events {
        let answer = match system.gives(&state, event) {
            Ok(next) => {
                state = next;
                0
            }
            Err(refusal) => refusal.number(),
        };
        writeln!(out, "event {event} answer {answer} state {}", state_words(&state))
            .expect("a string takes all");
    }
    Reply { status: 0, out, faults: Vec::new(), outcome: None }
}

fn state_words(state: &State) -> String {
    let mut words = String::from(match state.mode() {
        Mode::Low => "LOW",
        Mode::High => "HIGH",
    });
    for index in 0..MAX_TASKS {
        match state.job(index) {
            Job::Absent => Ok(()),
            Job::Dropped => write!(words, " d"),
            Job::Idle { wait } => write!(words, " i{wait}"),
            Job::Ready { wait, left } => write!(words, " r{wait}/{left}"),
        }
        .expect("a string takes all");
    }
    words
}

//! Random cases: a table with a check, and runs of the same table.

use crate::answer::system;
use crate::case::{Ask, Case, Row};
use crate::explore::{explore, Answer, Node, Outcome, Visit, MAX_NODES, MAX_VISITS};
use crate::odd_words::add_odd_words;
use crate::rng::Rng;
use crate::state::{Kind, State};
use crate::system::System;
use crate::tables::{right_row, spoil, Shape};
use crate::words::{self, Order};

/// A table's runs make at least this many events together.
const EVENTS_OF_A_TABLE: usize = 60;

/// The check of a random table, and runs of it.
pub fn cases(rng: &mut Rng) -> (Case, Vec<Case>) {
    let shape = Shape::random(rng);
    let mut case = table_case(rng, &shape);
    if rng.chance(8) {
        for _ in 0..rng.between(1, 2).min(shape.tasks) {
            let place = rng.between(0, shape.tasks - 1) as usize;
            spoil(rng, &mut case.rows[place].words);
        }
    }
    if rng.chance(30) {
        case.rows.iter_mut().for_each(|row| row.style = (rng.number() & rng.number()) as u8);
    }
    case.turn = if rng.chance(30) { rng.between(0, 9) as u8 } else { 0 };
    let system = system_of(&case);
    let mut runs = Vec::new();
    match &system {
        Some(system) => {
            let mut events = 0;
            while events < EVENTS_OF_A_TABLE {
                let walk = walk(rng, system);
                events += walk.len();
                runs.push(asking(&case, Ask::Run { events: walk }));
            }
        }
        None if rng.chance(30) => runs.push(asking(&case, Ask::Run { events: vec![1, 9, 10] })),
        None => {}
    }
    let (nodes, visits) = memory(rng, system.as_ref());
    case.ask = Ask::Check { nodes, visits, require_schedulable: rng.chance(10) };
    for case in std::iter::once(&mut case).chain(&mut runs) {
        add_odd_words(rng, case);
    }
    (case, runs)
}

/// A table of right rows, with a kind, a policy and layers, and a check in full memory.
pub fn table_case(rng: &mut Rng, shape: &Shape) -> Case {
    let rows = (0..shape.tasks).map(|_| random_row(rng, shape)).collect();
    let kind =
        rng.one_of(&[Some(Kind::Periodic), Some(Kind::Periodic), Some(Kind::Sporadic), None]);
    let order = rng.one_of(&[None, Some(Order::Fixed), Some(Order::Deadline), Some(Order::Laxity)]);
    Case {
        kind,
        order,
        ranks: order == Some(Order::Fixed) && rng.chance(70),
        high_first: rng.chance(35),
        shorten: rng.chance(35),
        ..Case::plain(rows)
    }
}

/// A right row with a rank and a shortened deadline.
fn random_row(rng: &mut Rng, shape: &Shape) -> Row {
    let words = right_row(rng, shape);
    let deadline = words[2].parse().unwrap_or(1);
    let rank = if rng.chance(60) { rng.between(0, 4) } else { rng.between(0, 255) } as u8;
    let short = if rng.chance(80) { rng.between(1, deadline) } else { rng.between(0, 255) } as u8;
    Row { words, rank, short, style: 0 }
}

fn asking(case: &Case, ask: Ask) -> Case {
    Case { ask, ..case.clone() }
}

/// The system that a case asks about, if nothing is wrong with it.
pub fn system_of(case: &Case) -> Option<System> {
    let request = words::read(&case.words()).ok()?;
    system(&request, &case.table()).ok()
}

/// Explores in memory of that size.
pub fn explore_in(system: &System, nodes: usize, visits: usize) -> Outcome {
    explore(system, &mut Node::lend(nodes, system), &mut vec![Visit::default(); visits])
}

/// How many nodes and visits are lent; none stands for the option left out.
fn memory(rng: &mut Rng, system: Option<&System>) -> (Option<u32>, Option<u32>) {
    let random = |rng: &mut Rng| (Some(rng.between(0, 300)), Some(rng.between(0, 3000)));
    let Some(system) = system else { return random(rng) };
    let least = rng.between(0, 3);
    match rng.between(1, 100) {
        1..=4 => (Some(least), Some(rng.between(0, 6))),
        5..=8 => (Some(MAX_NODES as u32 + 1 + least * 999), None),
        9..=11 => (None, Some(rng.one_of(&[65_536, 65_537, 70_000, 1_000_000]))),
        12..=30 => random(rng),
        31..=60 => near_the_end(rng, system),
        _ => {
            // Tables that would fill the memory take long, so that few of them may.
            let Outcome { answer, .. } = explore_in(system, 800, 6000);
            let decided = matches!(answer, Answer::Schedulable | Answer::Unschedulable);
            if !decided && rng.chance(75) {
                return random(rng);
            }
            match rng.between(1, 4) {
                1 => (Some(MAX_NODES as u32), Some(MAX_VISITS as u32)),
                2 => (Some(rng.between(0, 4096)), Some(rng.between(0, 65_535))),
                _ => (None, None),
            }
        }
    }
}

/// As many nodes and visits as exploring needs, or one more or less.
fn near_the_end(rng: &mut Rng, system: &System) -> (Option<u32>, Option<u32>) {
    let Outcome { nodes, visits, .. } = explore_in(system, 500, 4000);
    let mut near = |count: usize| (count as u32 + rng.between(0, 2)).saturating_sub(1);
    let (nodes, visits) = (Some(near(nodes)), Some(near(visits)));
    match rng.between(1, 4) {
        1 => (nodes, Some(5000)),
        2 => (Some(600), visits),
        _ => (nodes, visits),
    }
}

/// Events of a run: mostly accepted ones that do not end it, and any others between them.
fn walk(rng: &mut Rng, system: &System) -> Vec<u8> {
    let length = rng.between(20, 150) as usize;
    let mut events = Vec::with_capacity(length);
    let mut state = system.first();
    let mut more_when_late = rng.between(0, 4);
    while events.len() < length {
        let late = system.late(&state);
        if late && more_when_late == 0 {
            break;
        }
        more_when_late -= u32::from(late);
        let event = match rng.between(1, 100) {
            1..=75 if !late => accepted(rng, system, &state),
            76..=95 => rng.between(1, 10) as u8,
            _ => rng.between(0, 255) as u8,
        };
        state = system.gives(&state, event).unwrap_or(state);
        events.push(event);
    }
    events
}

/// An event that is accepted, mostly one that does not doom the run if there is one.
fn accepted(rng: &mut Rng, system: &System, state: &State) -> u8 {
    let given = |event: &u8| system.gives(state, *event).ok();
    let all: Vec<u8> = (1..=10).filter(|event| given(event).is_some()).collect();
    let good: Vec<u8> =
        all.iter().copied().filter(|e| given(e).is_some_and(|s| !system.doomed(&s))).collect();
    if good.is_empty() || rng.chance(10) {
        rng.one_of(&all)
    } else {
        rng.one_of(&good)
    }
}

//! How long exploring takes: the model's alone, with a place for the proved library beside it.

use std::time::Instant;

use crate::case::{Case, Row};
use crate::explore::{explore, Node, Outcome, Visit, MAX_NODES, MAX_VISITS};
use crate::generate::{system_of, table_case};
use crate::rng::Rng;
use crate::state::Kind;
use crate::system::System;
use crate::tables::Shape;

const PAIR: &str = include_str!("../../examples/pair.table");
const AUTOPILOT: &str = include_str!("../../examples/autopilot.table");

/// The best of so many rounds counts.
const ROUNDS: u32 = 5;
/// So many random tables that fill the nodes are looked for, among at most so many.
const WANTED: usize = 200;
const TRIED: usize = 1500;
/// The slowest of them are measured.
const MEASURED: usize = 20;

struct Contest {
    name: String,
    case: Case,
    system: System,
}

pub fn bench(seed: u64) {
    println!("seed {seed}");
    let mut contests = vec![
        example("pair", None, PAIR),
        example("autopilot", None, AUTOPILOT),
        example("autopilot, periodic", Some(Kind::Periodic), AUTOPILOT),
    ];
    contests.extend(slowest(seed));
    println!(
        "{:<20} {:<13} {:>5} {:>6} {:>10} {:>10}",
        "name", "answer", "nodes", "visits", "model ms", "proved ms"
    );
    for contest in &contests {
        let (outcome, model) = model_time(&contest.system, ROUNDS);
        let proved = proved_time(contest).map_or("-".into(), |time| format!("{time:.4}"));
        println!(
            "{:<20} {:<13} {:>5} {:>6} {:>10.4} {:>10}",
            contest.name,
            outcome.answer.word(),
            outcome.nodes,
            outcome.visits,
            model,
            proved
        );
    }
    println!("\nThe tables:");
    for contest in &contests {
        println!("{}: {}", contest.name, contest.case.command("pethongu"));
    }
}

/// The model's outcome, and the milliseconds of its best round. Lending is not measured.
fn model_time(system: &System, rounds: u32) -> (Outcome, f64) {
    let mut nodes = Node::lend(MAX_NODES, system);
    let mut visits = vec![Visit::default(); MAX_VISITS];
    let mut best = f64::INFINITY;
    let mut outcome = None;
    for _ in 0..rounds {
        let started = Instant::now();
        outcome = Some(explore(system, &mut nodes, &mut visits));
        best = best.min(started.elapsed().as_secs_f64() * 1000.0);
    }
    (outcome.expect("at least one round"), best)
}

/// The milliseconds of the proved library's best round.
///
/// THE PLACE FOR IT: the library is not linked yet, so there is no time. Once it is a static
/// library, build its table from `contest.system` here, lend it `MAX_NODES` nodes and `MAX_VISITS`
/// visits before the clock starts, take the best of `ROUNDS` rounds as `model_time` does, and
/// check that its answer and both counts are those of the model.
fn proved_time(_contest: &Contest) -> Option<f64> {
    None
}

/// A table of the examples, under the earliest deadline.
fn example(name: &str, kind: Option<Kind>, file: &str) -> Contest {
    let said = file.lines().map(|line| line.split('#').next().unwrap_or_default());
    let rows = said
        .map(|said| said.split_whitespace().map(String::from).collect::<Vec<_>>())
        .filter(|words| !words.is_empty())
        .map(Row::plain)
        .collect();
    let case = Case { kind, ..Case::plain(rows) };
    let system = system_of(&case).expect("an example has no fault");
    Contest { name: name.into(), case, system }
}

/// The slowest of the random tables that fill the nodes, or that come nearest to it.
fn slowest(seed: u64) -> Vec<Contest> {
    let mut found = Vec::new();
    let mut full = 0;
    for index in 0..TRIED {
        let mut rng = Rng::of_case(seed, index as u64);
        let shape = Shape {
            tasks: rng.between(3, 8),
            shortest: 3,
            longest: rng.one_of(&[16, 24, 40, 64, 127]),
            doubling: false,
            load: rng.between(20, 80),
        };
        let case = table_case(&mut rng, &shape);
        let system = system_of(&case).expect("random rows are right");
        let (outcome, time) = model_time(&system, 2);
        full += usize::from(outcome.nodes == MAX_NODES);
        found.push((outcome.nodes, time, index, case, system));
        if full == WANTED {
            break;
        }
    }
    println!("{full} of {} random tables fill {MAX_NODES} nodes", found.len());
    found.sort_by_key(|&(nodes, ..)| std::cmp::Reverse(nodes));
    found.truncate(WANTED);
    found.sort_by(|one, other| other.1.total_cmp(&one.1));
    found.truncate(MEASURED);
    let named =
        |(_, _, index, case, system)| Contest { name: format!("random {index}"), case, system };
    found.into_iter().map(named).collect()
}

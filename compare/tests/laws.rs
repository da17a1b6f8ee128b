//! What the documents promise of every table, tried on random ones.

mod common;

use model::answer::Story;
use model::explore::{explore, Answer, Node, Visit};
use model::generate::{system_of, table_case};
use model::rng::Rng;
use model::state::State;
use model::system::System;
use model::tables::Shape;

fn random_system(index: u64) -> System {
    let mut rng = Rng::of_case(11, index);
    let (tasks, load) = (rng.between(1, 4), rng.between(20, 110));
    let shape = Shape { tasks, shortest: 1, longest: 8, doubling: false, load };
    system_of(&table_case(&mut rng, &shape)).expect("random rows are right")
}

/// At the end *schedulable* the nodes are closed.
fn closed(system: &System, nodes: &[Node]) {
    let stands = |state: &State| nodes.iter().any(|node| system.simulates(&node.state, state));
    assert!(stands(&system.first()));
    for node in nodes {
        assert!(system.fits(&node.state) && !system.doomed(&node.state));
        for event in 1..=10 {
            if let Ok(next) = system.gives(&node.state, event) {
                assert!(stands(&next));
            }
        }
    }
}

/// Every forced event brings the miss nearer.
fn forced_events_count_down(system: &System, story: &Story) {
    let mut state = system.first();
    for &event in &story.trace {
        assert!(!system.doomed(&state));
        state = system.gives(&state, event).expect("accepted");
    }
    let mut before = 1152;
    for &event in &story.forced {
        let now = system.events_to_miss(&state).expect("doomed and not late");
        assert!(1 <= now && now < before);
        before = now;
        state = system.gives(&state, event).expect("accepted");
        assert!(system.doomed(&state));
    }
    assert_eq!(system.late_tasks(&state), story.late);
    assert!(!story.late.is_empty());
}

#[test]
fn exploring_keeps_its_promises() {
    let mut answers = [0; 3];
    for index in 0..400 {
        let system = random_system(index);
        let mut nodes = Node::lend(100, &system);
        let mut visits = vec![Visit::default(); 1000];
        let outcome = explore(&system, &mut nodes, &mut visits);
        let nodes = &nodes[..outcome.nodes];
        match outcome.answer {
            Answer::Schedulable => {
                closed(&system, nodes);
                answers[0] += 1;
            }
            Answer::Unschedulable => {
                let story = Story::of(&system, &visits[..outcome.visits]);
                forced_events_count_down(&system, &story);
                answers[1] += 1;
            }
            _ => answers[2] += 1,
        }
        // Nodes never simulate one another.
        for (place, one) in nodes.iter().enumerate().take(60) {
            for other in &nodes[place + 1..] {
                assert!(!system.simulates(&one.state, &other.state));
                assert!(!system.simulates(&other.state, &one.state));
            }
        }
    }
    assert!(answers.iter().all(|&count| count > 10), "{answers:?}");
}

/// What simulates another state accepts all that it accepts, and simulates the result.
#[test]
fn simulating_goes_on() {
    for index in 0..150 {
        let system = random_system(index);
        let mut nodes = Node::lend(120, &system);
        let mut visits = vec![Visit::default(); 2000];
        let outcome = explore(&system, &mut nodes, &mut visits);
        let mut states: Vec<State> = nodes[..outcome.nodes].iter().map(|node| node.state).collect();
        for at in 0..states.len() {
            let from = states[at];
            states.extend((1..=10).filter_map(|event| system.gives(&from, event).ok()));
        }
        for one in &states {
            for other in states.iter().filter(|other| system.simulates(one, other)) {
                assert!(system.doomed(one) || !system.doomed(other));
                assert!(system.late(one) || !system.late(other));
                for event in 1..=10 {
                    if let Ok(theirs) = system.gives(other, event) {
                        let ours = system.gives(one, event).expect("accepted as well");
                        assert!(system.simulates(&ours, &theirs));
                    }
                }
            }
        }
    }
}

//! The values that the documents work out.

mod common;

use common::{explored, idle, plain, ready, state, ONE, PAIR};
use model::explore::Answer::{NodesFull, Schedulable, TooLarge, Unschedulable, VisitsFull};
use model::explore::Outcome;
use model::state::{worst_laxity, Mode};

#[test]
fn a_run_drawn_out() {
    let system = plain(PAIR);
    let mut now = system.first();
    let low = |one, two| state(Mode::Low, &[one, two]);
    assert_eq!(now, low(idle(0), idle(0)));
    let steps = [
        (1, low(ready(3, 2), idle(0))),
        (2, low(ready(3, 2), ready(3, 2))),
        (9, low(ready(2, 1), ready(2, 2))),
        (10, low(idle(1), ready(1, 2))),
        (9, low(idle(0), ready(0, 1))),
    ];
    for (place, (event, next)) in steps.into_iter().enumerate() {
        assert!(!system.late(&now));
        // Task 2 is doomed before the last event.
        assert_eq!(system.doomed(&now), place == 4);
        now = system.gives(&now, event).expect("accepted");
        assert_eq!(now, next);
    }
    assert!(system.late(&now));
    assert_eq!(system.late_tasks(&now), [2]);
    assert!(system.doomed(&now), "what is late is doomed");
}

#[test]
fn doomed_in_the_run_drawn_out() {
    let system = plain(PAIR);
    let doomed = state(Mode::Low, &[idle(1), ready(1, 2)]);
    assert_eq!(worst_laxity(&system.tasks()[1], Mode::Low, 1, 2), -1);
    assert_eq!(system.forced_event(&doomed), Ok(9));
    assert_eq!(system.events_to_miss(&doomed), Some(9));
}

#[test]
fn three_easy_misreadings() {
    let system = plain(PAIR);
    // Only ready jobs are doomed.
    assert!(!system.doomed(&system.first()));
    // Only idle waits may be shorter.
    let shown = |one, two| state(Mode::Low, &[one, two]);
    assert!(system.simulates(&shown(idle(1), ready(3, 2)), &shown(idle(2), ready(3, 2))));
    assert!(!system.simulates(&shown(idle(2), ready(3, 2)), &shown(idle(1), ready(3, 2))));
    assert!(!system.simulates(&shown(idle(1), ready(2, 2)), &shown(idle(1), ready(3, 2))));
    // A low job that the mode change drops is not late: it is looked at after step 5.
    let table = "H 9 9 1 2 0\nL 1 1 1 1 0";
    let system = common::system(
        table,
        model::state::Kind::Sporadic,
        model::policy::Policy::Fixed([1, 2, 0, 0, 0, 0, 0, 0]),
    );
    let before = state(Mode::Low, &[ready(9, 1), ready(1, 1)]);
    let after = system.gives(&before, 9).expect("accepted");
    assert_eq!(after, state(Mode::High, &[ready(8, 1), model::state::Job::Dropped]));
    assert!(!system.late(&after));
}

#[test]
fn one_task_is_schedulable() {
    let (outcome, story) = explored(&plain(ONE), 4096, 65_535);
    assert_eq!(outcome, Outcome { answer: Schedulable, nodes: 2, visits: 2 });
    assert!(story.is_none());
}

#[test]
fn the_pair_is_unschedulable() {
    let (outcome, story) = explored(&plain(PAIR), 4096, 65_535);
    assert_eq!(outcome, Outcome { answer: Unschedulable, nodes: 11, visits: 12 });
    let story = story.expect("a story");
    assert_eq!(story.trace, [1, 2, 9, 10]);
    assert_eq!(story.forced, [9]);
    assert_eq!(story.late, [2]);
}

#[test]
fn the_pair_in_little_memory() {
    let at_end = |nodes, visits| explored(&plain(PAIR), nodes, visits).0;
    assert_eq!(at_end(10, 65_535), Outcome { answer: NodesFull, nodes: 10, visits: 11 });
    assert_eq!(at_end(4096, 11), Outcome { answer: VisitsFull, nodes: 11, visits: 11 });
    assert_eq!(at_end(11, 12), Outcome { answer: Unschedulable, nodes: 11, visits: 12 });
    assert_eq!(at_end(0, 65_535), Outcome { answer: NodesFull, nodes: 0, visits: 1 });
    assert_eq!(at_end(4096, 0), Outcome { answer: VisitsFull, nodes: 0, visits: 0 });
    assert_eq!(at_end(0, 0), Outcome { answer: VisitsFull, nodes: 0, visits: 0 });
}

#[test]
fn no_tasks_at_all() {
    let at_end = |nodes, visits| explored(&plain(""), nodes, visits).0;
    assert_eq!(at_end(4096, 65_535), Outcome { answer: Schedulable, nodes: 1, visits: 1 });
    assert_eq!(at_end(1, 1), Outcome { answer: Schedulable, nodes: 1, visits: 1 });
    assert_eq!(at_end(0, 1), Outcome { answer: NodesFull, nodes: 0, visits: 1 });
    assert_eq!(at_end(1, 0), Outcome { answer: VisitsFull, nodes: 0, visits: 0 });
}

#[test]
fn more_memory_than_is_taken() {
    let too_large = Outcome { answer: TooLarge, nodes: 0, visits: 0 };
    assert_eq!(explored(&plain(ONE), 4097, 1).0, too_large);
    assert_eq!(explored(&plain(ONE), 1, 65_536).0, too_large);
    assert_eq!(explored(&plain(ONE), 4096, 65_535).0.answer, Schedulable);
}

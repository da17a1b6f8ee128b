//! Right tasks, states that fit, refusals in their order, policies and layers, and tracing.

mod common;

use common::{idle, number, plain, ready, state, system, PAIR};
use model::explore::Visit;
use model::policy::Policy;
use model::refusal::Refusal;
use model::state::{Job, Kind, Mode};
use model::task::{Criticality, Draft, Task};
use model::trace::trace;

fn task(criticality: Criticality, figures: [u8; 5]) -> Task {
    let [period, deadline, low_budget, high_budget, offset] = figures;
    Task { criticality, period, deadline, low_budget, high_budget, offset }
}

#[test]
fn right_tasks() {
    use Criticality::{High, Low};
    assert!(task(High, [127, 127, 1, 127, 127]).is_right());
    assert!(task(Low, [1, 1, 1, 1, 0]).is_right());
    assert!(!task(High, [128, 3, 2, 3, 0]).is_right());
    assert!(!task(High, [3, 4, 2, 3, 0]).is_right());
    assert!(!task(High, [9, 2, 2, 3, 0]).is_right());
    assert!(!task(High, [9, 9, 4, 3, 0]).is_right());
    assert!(!task(High, [9, 9, 0, 3, 0]).is_right());
    assert!(!task(High, [3, 3, 2, 3, 128]).is_right());
    assert!(!task(Low, [3, 3, 1, 2, 0]).is_right());
}

#[test]
fn a_ninth_task_is_refused_before_it_is_looked_at() {
    let right = task(Criticality::Low, [2, 2, 1, 1, 0]);
    let wrong = Task { period: 1, ..right };
    let mut draft = Draft::new();
    assert_eq!(draft.add(wrong), Err(Refusal::WrongTask));
    for _ in 0..8 {
        assert_eq!(draft.add(right), Ok(()));
    }
    assert_eq!(draft.add(right), Err(Refusal::NinthTask));
    assert_eq!(draft.add(wrong), Err(Refusal::NinthTask));
    assert_eq!(draft.seal().tasks(), [right; 8]);
}

#[test]
fn states_that_fit() {
    let table = "H 3 3 2 3 5\nL 3 3 2 2 0";
    let sporadic = plain(table);
    let periodic = system(table, Kind::Periodic, Policy::Deadline);
    let low = |one, two| state(Mode::Low, &[one, two]);
    let high = |one, two| state(Mode::High, &[one, two]);
    assert!(sporadic.fits(&low(idle(3), ready(3, 2))));
    assert!(!sporadic.fits(&low(idle(4), idle(0))));
    assert!(periodic.fits(&low(idle(5), idle(3))));
    assert!(!periodic.fits(&low(idle(6), idle(0))));
    assert!(!periodic.fits(&low(ready(4, 1), idle(0))));
    assert!(!sporadic.fits(&low(ready(3, 0), idle(0))));
    assert!(!sporadic.fits(&low(ready(3, 3), idle(0))));
    assert!(sporadic.fits(&high(ready(3, 3), Job::Dropped)));
    assert!(!sporadic.fits(&high(ready(3, 3), idle(0))));
    assert!(!sporadic.fits(&high(Job::Dropped, Job::Dropped)));
    assert!(!sporadic.fits(&low(idle(0), Job::Dropped)));
    assert!(!sporadic.fits(&state(Mode::Low, &[idle(0)])));
    assert!(!sporadic.fits(&state(Mode::Low, &[idle(0), idle(0), idle(0)])));
}

#[test]
fn refusals_go_in_their_order() {
    let system = plain(PAIR);
    let low = |one, two| state(Mode::Low, &[one, two]);
    let unfit = low(idle(9), ready(0, 1));
    let late = low(idle(0), ready(0, 1));
    for event in [0, 1, 2, 3, 9, 10, 11, 255] {
        assert_eq!(number(&system, &unfit, event), 17);
        assert_eq!(number(&system, &late, event), 3);
    }
    assert!(!system.late(&unfit) && !system.doomed(&unfit));
    let first = system.first();
    for event in [0, 3, 8, 11, 255] {
        assert_eq!(number(&system, &first, event), 4);
    }
    assert_eq!(number(&system, &first, 9), 0);
    assert_eq!(number(&system, &first, 10), 8);
    assert_eq!(number(&system, &low(ready(3, 2), idle(1)), 1), 6);
    assert_eq!(number(&system, &low(ready(3, 2), idle(1)), 2), 7);
    assert_eq!(number(&system, &state(Mode::High, &[idle(1), Job::Dropped]), 2), 5);
    assert_eq!(system.forced_event(&unfit), Err(Refusal::DoesNotFit));
    assert_eq!(system.forced_event(&late), Err(Refusal::Late));
    assert_eq!(system.forced_event(&first), Err(Refusal::NotDoomed));
}

#[test]
fn time_waits_for_due_tasks() {
    let system = system(PAIR, Kind::Periodic, Policy::Deadline);
    assert_eq!(number(&system, &system.first(), 9), 9);
    assert_eq!(number(&system, &system.first(), 10), 9);
    let one = system.gives(&system.first(), 1).expect("accepted");
    assert_eq!(number(&system, &one, 10), 9);
    let both = system.gives(&one, 2).expect("accepted");
    assert_eq!(number(&system, &both, 10), 0);
}

#[test]
fn the_mode_change() {
    let table = "H 9 9 2 4 0\nH 9 9 1 3 0\nL 9 9 2 2 0\nL 9 9 2 2 0";
    let system = plain(table);
    let before = state(Mode::Low, &[ready(9, 1), ready(9, 1), ready(9, 2), idle(4)]);
    let after = state(Mode::High, &[ready(8, 2), ready(8, 3), Job::Dropped, Job::Dropped]);
    assert_eq!(system.gives(&before, 9), Ok(after));
    let ended = state(Mode::Low, &[idle(8), ready(8, 1), ready(8, 2), idle(3)]);
    assert_eq!(system.gives(&before, 10), Ok(ended));
    let last = state(Mode::High, &[ready(8, 1), idle(0), Job::Dropped, Job::Dropped]);
    let over = state(Mode::High, &[idle(7), idle(0), Job::Dropped, Job::Dropped]);
    assert_eq!(system.gives(&last, 9), Ok(over));
    assert_eq!(number(&system, &over, 2), 0);
}

#[test]
fn picks() {
    // Times to deadline 7, 5, 5; worst laxities 3, 4, 3.
    let table = "H 9 9 2 4 0\nL 9 7 1 1 0\nL 9 7 2 2 0";
    let tasks = plain(table);
    let tasks = tasks.tasks();
    let now = state(Mode::Low, &[ready(7, 2), ready(7, 1), ready(7, 2)]);
    let pick = |policy: &Policy| policy.pick(tasks, &now).map(|index| index + 1);
    let ranks = [9, 9, 200, 0, 0, 0, 0, 0];
    assert_eq!(pick(&Policy::Fixed(ranks)), Some(1));
    assert_eq!(pick(&Policy::Deadline), Some(2));
    assert_eq!(pick(&Policy::Laxity), Some(1));
    assert_eq!(pick(&Policy::HighFirst(Box::new(Policy::Deadline))), Some(1));
    let short = [9, 7, 0, 0, 0, 0, 0, 0];
    let shortened = Policy::Shortened(short, Box::new(Policy::Deadline));
    assert_eq!(pick(&shortened), Some(3));
    // The layers may stand in either order.
    assert_eq!(pick(&Policy::HighFirst(Box::new(shortened))), Some(1));
    let other = Policy::HighFirst(Box::new(Policy::Deadline));
    assert_eq!(pick(&Policy::Shortened(short, Box::new(other))), Some(1));
    // In high mode both layers are as if they were not there.
    let high = state(Mode::High, &[ready(7, 2), Job::Dropped, Job::Dropped]);
    assert_eq!(Policy::Shortened([0; 8], Box::new(Policy::Deadline)).pick(tasks, &high), Some(0));
    let none = state(Mode::Low, &[idle(0), idle(1), idle(2)]);
    assert_eq!(Policy::Deadline.pick(tasks, &none), None);
}

#[test]
fn tracing() {
    let visits: Vec<Visit> = [(0, 0), (1, 2), (2, 10), (4, 1), (2, 11), (0, 3), (7, 1)]
        .map(|(parent, event)| Visit { parent, event })
        .to_vec();
    let mut list = [77; 4];
    for (from, refusal) in [
        (0, Refusal::NoSuchVisit),
        (8, Refusal::NoSuchVisit),
        (4, Refusal::BrokenChain),
        (5, Refusal::BrokenChain),
        (6, Refusal::BrokenChain),
        (7, Refusal::BrokenChain),
    ] {
        assert_eq!(trace(&visits, from, &mut list), Err(refusal));
    }
    assert_eq!(trace(&visits, 3, &mut list[..1]), Err(Refusal::ListTooShort));
    assert_eq!(trace(&visits, 5, &mut list[..0]), Err(Refusal::BrokenChain));
    assert_eq!(list, [77; 4]);
    assert_eq!(trace(&visits, 1, &mut list), Ok(0));
    assert_eq!(trace(&visits, 3, &mut list), Ok(2));
    assert_eq!(list, [2, 10, 77, 77]);
}

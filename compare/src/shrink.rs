//! Making a case smaller while it still shows a difference.

use std::time::{Duration, Instant};

use crate::case::{Ask, Case};
use crate::file::number;

/// Tries simpler cases until none of them differs, or until the time is over.
pub fn shrink(mut case: Case, time: Duration, differs: impl Fn(&Case) -> bool) -> Case {
    let started = Instant::now();
    'smaller: loop {
        for simpler in simpler(&case) {
            if started.elapsed() > time {
                return case;
            }
            if differs(&simpler) {
                case = simpler;
                continue 'smaller;
            }
        }
        return case;
    }
}

/// Cases that are a step simpler, the largest steps first.
fn simpler(case: &Case) -> Vec<Case> {
    let mut found = Vec::new();
    without_events(case, &mut found);
    for place in 0..case.rows.len() {
        changed(case, &mut found, |case| without_row(case, place));
        changed(case, &mut found, |case| drop(case.rows.remove(place)));
    }
    without_options(case, &mut found);
    for place in 0..case.rows.len() {
        if case.rows[place].style != 0 {
            changed(case, &mut found, |case| case.rows[place].style = 0);
        }
    }
    smaller_numbers(case, &mut found);
    found
}

fn changed(case: &Case, found: &mut Vec<Case>, change: impl FnOnce(&mut Case)) {
    let mut simpler = case.clone();
    change(&mut simpler);
    found.push(simpler);
}

/// Leaves out a row and its releases; the tasks behind it get other numbers.
fn without_row(case: &mut Case, place: usize) {
    case.rows.remove(place);
    if let Ask::Run { events } = &mut case.ask {
        let number = place as u8 + 1;
        events.retain(|&event| event != number);
        for event in events.iter_mut().filter(|event| (number..=8).contains(event)) {
            *event -= 1;
        }
    }
}

/// Leaves out events: halves, quarters and so on to single ones, from the end.
fn without_events(case: &Case, found: &mut Vec<Case>) {
    let Ask::Run { events } = &case.ask else { return };
    let mut size = events.len();
    while size > 0 {
        let mut end = events.len();
        while end > 0 {
            let start = end.saturating_sub(size);
            let mut fewer = events.clone();
            fewer.drain(start..end);
            changed(case, found, |case| case.ask = Ask::Run { events: fewer });
            end = start;
        }
        size /= 2;
    }
}

fn without_options(case: &Case, found: &mut Vec<Case>) {
    let mut attempt = |given: bool, change: fn(&mut Case)| {
        if given {
            changed(case, found, change);
        }
    };
    attempt(!case.before.is_empty(), |case| case.before.clear());
    attempt(!case.behind.is_empty(), |case| case.behind.clear());
    attempt(case.turn != 0, |case| case.turn = 0);
    attempt(case.kind.is_some(), |case| case.kind = None);
    attempt(case.ranks, |case| case.ranks = false);
    attempt(case.order.is_some() && !case.ranks, |case| case.order = None);
    attempt(case.high_first, |case| case.high_first = false);
    attempt(case.shorten, |case| case.shorten = false);
    if let Ask::Check { nodes, visits, require_schedulable } = case.ask {
        if nodes.is_some() {
            let ask = Ask::Check { nodes: None, visits, require_schedulable };
            changed(case, found, |case| case.ask = ask);
        }
        if visits.is_some() {
            let ask = Ask::Check { nodes, visits: None, require_schedulable };
            changed(case, found, |case| case.ask = ask);
        }
        if require_schedulable {
            let ask = Ask::Check { nodes, visits, require_schedulable: false };
            changed(case, found, |case| case.ask = ask);
        }
    }
}

fn smaller_numbers(case: &Case, found: &mut Vec<Case>) {
    for place in 0..case.rows.len() {
        let words = &case.rows[place].words;
        for word in 1..words.len() {
            let figure = number(words[word].as_bytes(), 255);
            for less in smaller(figure.unwrap_or(0)) {
                changed(case, found, |case| case.rows[place].words[word] = less.to_string());
                // Neighbours that are equal may have to stay so: period and deadline, budgets.
                if words.get(word + 1) == Some(&words[word]) {
                    changed(case, found, |case| {
                        case.rows[place].words[word..word + 2].fill(less.to_string());
                    });
                }
            }
        }
        if case.ranks {
            for less in smaller(case.rows[place].rank.into()) {
                changed(case, found, |case| case.rows[place].rank = less as u8);
            }
        }
        if case.shorten {
            for less in smaller(case.rows[place].short.into()) {
                changed(case, found, |case| case.rows[place].short = less as u8);
            }
        }
    }
    match &case.ask {
        Ask::Run { events } => {
            for (place, &event) in events.iter().enumerate() {
                for less in smaller(event.into()) {
                    let mut events = events.clone();
                    events[place] = less as u8;
                    changed(case, found, |case| case.ask = Ask::Run { events });
                }
            }
        }
        &Ask::Check { nodes, visits, require_schedulable } => {
            for less in nodes.into_iter().flat_map(smaller) {
                let ask = Ask::Check { nodes: Some(less), visits, require_schedulable };
                changed(case, found, |case| case.ask = ask);
            }
            for less in visits.into_iter().flat_map(smaller) {
                let ask = Ask::Check { nodes, visits: Some(less), require_schedulable };
                changed(case, found, |case| case.ask = ask);
            }
        }
    }
}

/// Numbers below this one, from 0 and then by ever smaller steps.
fn smaller(value: u32) -> impl Iterator<Item = u32> {
    let steps = std::iter::successors(Some(value), |step| Some(step / 2).filter(|&step| step > 0));
    steps.filter(|&step| step > 0).map(move |step| value - step)
}

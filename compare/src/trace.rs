//! Tracing: the events that led to a visit.

use crate::explore::Visit;
use crate::refusal::Refusal;

/// Writes the events that led to the visit of that number to the front of the list, the first
/// event first, and returns how many they are. The rest of the list stays as it was.
pub fn trace(visits: &[Visit], number: usize, list: &mut [u8]) -> Result<usize, Refusal> {
    if number == 0 || number > visits.len() {
        return Err(Refusal::NoSuchVisit);
    }
    let count = chain_length(visits, number)?;
    let list = list.get_mut(..count).ok_or(Refusal::ListTooShort)?;
    let mut at = number;
    for place in list.iter_mut().rev() {
        let visit = visits[at - 1];
        *place = visit.event;
        at = usize::from(visit.parent);
    }
    Ok(count)
}

/// How many events lead from the start to the visit, if its chain is not broken.
fn chain_length(visits: &[Visit], number: usize) -> Result<usize, Refusal> {
    let mut count = 0;
    let mut at = number;
    loop {
        let visit = visits[at - 1];
        let parent = usize::from(visit.parent);
        if parent >= at {
            return Err(Refusal::BrokenChain);
        }
        if parent == 0 {
            return if visit.event == 0 { Ok(count) } else { Err(Refusal::BrokenChain) };
        }
        if !(1..=10).contains(&visit.event) {
            return Err(Refusal::BrokenChain);
        }
        count += 1;
        at = parent;
    }
}

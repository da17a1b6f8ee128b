//! The words of the command line, and what they ask for.

use crate::explore::{MAX_NODES, MAX_VISITS};
use crate::file::number;
use crate::state::Kind;

/// The most that `--nodes` and `--visits` take.
const MOST_LENT: u32 = 1_000_000;

#[derive(Clone, Copy, Debug, PartialEq, Eq)]
pub enum Order {
    Fixed,
    Deadline,
    Laxity,
}

#[derive(Clone, Copy, Debug, PartialEq, Eq)]
pub enum Command {
    Check,
    Run,
    Help,
}

#[derive(Clone, Debug)]
pub struct Request {
    pub command: Command,
    pub file: Option<String>,
    pub kind: Kind,
    pub order: Order,
    pub ranks: Option<Vec<u8>>,
    pub high_first: bool,
    pub shorten: Option<Vec<u8>>,
    pub events: Option<Vec<u8>>,
    pub nodes: usize,
    pub visits: usize,
    pub require_schedulable: bool,
    pub porcelain: bool,
}

/// Decimal numbers from 0 to 255 with commas between them; the empty word is the empty list.
pub fn list(word: &str) -> Option<Vec<u8>> {
    if word.is_empty() {
        return Some(Vec::new());
    }
    word.split(',').map(|part| number(part.as_bytes(), 255).map(|value| value as u8)).collect()
}

/// Reads the words behind the program's name.
pub fn read(words: &[String]) -> Result<Request, String> {
    let (command, rest) = match words {
        [] => (Command::Help, words),
        [first, rest @ ..] => match first.as_str() {
            "check" => (Command::Check, rest),
            "run" => (Command::Run, rest),
            "help" => (Command::Help, rest),
            other => return Err(format!("no such command: {other}")),
        },
    };
    let mut request = Request {
        command,
        file: None,
        kind: Kind::Sporadic,
        order: Order::Deadline,
        ranks: None,
        high_first: false,
        shorten: None,
        events: None,
        nodes: MAX_NODES,
        visits: MAX_VISITS,
        require_schedulable: false,
        porcelain: false,
    };
    let mut rest = rest.iter();
    while let Some(word) = rest.next() {
        if word.starts_with('-') && word.len() > 1 {
            read_option(&mut request, word, &mut rest)?;
        } else if request.file.replace(word.clone()).is_some() {
            return Err(format!("a second file: {word}"));
        }
    }
    if request.ranks.is_some() && request.order != Order::Fixed {
        return Err("--ranks without --policy fixed".into());
    }
    if command == Command::Run && request.events.is_none() {
        return Err("run without --events".into());
    }
    Ok(request)
}

fn read_option<'a>(
    request: &mut Request,
    option: &str,
    rest: &mut impl Iterator<Item = &'a String>,
) -> Result<(), String> {
    let only_of = match option {
        "--events" => Some(Command::Run),
        "--nodes" | "--visits" | "--require-schedulable" => Some(Command::Check),
        _ => None,
    };
    if only_of.is_some_and(|command| command != request.command) {
        return Err(format!("{option} is not of this command"));
    }
    match option {
        "--high-first" => request.high_first = true,
        "--require-schedulable" => request.require_schedulable = true,
        "--porcelain" => request.porcelain = true,
        "--kind" | "--policy" | "--ranks" | "--shorten" | "--events" | "--nodes" | "--visits" => {
            let value = rest.next().ok_or_else(|| format!("{option} without a value"))?;
            read_value(request, option, value)
                .ok_or_else(|| format!("{option} does not take {value:?}"))?;
        }
        other => return Err(format!("no such option: {other}")),
    }
    Ok(())
}

/// Sets the option to its value; none where the value is not understood.
fn read_value(request: &mut Request, option: &str, value: &str) -> Option<()> {
    let lent = || number(value.as_bytes(), MOST_LENT).map(|count| count as usize);
    match option {
        "--kind" => {
            request.kind = match value {
                "sporadic" => Kind::Sporadic,
                "periodic" => Kind::Periodic,
                _ => return None,
            }
        }
        "--policy" => {
            request.order = match value {
                "fixed" => Order::Fixed,
                "deadline" => Order::Deadline,
                "laxity" => Order::Laxity,
                _ => return None,
            }
        }
        "--ranks" => request.ranks = Some(list(value)?),
        "--shorten" => request.shorten = Some(list(value)?),
        "--events" => request.events = Some(list(value)?),
        "--nodes" => request.nodes = lent()?,
        "--visits" => request.visits = lent()?,
        _ => unreachable!("an option with a value"),
    }
    Some(())
}

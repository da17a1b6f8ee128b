//! Words on the command line that count for nothing or are not understood.

use crate::case::{Ask, Case};
use crate::rng::Rng;

/// Options that may stand before all others: what comes behind them counts.
const BEFORE: &[&str] = &["--policy laxity", "--policy fixed", "--kind periodic", "--porcelain"];
const BEFORE_OF_CHECK: &[&str] = &["--nodes 007", "--visits 00000000012", "--nodes 5000"];
const BEFORE_OF_RUN: &[&str] = &["--events 01,9", "--events "];

/// Options that are refused.
const WRONG: &[&str] = &[
    "--kind Sporadic",
    "--kind",
    "--policy edf",
    "--policy fixed --ranks 1,",
    "--policy laxity --ranks 1",
    "--shorten 1,,2",
    "--shorten 256",
    "--shorten 1,2,3,4,5,6,7,8,9",
    "--unknown",
    "--",
    "-x",
];
const WRONG_OF_CHECK: &[&str] =
    &["--nodes 1000001", "--nodes +5", "--nodes ", "--visits -1", "--visits 5x", "--events 1"];
const WRONG_OF_RUN: &[&str] =
    &["--nodes 5", "--visits 5", "--require-schedulable", "--events 256", "--events 1,-2"];

/// Adds some of them to a few cases.
pub fn add_odd_words(rng: &mut Rng, case: &mut Case) {
    let (before, wrong) = match case.ask {
        Ask::Check { .. } => (BEFORE_OF_CHECK, WRONG_OF_CHECK),
        Ask::Run { .. } => (BEFORE_OF_RUN, WRONG_OF_RUN),
    };
    if rng.chance(6) {
        case.before = said(rng, BEFORE, before);
    }
    if rng.chance(3) {
        case.behind = said(rng, WRONG, wrong);
    }
}

fn said(rng: &mut Rng, common: &[&str], own: &[&str]) -> Vec<String> {
    let list = if rng.chance(50) { common } else { own };
    rng.one_of(list).split(' ').map(String::from).collect()
}

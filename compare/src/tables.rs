//! Random rows of tables, right ones and wrong ones.

use crate::rng::Rng;

/// The six words of a line: criticality, period, deadline, low budget, high budget, offset.
pub type Words = Vec<String>;

/// What the rows of one table have in common.
#[derive(Clone, Copy, Debug)]
pub struct Shape {
    pub tasks: u32,
    /// The shortest and the longest period.
    pub shortest: u32,
    pub longest: u32,
    /// Periods are powers of two, so that a periodic system comes round soon.
    pub doubling: bool,
    /// The load in low mode that is aimed at, in hundredths.
    pub load: u32,
}

impl Shape {
    pub fn random(rng: &mut Rng) -> Shape {
        let tasks = match rng.between(1, 100) {
            1..=2 => 0,
            3..=6 => 1,
            7..=9 => 9,
            10..=27 => 2,
            28..=49 => 3,
            50..=68 => 4,
            69..=80 => 5,
            81..=87 => 6,
            88..=93 => 7,
            _ => 8,
        };
        let longest = if tasks <= 3 {
            rng.one_of(&[3, 4, 6, 8, 12, 20, 40, 127])
        } else {
            rng.one_of(&[4, 6, 8, 10, 12, 16, 24, 127])
        };
        // Many tasks of short periods are seldom in time together.
        let shortest = if rng.chance(50) { longest / 2 } else { 1 };
        Shape { tasks, shortest, longest, doubling: rng.chance(35), load: rng.between(10, 120) }
    }
}

/// A row that is right.
pub fn right_row(rng: &mut Rng, shape: &Shape) -> Words {
    let mut period = rng.between(shape.shortest, shape.longest);
    if shape.doubling {
        period = (period + 1).next_power_of_two() / 2;
    }
    let share = shape.load * rng.between(40, 160) / shape.tasks.max(1);
    let low_budget = (period * share / 10_000).clamp(1, period);
    let high = rng.chance(50);
    let high_budget = if high {
        let extra = if rng.chance(50) { rng.between(0, 1) } else { rng.between(0, low_budget + 1) };
        (low_budget + extra).min(period)
    } else {
        low_budget
    };
    let deadline = if rng.chance(60) { period } else { rng.between(high_budget, period) };
    let offset = match rng.between(1, 100) {
        1..=50 => 0,
        51..=95 => rng.between(0, period),
        _ => rng.between(0, 127),
    };
    let mut words = vec![if high { "H" } else { "L" }.to_string()];
    let figures = [period, deadline, low_budget, high_budget, offset];
    words.extend(figures.map(|figure| figure.to_string()));
    words
}

/// Spoils a row in one of many ways. A few of them leave it right all the same.
pub fn spoil(rng: &mut Rng, words: &mut Words) {
    if words.len() != 6 {
        return; // spoilt already
    }
    let place = rng.between(1, 5) as usize;
    match rng.between(1, 12) {
        1 => drop(words.pop()),
        2 => words.push("0".into()),
        3 => words[0] = rng.one_of(&["M", "h", "l", "HH", "HL", "1", "High"]).into(),
        4 => {
            words[place] = rng
                .one_of(&["256", "+3", "-1", "x", "3.0", "0x3", "1e1", "99999999999999999999", "H"])
                .into();
        }
        // What one figure may be is bounded by the others.
        5 => words[3] = "0".into(),
        6 => words[2] = (figure(words, 1) + 1).to_string(),
        7 => words[4] = (figure(words, 2) + 1).to_string(),
        8 => words[3] = (figure(words, 4) + 1).to_string(),
        9 => words[1] = rng.between(128, 255).to_string(),
        10 => words[5] = rng.between(126, 255).to_string(),
        11 => words[place] = rng.between(0, 255).to_string(),
        _ => {
            let near = figure(words, place) as i64 + i64::from(rng.between(0, 2)) - 1;
            words[place] = near.max(0).to_string();
        }
    }
}

fn figure(words: &Words, place: usize) -> u32 {
    words[place].parse().unwrap_or(0)
}

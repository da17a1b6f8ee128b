//! The comparison: random cases through the model and through the program.

use std::collections::BTreeMap;
use std::io;
use std::sync::atomic::{AtomicU64, Ordering};
use std::sync::Mutex;
use std::thread;
use std::time::{Duration, Instant};

use crate::answer::{reply, Reply};
use crate::case::{Ask, Case};
use crate::child::{self, Output};
use crate::generate::cases;
use crate::rng::Rng;
use crate::shrink::shrink;

/// So many differences are made smaller and shown; the others are only counted.
const SHOWN: u64 = 3;
/// Making one of them smaller takes no longer than this.
const SHRINKING: Duration = Duration::from_secs(60);

#[derive(Clone, Debug)]
pub struct Plan {
    pub program: String,
    pub seed: u64,
    pub tables: u64,
    pub threads: usize,
    /// How long the program may take for one case.
    pub limit: Duration,
}

/// What was compared and found.
#[derive(Default)]
struct Tally {
    /// How many checks had which answer.
    answers: BTreeMap<String, u64>,
    /// How many events of runs had which answer.
    events: BTreeMap<u8, u64>,
    tables: u64,
    runs: u64,
    refused_runs: u64,
    differences: u64,
}

/// Makes the comparison, prints what it finds, and returns how many differences there are.
pub fn compare(plan: &Plan) -> io::Result<u64> {
    println!("seed {}", plan.seed);
    println!("program {}", plan.program);
    // A first call shows that the program can be run at all, and gives a wrapper time to build it.
    let help = child::run(&plan.program, &["help".into()], b"", Duration::from_secs(3600))?;
    let checks = String::from_utf8_lossy(&help.out).contains(" check ");
    if !checks {
        println!("its help names no command 'check': only runs are compared");
    }
    let started = Instant::now();
    let next = AtomicU64::new(0);
    let tally = Mutex::new(Tally::default());
    thread::scope(|scope| {
        let workers: Vec<_> =
            (0..plan.threads).map(|_| scope.spawn(|| work(plan, checks, &next, &tally))).collect();
        workers.into_iter().try_for_each(|worker| worker.join().expect("a worker ends"))
    })?;
    let tally = tally.into_inner().expect("no worker failed");
    tally.print(plan.seed, started.elapsed());
    Ok(tally.differences)
}

/// Takes one table after another until none is left.
fn work(plan: &Plan, checks: bool, next: &AtomicU64, tally: &Mutex<Tally>) -> io::Result<()> {
    loop {
        let index = next.fetch_add(1, Ordering::Relaxed);
        if index >= plan.tables {
            return Ok(());
        }
        let (check, runs) = cases(&mut Rng::of_case(plan.seed, index));
        tally.lock().expect("no worker failed").tables += 1;
        for case in checks.then_some(&check).into_iter().chain(&runs) {
            let expected = reply(&case.words(), &case.table());
            let found = look(plan, case)?;
            let differs = differ(&expected, &found);
            let mut tally = tally.lock().expect("no worker failed");
            tally.count(case, &expected);
            if differs {
                tally.differences += 1;
                if tally.differences <= SHOWN {
                    // The others wait meanwhile, so that nothing is printed in between.
                    show(plan, index, case);
                }
            }
        }
    }
}

fn look(plan: &Plan, case: &Case) -> io::Result<Output> {
    child::run(&plan.program, &case.words(), &case.table(), plan.limit)
}

/// Whether the program did anything else than the model says. Where something is not understood
/// or has a fault, messages must begin with the program's name; their wording is free.
fn differ(expected: &Reply, found: &Output) -> bool {
    found.status != Some(expected.status)
        || found.out != expected.out.as_bytes()
        || !expected.faults.is_empty() && !found.messages.starts_with(b"pethongu:")
}

fn show(plan: &Plan, index: u64, case: &Case) {
    let differs = |case: &Case| {
        look(plan, case).is_ok_and(|found| differ(&reply(&case.words(), &case.table()), &found))
    };
    let small = shrink(case.clone(), SHRINKING, differs);
    println!("\nA difference at table {index}, made smaller:");
    println!("  {}", small.command(&plan.program));
    let expected = reply(&small.words(), &small.table());
    println!("  the model: status {}", expected.status);
    indented(expected.out.as_bytes());
    match look(plan, &small) {
        Ok(Output { took_too_long: true, .. }) => {
            println!("  the program: no end in {:?}", plan.limit)
        }
        Ok(found) => {
            match found.status {
                Some(status) => println!("  the program: status {status}"),
                None => println!("  the program: ended by a signal"),
            }
            indented(&found.out);
            if !found.messages.is_empty() {
                println!("  and on standard error:");
                indented(&found.messages);
            }
        }
        Err(error) => println!("  the program: {error}"),
    }
    println!("  before it was made smaller: {}\n", case.command(&plan.program));
}

fn indented(bytes: &[u8]) {
    for line in String::from_utf8_lossy(bytes).lines() {
        println!("    {line}");
    }
}

impl Tally {
    fn count(&mut self, case: &Case, expected: &Reply) {
        let fault = !expected.faults.is_empty();
        match case.ask {
            Ask::Check { .. } => {
                let answer = expected.outcome.map_or("refused", |outcome| outcome.answer.word());
                *self.answers.entry(answer.into()).or_default() += 1;
            }
            Ask::Run { .. } if fault => self.refused_runs += 1,
            Ask::Run { .. } => {
                self.runs += 1;
                // The first line is that of the first state.
                for line in expected.out.lines().skip(1) {
                    let answer = line.split(' ').nth(3).and_then(|word| word.parse().ok());
                    *self.events.entry(answer.expect("an answer")).or_default() += 1;
                }
            }
        }
    }

    fn print(&self, seed: u64, took: Duration) {
        let listed = |counts: Vec<String>| counts.join(", ");
        println!("seed {seed}");
        println!("tables compared {}", self.tables);
        if !self.answers.is_empty() {
            println!(
                "  answers: {}",
                listed(self.answers.iter().map(|(word, n)| format!("{word}: {n}")).collect())
            );
        }
        println!("run events compared {}", self.events.values().sum::<u64>());
        println!("  in {} runs, and {} runs that are refused", self.runs, self.refused_runs);
        println!(
            "  answers: {}",
            listed(self.events.iter().map(|(word, count)| format!("{word}: {count}")).collect())
        );
        println!("seconds {:.1}", took.as_secs_f64());
        println!("differences {}", self.differences);
    }
}

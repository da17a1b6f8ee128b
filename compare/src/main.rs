//! Compares the program `pethongu` with the model, or measures how fast the model explores.

use std::process::ExitCode;
use std::time::{Duration, SystemTime, UNIX_EPOCH};

use model::bench::bench;
use model::compare::{compare, Plan};

const USAGE: &str = "\
compare PROGRAM [--seed N] [--tables N] [--threads N] [--limit SECONDS]
compare bench [--seed N]
";

fn main() -> ExitCode {
    let words: Vec<String> = std::env::args().skip(1).collect();
    match read(&words) {
        Ok(plan) if plan.program == "bench" => {
            bench(plan.seed);
            ExitCode::SUCCESS
        }
        Ok(plan) => match compare(&plan) {
            Ok(0) => ExitCode::SUCCESS,
            Ok(_) => ExitCode::from(1),
            Err(error) => {
                eprintln!("compare: {}: {error}", plan.program);
                ExitCode::from(2)
            }
        },
        Err(fault) => {
            eprint!("compare: {fault}\n{USAGE}");
            ExitCode::from(2)
        }
    }
}

fn read(words: &[String]) -> Result<Plan, String> {
    let (program, options) = words.split_first().ok_or("a word is missing")?;
    let mut plan = Plan {
        program: program.clone(),
        seed: seed_of_now(),
        tables: 2500,
        threads: 2,
        limit: Duration::from_secs(20),
    };
    for option in options.chunks(2) {
        let [name, value] = option else { return Err(format!("{} without a value", option[0])) };
        let number: u64 = value.parse().map_err(|_| format!("{value} is no number"))?;
        match name.as_str() {
            "--seed" => plan.seed = number,
            "--tables" if program != "bench" => plan.tables = number,
            "--threads" if program != "bench" => plan.threads = number.clamp(1, 64) as usize,
            "--limit" if program != "bench" => plan.limit = Duration::from_secs(number),
            other => return Err(format!("no such option: {other}")),
        }
    }
    Ok(plan)
}

/// Another seed each time.
fn seed_of_now() -> u64 {
    SystemTime::now().duration_since(UNIX_EPOCH).map_or(1, |time| time.as_nanos() as u64)
}

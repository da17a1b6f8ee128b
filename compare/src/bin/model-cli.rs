//! The second implementation as a program of its own: `check` and `run` for scripts, so that the
//! comparison can be tried without the proved program.

use std::io::{self, Read, Write};
use std::process::ExitCode;

use model::answer::reply_to;
use model::words::{self, Command};

const USAGE: &str = "\
model-cli check [FILE] --porcelain [OPTION]...
model-cli run [FILE] --events LIST --porcelain [OPTION]...
The options are those of docs/FORMATS.md.
";

fn main() -> ExitCode {
    match answer() {
        Ok(status) => ExitCode::from(status),
        Err(faults) => {
            for fault in faults {
                eprintln!("pethongu: {fault}");
            }
            ExitCode::from(1)
        }
    }
}

fn answer() -> Result<u8, Vec<String>> {
    let arguments: Vec<String> =
        std::env::args_os().skip(1).map(|word| word.to_string_lossy().into_owned()).collect();
    let request = words::read(&arguments).map_err(|fault| vec![fault])?;
    let mut stdout = io::stdout().lock();
    if request.command == Command::Help {
        stdout.write_all(USAGE.as_bytes()).map_err(told)?;
        return Ok(0);
    }
    if !request.porcelain {
        return Err(vec!["only with --porcelain".into()]);
    }
    let mut input = Vec::new();
    match request.file.as_deref() {
        None | Some("-") => io::stdin().lock().read_to_end(&mut input).map(drop),
        Some(path) => std::fs::read(path).map(|bytes| input = bytes),
    }
    .map_err(told)?;
    let reply = reply_to(&request, &input);
    if !reply.faults.is_empty() {
        return Err(reply.faults);
    }
    stdout.write_all(reply.out.as_bytes()).map_err(told)?;
    Ok(reply.status as u8)
}

fn told(error: io::Error) -> Vec<String> {
    vec![error.to_string()]
}

//! Running the program that is compared, with a table on its standard input.

use std::io::{self, Read, Write};
use std::process::{Command, Stdio};
use std::sync::mpsc;
use std::thread;
use std::time::Duration;

/// What the program did.
#[derive(Clone, Debug, PartialEq, Eq)]
pub struct Output {
    /// None where a signal ended the program or where it was stopped because it took too long.
    pub status: Option<i32>,
    pub out: Vec<u8>,
    pub messages: Vec<u8>,
    pub took_too_long: bool,
}

/// Runs the program and waits for its end, but not longer than the limit.
pub fn run(program: &str, words: &[String], input: &[u8], limit: Duration) -> io::Result<Output> {
    let mut child = Command::new(program)
        .args(words)
        .stdin(Stdio::piped())
        .stdout(Stdio::piped())
        .stderr(Stdio::piped())
        .spawn()?;
    // A program that refuses its words need not read its input.
    if let Some(mut stdin) = child.stdin.take() {
        match stdin.write_all(input) {
            Err(error) if error.kind() != io::ErrorKind::BrokenPipe => return Err(error),
            _ => {}
        }
    }
    let out = collect(child.stdout.take());
    let messages = collect(child.stderr.take());
    let both = out.recv_timeout(limit).and_then(|out| Ok((out, messages.recv_timeout(limit)?)));
    let took_too_long = both.is_err();
    if took_too_long {
        child.kill()?;
    }
    let status = child.wait()?.code();
    let (out, messages) = both.unwrap_or_default();
    Ok(Output { status, out, messages, took_too_long })
}

/// Reads a stream to its end beside everything else.
fn collect(stream: Option<impl Read + Send + 'static>) -> mpsc::Receiver<Vec<u8>> {
    let (sender, receiver) = mpsc::channel();
    thread::spawn(move || {
        let mut bytes = Vec::new();
        if let Some(mut stream) = stream {
            // What could be read before a failing is compared all the same.
            let _ = stream.read_to_end(&mut bytes);
        }
        // Nobody listens any more where the program took too long.
        let _ = sender.send(bytes);
    });
    receiver
}

//! One run of a program: standard input in, standard output out, with a time limit.

use std::io::{Read, Write};
use std::os::unix::process::ExitStatusExt;
use std::path::Path;
use std::process::{Child, Command, ExitStatus, Stdio};
use std::sync::mpsc::{channel, Receiver};
use std::sync::{Arc, Mutex, PoisonError};
use std::thread;
use std::time::{Duration, Instant};

/// The longest a run may take.
pub const LIMIT: Duration = Duration::from_secs(60);

/// The most output that is kept of a run; no list asks for so much.
const MOST_OUTPUT: usize = 256 << 20;

/// How a run ended.
#[derive(PartialEq, Eq)]
pub enum Ending {
    Good,
    Status(i32),
    Signal(i32),
    Late,
    NotStarted(String),
}

impl Ending {
    /// The ending in words.
    pub fn words(&self) -> String {
        match self {
            Ending::Good => "ended well".into(),
            Ending::Status(code) => format!("ended with status {code}"),
            Ending::Signal(number) => format!("was killed by signal {number}"),
            Ending::Late => format!("was stopped after {} s", LIMIT.as_secs()),
            Ending::NotStarted(why) => format!("did not start: {why}"),
        }
    }
}

/// What a run gave.
pub struct Run {
    pub ending: Ending,
    pub output: Vec<u8>,
}

/// A run under way; its output grows while the program prints, and `closed` hears of its end.
pub struct Running {
    child: Child,
    output: Arc<Mutex<Vec<u8>>>,
    closed: Receiver<()>,
    until: Instant,
}

/// Starts `program` on `input`. The input goes through a pipe, written by a thread of its own, and
/// another reads the output, so neither side waits for the other whatever their sizes.
pub fn start(program: &Path, input: &Arc<Vec<u8>>) -> Result<Running, Run> {
    let mut command = Command::new(program);
    command.stdin(Stdio::piped()).stdout(Stdio::piped());
    let mut child = command.spawn().map_err(|error| Run {
        ending: Ending::NotStarted(error.to_string()),
        output: Vec::new(),
    })?;
    if let Some(mut pipe) = child.stdin.take() {
        let input = Arc::clone(input);
        // A program may end before it has read all; its output says whether that is right.
        thread::spawn(move || pipe.write_all(&input).is_ok());
    }
    let output = Arc::new(Mutex::new(Vec::new()));
    let (sender, closed) = channel();
    if let Some(pipe) = child.stdout.take() {
        let output = Arc::clone(&output);
        thread::spawn(move || {
            collect(pipe, &output);
            sender.send(()).is_ok()
        });
    }
    Ok(Running {
        child,
        output,
        closed,
        until: Instant::now() + LIMIT,
    })
}

/// Moves what a program prints to `output` until its end, a failure or too much of it.
fn collect(mut pipe: impl Read, output: &Mutex<Vec<u8>>) {
    let mut part = vec![0; 1 << 16];
    while let Ok(count @ 1..) = pipe.read(&mut part) {
        let mut output = output.lock().unwrap_or_else(PoisonError::into_inner);
        if output.len() + count > MOST_OUTPUT {
            return;
        }
        output.extend_from_slice(&part[..count]);
    }
}

/// Waits for the end of a run, or ends it when its time is over.
pub fn finish(started: Result<Running, Run>) -> Run {
    let mut running = match started {
        Ok(running) => running,
        Err(run) => return run,
    };
    let left = running.until.saturating_duration_since(Instant::now());
    let ending = match running.closed.recv_timeout(left) {
        Ok(()) => wait(&mut running),
        Err(_) => stop(&mut running),
    };
    let mut output = running
        .output
        .lock()
        .unwrap_or_else(PoisonError::into_inner);
    Run {
        ending,
        output: std::mem::take(&mut output),
    }
}

/// Waits for a program that has closed its output.
fn wait(running: &mut Running) -> Ending {
    loop {
        match running.child.try_wait() {
            Ok(Some(status)) => return ending(status),
            Ok(None) if Instant::now() < running.until => {
                thread::sleep(Duration::from_micros(50));
            }
            _ => return stop(running),
        }
    }
}

fn stop(running: &mut Running) -> Ending {
    // Both fail only if the program has ended by itself meanwhile.
    let _ = running.child.kill();
    let _ = running.child.wait();
    Ending::Late
}

fn ending(status: ExitStatus) -> Ending {
    match (status.code(), status.signal()) {
        (Some(0), _) => Ending::Good,
        (Some(code), _) => Ending::Status(code),
        (None, signal) => Ending::Signal(signal.unwrap_or(0)),
    }
}

#[cfg(test)]
mod tests {
    use super::{finish, start, Ending};
    use std::path::Path;
    use std::sync::Arc;

    #[test]
    fn passes_megabytes_through_without_waiting() {
        let input = Arc::new(vec![b'x'; 4 << 20]);
        let run = finish(start(Path::new("/bin/cat"), &input));
        assert!(run.ending == Ending::Good && run.output == *input);
    }

    #[test]
    fn sees_a_status_and_a_missing_program() {
        let input = Arc::new(vec![b'x'; 4 << 20]);
        let run = finish(start(Path::new("/bin/false"), &input));
        assert!(run.ending == Ending::Status(1) && run.output.is_empty());
        let run = finish(start(Path::new("/bin/there-is-none"), &input));
        assert!(matches!(run.ending, Ending::NotStarted(_)));
    }
}

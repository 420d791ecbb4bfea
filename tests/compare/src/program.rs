//! Runs a trace program on a trace.

use crate::random::Random;
use std::io::{Read, Write};
use std::path::Path;
use std::process::{Child, ChildStdin, Command, Stdio};
use std::sync::mpsc;
use std::thread;
use std::time::Duration;

/// How long a program may take for one trace.
const PATIENCE: Duration = Duration::from_secs(120);

/// How the trace goes down the pipe.
#[derive(Clone, Copy)]
pub enum Pipe {
    /// All at once.
    Whole,
    /// In parts split at random places, with pauses.
    Slow { seed: u64 },
}

/// Writes the trace; a program that reads no further is judged by its output.
fn feed(mut input: ChildStdin, trace: &[u8], pipe: Pipe) {
    let mut random = match pipe {
        Pipe::Slow { seed } => Random::new(seed),
        Pipe::Whole => {
            let _ = input.write_all(trace);
            return;
        }
    };
    let mut rest = trace;
    let longest = random.pick(&[3, 100, 5_000]).max(trace.len() / 500);
    while !rest.is_empty() {
        let (part, after) = rest.split_at(random.from(1, longest).min(rest.len()));
        if input.write_all(part).is_err() {
            return;
        }
        if random.once_in(20) {
            thread::sleep(Duration::from_millis(1));
        }
        rest = after;
    }
}

/// The output, once the program has closed it.
fn collect(child: &mut Child) -> Result<Vec<u8>, String> {
    let mut source = child.stdout.take().expect("the output is a pipe");
    let (done, output) = mpsc::channel();
    thread::spawn(move || {
        let mut bytes = Vec::new();
        let read = source.read_to_end(&mut bytes);
        done.send(read.map(|_| bytes))
    });
    match output.recv_timeout(PATIENCE) {
        Ok(read) => read.map_err(|error| format!("its output cannot be read: {error}")),
        Err(_) => {
            let _ = child.kill();
            Err(format!("it does not end within {} s", PATIENCE.as_secs()))
        }
    }
}

/// A command: the path of a program, else a program and its words, with lines or spaces between.
pub fn command(words: &str) -> Command {
    let between = if words.contains('\n') { '\n' } else { ' ' };
    if Path::new(words).is_file() {
        return Command::new(words);
    }
    let mut words = words.split(between).filter(|word| !word.is_empty());
    let mut command = Command::new(words.next().unwrap_or_default());
    command.args(words);
    command
}

/// The output for the trace of the program that a command runs, or why there is none.
pub fn run(program: &str, trace: Vec<u8>, pipe: Pipe) -> Result<Vec<u8>, String> {
    let mut command = command(program);
    let piped = command.stdin(Stdio::piped()).stdout(Stdio::piped());
    let mut child = piped.spawn().map_err(|error| format!("it cannot be run: {error}"))?;
    let input = child.stdin.take().expect("the input is a pipe");
    let feeder = thread::spawn(move || feed(input, &trace, pipe));
    let output = collect(&mut child);
    let status = child.wait().map_err(|error| format!("it cannot be waited for: {error}"))?;
    feeder.join().map_err(|_| "the trace cannot be written".to_string())?;
    let output = output?;
    if status.success() {
        Ok(output)
    } else {
        Err(format!("it ends with {status}"))
    }
}

//! The program that serves the C functions, tests/doors/door.c, asked and answered by pipes.

use compare::program::command;
use std::collections::VecDeque;
use std::io::{self, BufReader, Read, Write};
use std::process::{Child, ChildStdin, ChildStdout, Stdio};
use std::sync::mpsc::{channel, Receiver, Sender};
use std::thread;

/// Requests are handed on when there are so many of them, or so many bytes.
const BATCH: usize = 128;
const BYTES: usize = 1 << 20;

/// Reads an answer and gives an account of the difference if there is one.
pub type Judgement = Box<dyn FnOnce(&mut dyn Read) -> io::Result<Option<String>>>;

/// Up to two batches of requests are under way; they are answered in their order.
pub struct Door {
    program: Child,
    batches: Sender<Vec<u8>>,
    batch: Vec<u8>,
    batched: usize,
    answers: BufReader<ChildStdout>,
    waiting: VecDeque<Judgement>,
}

/// Writes each batch; a program that reads no further is judged by its answers.
fn feed(mut input: ChildStdin, batches: Receiver<Vec<u8>>) {
    for batch in batches {
        if input.write_all(&batch).is_err() {
            return;
        }
    }
}

impl Door {
    /// Runs the command, a program and its words.
    pub fn open(words: &str) -> Result<Door, String> {
        let mut command = command(words);
        let piped = command.stdin(Stdio::piped()).stdout(Stdio::piped());
        let mut program =
            piped.spawn().map_err(|error| format!("fault: {words} cannot be run: {error}"))?;
        let input = program.stdin.take().expect("the input is a pipe");
        let output = program.stdout.take().expect("the output is a pipe");
        let (batches, fed) = channel();
        thread::spawn(move || feed(input, fed));
        let answers = BufReader::with_capacity(1 << 16, output);
        let waiting = VecDeque::new();
        Ok(Door { program, batches, batch: Vec::new(), batched: 0, answers, waiting })
    }

    /// Makes a request, whose answer is judged later; an account of an earlier difference.
    pub fn ask(&mut self, request: Vec<u8>, judgement: Judgement) -> Result<(), String> {
        self.batch.extend(request);
        self.batched += 1;
        self.waiting.push_back(judgement);
        if self.batched < BATCH && self.batch.len() < BYTES {
            return Ok(());
        }
        self.hear(self.batched)
    }

    /// Judges all that has been asked.
    pub fn settle(&mut self) -> Result<(), String> {
        self.hear(0)
    }

    /// Hands on the batch and judges answers until only so many are awaited.
    fn hear(&mut self, awaited: usize) -> Result<(), String> {
        // A door that has ended takes no more, and its answers say so.
        let _ = self.batches.send(std::mem::take(&mut self.batch));
        self.batched = 0;
        for _ in awaited..self.waiting.len() {
            let judgement = self.waiting.pop_front().expect("more are awaited");
            match judgement(&mut self.answers) {
                Ok(None) => {}
                Ok(Some(account)) => return Err(account),
                Err(error) => return Err(self.fault(error)),
            }
        }
        Ok(())
    }

    /// An account of a program that has ended before its last answer.
    fn fault(&mut self, error: io::Error) -> String {
        let more = self.waiting.len();
        match self.program.wait() {
            Ok(status) => format!(
                "fault: the door ends with {status}, at this request or one of {more} more\n  {error}"
            ),
            Err(why) => format!("fault: the door cannot be waited for: {why}\n  {error}"),
        }
    }

    /// Lets the program end; why it does not end well, if so.
    pub fn close(self) -> Result<(), String> {
        let Door { mut program, batches, answers, .. } = self;
        drop(batches);
        let more = answers.bytes().count();
        match program.wait() {
            Ok(status) if status.success() && more == 0 => Ok(()),
            Ok(status) => Err(format!("fault: the door ends with {status}, {more} bytes unasked")),
            Err(error) => Err(format!("fault: the door cannot be waited for: {error}")),
        }
    }
}

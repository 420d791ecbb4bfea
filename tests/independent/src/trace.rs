//! The trace: its output, and a trace lent in memory.

use crate::commands::{Accepted, Seen};
use crate::line::{read, Command};
use crate::pieces::Pieces;
use crate::tables::{Refusal, CAPACITY, DRAFT, FROZEN, LENT, NONE};

/// A piece number, or `-` for none.
fn or_dash(p: u16) -> String {
    if p == NONE {
        "-".to_string()
    } else {
        p.to_string()
    }
}

/// The output of an answer: refusal number, value or `-`, number freed, the freed numbers.
fn told(answer: Result<Accepted, Refusal>) -> String {
    match answer {
        Err(refusal) => format!("{} - 0", refusal as u8),
        Ok(Accepted { value, freed }) => {
            let head = format!("0 {} {}", or_dash(value), freed.len());
            freed.iter().fold(head, |line, p| line + " " + &p.to_string())
        }
    }
}

/// The output of a look: `0`, state, leader or `-`, count, holds if accepted.
fn told_look(answer: Result<Seen, Refusal>) -> String {
    match answer {
        Err(refusal) => told(Err(refusal)),
        Ok(Seen { state, leader, count, holds }) => {
            format!("0 {state} {} {count} {holds}", or_dash(leader))
        }
    }
}

/// The output of one line, without its end.
pub fn answer(pieces: &mut Pieces, line: &[u8]) -> String {
    match read(line) {
        None => "x".to_string(),
        Some(Command::New) => told(pieces.new_draft()),
        Some(Command::Set(p, k, t)) => told(pieces.set(p, k, t)),
        Some(Command::Freeze(p, seat)) => told(pieces.freeze(p, seat)),
        Some(Command::Acquire(p, seat)) => told(pieces.acquire(p, seat)),
        Some(Command::Release(p, seat)) => told(pieces.release(p, seat)),
        Some(Command::Bin(p)) => told(pieces.bin(p)),
        Some(Command::Look(p)) => told_look(pieces.look(p)),
    }
}

/// The last line of the output: `=`, drafts, frozen pieces, groups.
pub fn end(pieces: &Pieces) -> String {
    let in_state = |state| pieces.in_state(state).count();
    format!("= {} {} {}", in_state(DRAFT), in_state(FROZEN), pieces.groups().len())
}

/// The lines of a trace; a last line without byte 10 counts if it has a byte.
pub fn lines(trace: &[u8]) -> impl Iterator<Item = &[u8]> {
    trace
        .split_inclusive(|&byte| byte == b'\n')
        .map(|line| line.strip_suffix(b"\n").unwrap_or(line))
}

/// The whole output of a trace, from an empty store at capacity 1,024.
pub fn run(trace: &[u8]) -> Vec<u8> {
    let mut pieces = Pieces::empty(CAPACITY);
    let mut output = Vec::new();
    for line in lines(trace) {
        output.extend(answer(&mut pieces, line).bytes());
        output.push(b'\n');
    }
    output.extend(end(&pieces).bytes());
    output.push(b'\n');
    output
}

/// The result of a lent trace: the output's length, or 2^63 and the refusal.
pub fn lent(trace: &[u8], room: &mut [u8]) -> u64 {
    if trace.len() > LENT {
        return (1 << 63) + Refusal::Long as u64;
    }
    let output = run(trace);
    room.fill(0);
    if output.len() > room.len() {
        return (1 << 63) + Refusal::Room as u64;
    }
    room[..output.len()].copy_from_slice(&output);
    output.len() as u64
}

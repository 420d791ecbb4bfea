//! The lines of a trace: which are bad, and what the others say.

use crate::tables::NONE;

/// The bytes a line may have before its end.
const LINE: usize = 64;

/// A line that is not bad.
#[derive(Clone, Copy, Debug, PartialEq, Eq)]
pub enum Command {
    New,
    Set(u16, u16, u16),
    Freeze(u16, u16),
    Acquire(u16, u16),
    Release(u16, u16),
    Bin(u16),
    Look(u16),
}

/// A number: 1 to 5 decimal digits, at most 65,535.
fn number(word: &[u8]) -> Option<u16> {
    if !(1..=5).contains(&word.len()) || !word.iter().all(u8::is_ascii_digit) {
        return None;
    }
    let value = word.iter().fold(0, |value: u32, digit| 10 * value + u32::from(digit - b'0'));
    u16::try_from(value).ok()
}

/// A target: a number, or `-` for none.
fn target(word: &[u8]) -> Option<u16> {
    if word == b"-" {
        Some(NONE)
    } else {
        number(word)
    }
}

/// The seat that acts where a line names none.
const NO_SEAT: u16 = 0;

/// The command of a line, none if the line is bad.
pub fn read(line: &[u8]) -> Option<Command> {
    if line.len() > LINE {
        return None;
    }
    let words: Vec<&[u8]> = line.split(|&byte| byte == b' ').collect();
    match words[..] {
        [b"n"] => Some(Command::New),
        [b"s", p, k, t] => Some(Command::Set(number(p)?, number(k)?, target(t)?)),
        [b"f", p] => Some(Command::Freeze(number(p)?, NO_SEAT)),
        [b"f", p, seat] => Some(Command::Freeze(number(p)?, number(seat)?)),
        [b"a", p] => Some(Command::Acquire(number(p)?, NO_SEAT)),
        [b"a", p, seat] => Some(Command::Acquire(number(p)?, number(seat)?)),
        [b"r", p] => Some(Command::Release(number(p)?, NO_SEAT)),
        [b"r", p, seat] => Some(Command::Release(number(p)?, number(seat)?)),
        [b"b", p] => Some(Command::Bin(number(p)?)),
        [b"l", p] => Some(Command::Look(number(p)?)),
        _ => None,
    }
}

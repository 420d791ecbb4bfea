//! Lent traces: the C function's result and room against the independent program's.

use crate::call::{head, word};
use crate::guarded::{put, take};
use crate::judge::Judge;
use compare::profiles::{trace, PROFILES};
use compare::random::Random;
use independent::tables::LENT;
use independent::trace::{lent, run};
use std::io::{self, Read};

/// The first difference of the door's answer from the one wanted, in words.
fn difference(
    bytes: &[u8],
    wanted: u64,
    wanted_room: &[u8],
    answer: &mut dyn Read,
) -> io::Result<Option<String>> {
    let got = word(answer)?;
    let input = take(answer, bytes.len())?;
    let room = take(answer, wanted_room.len())?;
    Ok(if wanted != got {
        Some(format!("result: independent {wanted:#x}, door {got:#x}"))
    } else if input.as_deref() != Some(bytes) {
        Some("it changed the trace".to_string())
    } else if room.is_none() {
        Some("it wrote outside the room".to_string())
    } else if room.as_deref() != Some(wanted_room) {
        Some("the rooms differ".to_string())
    } else {
        None
    })
}

/// Lends the trace and a room of the given length to both.
pub fn lend(judge: &mut Judge, bytes: &[u8], length: usize) -> Result<(), String> {
    let mut room = vec![0xee; length];
    let mut asked = head(0, 0, [0; 3]);
    put(&mut asked, bytes);
    put(&mut asked, &room);
    let wanted = lent(bytes, &mut room);
    judge.calls += 1;
    judge.refused[if wanted >> 63 == 1 { (wanted & 0xff) as usize } else { 0 }] += 1;
    let bytes = bytes.to_vec();
    let judgement = move |answer: &mut dyn Read| {
        let text = || bytes[..bytes.len().min(400)].escape_ascii();
        let head = format!("trace of {} bytes, room of {length}", bytes.len());
        match difference(&bytes, wanted, &room, answer) {
            Ok(account) => Ok(account.map(|account| format!("{head}: {account}\n  {}", text()))),
            Err(why) => {
                Err(io::Error::new(io::ErrorKind::Other, format!("{head}: {why}\n  {}", text())))
            }
        }
    };
    judge.door.ask(asked, Box::new(judgement))
}

/// Lends the trace with rooms that are empty, one short, exact, and larger.
fn rooms(judge: &mut Judge, bytes: &[u8]) -> Result<(), String> {
    judge.tables += 1;
    let exact = run(bytes).len();
    for length in [0, 1, exact / 2, exact - 1, exact, exact + 1, exact + 100] {
        lend(judge, bytes, length)?;
    }
    Ok(())
}

/// Traces of every profile, whole and cut off, and traces about 65,536 bytes long.
pub fn traces(random: &mut Random, judge: &mut Judge) -> Result<(), String> {
    rooms(judge, b"")?;
    let mut all = Vec::new();
    for profile in PROFILES {
        let bytes = trace(profile, random.bits());
        rooms(judge, &bytes[..bytes.len().min(random.below(4_096))])?;
        if bytes.len() < LENT {
            rooms(judge, &bytes)?;
            all.extend(bytes);
        }
    }
    let begin = random.below(all.len() - LENT - 2);
    for length in [LENT - 1, LENT, LENT + 1, LENT + 2] {
        rooms(judge, &all[begin..begin + length])?;
    }
    rooms(judge, &vec![b'\n'; LENT])?;
    rooms(judge, &vec![b'\n'; LENT + 1])
}

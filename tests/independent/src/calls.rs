//! The nine calls, over any tables at all.

use crate::commands::{Accepted, Seen};
use crate::pieces::Pieces;
use crate::register::area;
use crate::sound::{leaders_and_counts, sound};
use crate::tables::{Refusal, Store, FREE, NONE};

/// The answer of a call: 0 or its refusal, its value and the number freed.
#[derive(Clone, Copy, Debug, PartialEq, Eq)]
pub struct Answer {
    pub refusal: u8,
    pub value: u16,
    pub freed: u16,
}

/// The answer of look.
#[derive(Clone, Copy, Debug, PartialEq, Eq)]
pub struct Look {
    pub refusal: u8,
    pub seen: Seen,
}

/// The answer of check.
#[derive(Clone, Copy, Debug, PartialEq, Eq)]
pub struct Check {
    pub refusal: u8,
    pub yes: bool,
}

/// The answer of a refused call.
fn refused(refusal: Refusal) -> Answer {
    Answer { refusal: refusal as u8, value: NONE, freed: 0 }
}

/// Writes the pieces, their leaders, holds and counts and the links into drafts to the tables.
fn write(pieces: &Pieces, store: &mut Store) {
    let (leaders, counts) = leaders_and_counts(pieces);
    let holds: Vec<u16> = pieces.holds().iter().map(|&holds| holds as u16).collect();
    store.states.copy_from_slice(&pieces.states);
    store.links.copy_from_slice(&pieces.links.concat());
    store.leaders.copy_from_slice(&leaders);
    store.holds.copy_from_slice(&holds);
    store.counts.copy_from_slice(&counts);
    store.register.copy_from_slice(&area(&pieces.register));
    store.into.copy_from_slice(&pieces.links_into());
}

/// The store's pieces if it has its sizes and is sound; clears the first 8N entries of work.
fn enter(store: &Store, work: &mut [u32]) -> Result<Pieces, Refusal> {
    if !store.sized() || work.len() < 8 * store.n {
        return Err(Refusal::Size);
    }
    work[..8 * store.n].fill(0);
    sound(store).ok_or(Refusal::Unsound)
}

/// One call that takes a list and changes pieces by the command.
fn call<F>(store: &mut Store, list: &mut [u16], work: &mut [u32], command: F) -> Answer
where
    F: FnOnce(&mut Pieces) -> Result<Accepted, Refusal>,
{
    if list.len() < store.n {
        return refused(Refusal::Size);
    }
    let mut pieces = match enter(store, work) {
        Ok(pieces) => pieces,
        Err(refusal) => return refused(refusal),
    };
    match command(&mut pieces) {
        Err(refusal) => refused(refusal),
        Ok(Accepted { value, freed }) => {
            write(&pieces, store);
            list[..freed.len()].copy_from_slice(&freed);
            Answer { refusal: 0, value, freed: freed.len() as u16 }
        }
    }
}

/// Any table contents become the empty store.
pub fn start(store: &mut Store) -> Answer {
    if !store.sized() {
        return refused(Refusal::Size);
    }
    write(&Pieces::empty(store.n), store);
    Answer { refusal: 0, value: NONE, freed: 0 }
}

/// The lowest free number becomes a draft; its number is the value.
pub fn new(store: &mut Store, list: &mut [u16], work: &mut [u32]) -> Answer {
    call(store, list, work, |pieces| pieces.new_draft())
}

/// Draft P's link K becomes T.
pub fn set(
    store: &mut Store,
    list: &mut [u16],
    work: &mut [u32],
    p: u16,
    k: u16,
    t: u16,
) -> Answer {
    call(store, list, work, |pieces| pieces.set(p, k, t))
}

/// P and every draft it reaches become frozen; P gets one hold of the seat's, if frozen P has none.
pub fn freeze(store: &mut Store, list: &mut [u16], work: &mut [u32], p: u16, seat: u16) -> Answer {
    call(store, list, work, |pieces| pieces.freeze(p, seat))
}

/// One hold of the seat's more on frozen P.
pub fn acquire(store: &mut Store, list: &mut [u16], work: &mut [u32], p: u16, seat: u16) -> Answer {
    call(store, list, work, |pieces| pieces.acquire(p, seat))
}

/// One hold of the seat's less on frozen P.
pub fn release(store: &mut Store, list: &mut [u16], work: &mut [u32], p: u16, seat: u16) -> Answer {
    call(store, list, work, |pieces| pieces.release(p, seat))
}

/// Draft P becomes free.
pub fn bin(store: &mut Store, list: &mut [u16], work: &mut [u32], p: u16) -> Answer {
    call(store, list, work, |pieces| pieces.bin(p))
}

/// State, leader, count of its group, holds of P.
pub fn look(store: &Store, work: &mut [u32], p: u16) -> Look {
    match enter(store, work).and_then(|pieces| pieces.look(p)) {
        Ok(seen) => Look { refusal: 0, seen },
        Err(refusal) => {
            let seen = Seen { state: FREE, leader: NONE, count: 0, holds: 0 };
            Look { refusal: refusal as u8, seen }
        }
    }
}

/// Yes exactly if the tables are sound. Of the refusals it gives only SIZE.
pub fn check(store: &Store, work: &mut [u32]) -> Check {
    match enter(store, work) {
        Ok(_) => Check { refusal: 0, yes: true },
        Err(Refusal::Unsound) => Check { refusal: 0, yes: false },
        Err(refusal) => Check { refusal: refusal as u8, yes: false },
    }
}

//! Profiles of refusals, of wrong numbers, and of holds up to their limit.

use super::seats::any_seat;
use super::shapes::{drafts, freeze_and_look, let_go, ring};
use super::steps::step;
use crate::author::Author;
use independent::tables::{CAPACITY, HOLDS, NONE};

/// A number from N on that is not none.
fn too_high(author: &mut Author) -> u16 {
    author.random.pick(&[1_024, 1_025, 4_096, 32_768, 65_534])
}

/// Any number at all, mostly a live or a free piece.
fn any(author: &mut Author) -> u16 {
    match author.random.below(6) {
        0 => too_high(author),
        1 => NONE,
        2 => author.one_free().unwrap_or(0),
        3 => author.one_draft().unwrap_or(0),
        _ => author.one_frozen().unwrap_or(0),
    }
}

/// A set whose piece, place and target may each be wrong: too high, none, or free.
fn wrong_set(author: &mut Author) {
    let p = if author.random.once_in(2) { author.one_draft().unwrap_or(0) } else { any(author) };
    let k = match author.random.below(3) {
        0 => author.random.pick(&[4, 5, 7, 8, 255, 256, 1_024, 65_535]),
        _ => author.place(),
    };
    let t = if author.random.once_in(4) { NONE } else { any(author) };
    author.set(p, k, t);
}

/// A command on any numbers, so that several refusals may apply at once.
fn any_command(author: &mut Author) {
    let p = any(author);
    match author.random.below(8) {
        0..=2 => {
            let (command, seat) = (author.random.pick(&['f', 'a', 'r']), any_seat(author));
            author.by(command, p, seat);
        }
        3 => author.bin(p),
        4 => author.look(p),
        _ => wrong_set(author),
    }
}

/// Any commands around a piece with 1,000 holds of three seats', at last in a full table.
pub fn refusals(author: &mut Author) {
    author.seats = 3;
    let pieces = drafts(author, 6);
    ring(author, &pieces[..3], 0);
    author.freeze(pieces[0]);
    (1..HOLDS).for_each(|_| author.acquire(pieces[0]));
    author.set(pieces[3], 0, pieces[4]);
    for _ in 0..600 {
        match author.random.below(8) {
            0 => author.acquire(pieces[0]),
            1 => author.freeze(pieces[0]),
            2 => {
                let (p, seat) = (author.random.pick(&pieces[..2]), author.random.from(1, 4) as u16);
                author.by('r', p, seat);
            }
            3 => author.bin(pieces[4]),
            4 => step(author, 12),
            _ => any_command(author),
        }
    }
    while author.live() < CAPACITY {
        author.make();
    }
    for _ in 0..100 {
        author.make();
        any_command(author);
    }
}

/// Sets of which piece, place and target are right or wrong, alone and several at once, in a store
/// of a few pieces and at last in a full one.
pub fn wrong_numbers(author: &mut Author) {
    while author.lines < 1_200 {
        step(author, 8);
        wrong_set(author);
    }
    while author.live() < CAPACITY {
        author.make();
    }
    (0..100).for_each(|_| wrong_set(author));
}

/// Holds up to 1,000 and past it on members of one group, by acquire and by freeze.
pub fn holds(author: &mut Author) {
    let size = author.random.from(1, 3);
    let pieces = drafts(author, size);
    ring(author, &pieces, 0);
    freeze_and_look(author, &pieces);
    for &p in &pieces {
        while author.holds(p) < HOLDS.into() {
            if author.random.once_in(3) {
                author.freeze(p)
            } else {
                author.acquire(p)
            }
        }
        author.acquire(p);
        author.freeze(p);
        author.look(p);
    }
    for _ in 0..100 {
        let p = author.random.pick(&pieces);
        if author.random.once_in(2) {
            author.release(p)
        } else {
            author.acquire(p)
        }
    }
    pieces.iter().for_each(|&p| author.look(p));
    if author.random.once_in(2) {
        let_go(author, &pieces);
    }
}

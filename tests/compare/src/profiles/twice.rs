//! Profiles of pieces that are handed in twice: by the same seat, by others, and at the limits.

use super::seats::{any_seat, fill};
use super::shapes::{drafts, few};
use super::steps::{let_all_go, step};
use crate::author::Author;
use independent::tables::{FREE, HOLDS, LINES, SEATS};

/// A seat hands P in, once or a few times.
fn press(author: &mut Author, p: u16, seat: u16) {
    for _ in 0..author.random.pick(&[1, 2, 2, 3]) {
        author.by('f', p, seat);
    }
}

/// One of the seats with a hold on P, or else any.
fn holder(author: &mut Author, p: u16) -> u16 {
    match author.owner(p) {
        Some(seat) => seat,
        None => any_seat(author),
    }
}

/// Hands one of the pieces in, mostly again, and now and then changes who holds it.
fn again(author: &mut Author, pieces: &[u16]) {
    let p = author.random.pick(pieces);
    if author.pieces.states[usize::from(p)] == FREE {
        author.make();
    }
    let (owner, seat) = (holder(author, p), any_seat(author));
    match author.random.below(8) {
        0 | 1 => press(author, p, owner),
        2 | 3 => press(author, p, seat),
        4 => author.by('a', p, seat),
        5 => author.release(p),
        _ => author.look(p),
    }
}

/// Few pieces, alone or in rings, handed in again and again.
pub fn twice(author: &mut Author) {
    author.seats = author.random.pick(&[1, 2, 3, 32]);
    while author.lines < 1_500 {
        let pieces = few(author, 4);
        for _ in 0..author.random.from(10, 60) {
            again(author, &pieces);
        }
        (0..4).for_each(|_| step(author, 8));
    }
    let_all_go(author);
}

/// The same about a piece with 1,000 holds, and then with a full register.
pub fn at_the_limits(author: &mut Author) {
    author.seats = SEATS;
    let pieces = drafts(author, 40);
    let (held, others) = pieces.split_at(32);
    for seat in [7, 8] {
        author.by('f', others[0], seat);
    }
    while author.holds(others[0]) < HOLDS.into() {
        author.by('a', others[0], 7);
    }
    let limited = [others[0], others[0], others[0], others[1]];
    (0..150).for_each(|_| again(author, &limited));
    fill(author, held);
    while author.lines < 3_000 {
        let of = author.random.pick(&[held, others, &limited]);
        again(author, of);
        while author.pieces.register.len() < LINES && !author.random.once_in(4) {
            let (p, seat) = (author.random.pick(held), author.seat());
            author.by('f', p, seat);
        }
    }
}

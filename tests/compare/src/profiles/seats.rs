//! Profiles of many seats: they meet at the same pieces, and fill the register.

use super::shapes::{drafts, few, ring};
use super::steps::{let_all_go, step};
use super::{chains, keepers, loops};
use crate::author::Author;
use independent::tables::{FREE, FROZEN, HOLDS, LINES, SEATS};

/// A seat: mostly one of those that act, else one about the last, or none.
pub fn any_seat(author: &mut Author) -> u16 {
    match author.random.below(8) {
        0 => author.random.pick(&[30, 31, 32, 33, 63, 64, 255, 256, 1_023, 65_535]),
        _ => author.seat(),
    }
}

/// A seat tries to release a hold of another's, or has one of its own.
fn meet(author: &mut Author, pieces: &[u16]) {
    let p = author.random.pick(pieces);
    let seat = any_seat(author);
    match author.random.below(9) {
        0 => author.by('f', p, seat),
        1 | 2 => author.by('a', p, seat),
        3 | 4 => author.by('r', p, seat),
        5 => author.release(p),
        6 => {
            if let Some(line) = author.one_line() {
                author.by('r', line.piece, line.seat);
            }
        }
        7 => author.look(p),
        _ => step(author, 8),
    }
}

/// Seats hand in, take holds on the same few pieces, and try to release each other's.
pub fn many(author: &mut Author) {
    author.seats = author.random.pick(&[2, 3, 5, 32]);
    while author.lines < 1_500 {
        let pieces = few(author, 5);
        for _ in 0..author.random.from(10, 80) {
            meet(author, &pieces);
        }
    }
    let_all_go(author);
}

/// The shapes of another profile, handed in and let go by many seats.
pub fn shapes(author: &mut Author) {
    author.seats = author.random.from(2, SEATS.into()) as u16;
    let write = author.random.pick::<fn(&mut Author)>(&[
        loops::rings,
        loops::dense,
        loops::nested,
        chains::doubly_linked,
        keepers::set_again,
        keepers::drafts_outside,
    ]);
    write(author);
}

/// Seats take a hold on each of 32 pieces, until every line is used.
pub fn fill(author: &mut Author, held: &[u16]) {
    let turn = author.random.below(LINES);
    for i in (0..LINES).map(|i| (5 * i + turn) % LINES) {
        if author.pieces.register.len() < LINES {
            let (p, seat) = (held[i % 32], (i / 32) as u16);
            let frozen = author.pieces.states[usize::from(p)] == FROZEN;
            author.by(if frozen { 'a' } else { 'f' }, p, seat);
        }
    }
}

/// Every line is used, one of them for a piece with 1,000 holds; then lines come and go, and some
/// would be one too many.
pub fn full(author: &mut Author) {
    author.seats = SEATS;
    let pieces = drafts(author, 40);
    let (held, others) = pieces.split_at(32);
    ring(author, &others[..4], 0);
    author.by('f', others[0], 7);
    while author.holds(others[0]) < HOLDS.into() {
        author.by('a', others[0], 7);
    }
    fill(author, held);
    while author.lines < 2_700 {
        let of = if author.random.once_in(3) { held } else { others };
        let p = author.random.pick(of);
        if author.pieces.states[usize::from(p)] == FREE {
            author.make();
        }
        let seat = any_seat(author);
        match author.random.below(9) {
            0..=2 => author.by('a', p, seat),
            3 | 4 => author.by('f', p, seat),
            5 => author.by('r', p, seat),
            6 => author.look(p),
            7 => author.by('a', others[0], seat),
            _ => author.release(p),
        }
        while author.pieces.register.len() < LINES && !author.random.once_in(4) {
            let (p, seat) = (author.random.pick(held), author.seat());
            if author.pieces.line(p.into(), seat).is_none() {
                author.by('a', p, seat);
            }
        }
    }
}

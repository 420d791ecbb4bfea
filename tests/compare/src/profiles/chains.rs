//! Profiles of chains.

use super::shapes::{drafts, freeze_and_look, let_go};
use super::steps::{let_all_go, step};
use crate::author::Author;
use independent::tables::CAPACITY;

/// Chains whose neighbours name each other, frozen at any piece.
pub fn doubly_linked(author: &mut Author) {
    while author.lines < 1_500 {
        let size = author.random.from(2, 40);
        let pieces = drafts(author, size);
        for pair in pieces.windows(2) {
            author.set(pair[0], 0, pair[1]);
            if !author.random.once_in(12) {
                author.set(pair[1], 1, pair[0]);
            }
        }
        freeze_and_look(author, &pieces);
        if !author.random.once_in(3) {
            let_go(author, &pieces);
        }
    }
    let_all_go(author);
}

/// A chain through the whole table, upwards, downwards or both ways, frozen and let go at once.
pub fn long_chain(author: &mut Author) {
    let mut pieces = drafts(author, CAPACITY);
    if author.random.once_in(2) {
        pieces.reverse();
    }
    let both_ways = author.random.once_in(3);
    for pair in pieces.windows(2) {
        author.set(pair[0], 3, pair[1]);
        if both_ways {
            author.set(pair[1], 0, pair[0]);
        }
    }
    author.freeze(pieces[0]);
    author.look(pieces[CAPACITY - 1]);
    author.look(pieces[CAPACITY / 2]);
    author.release(pieces[0]);
    author.look(pieces[0]);
    (0..20).for_each(|_| step(author, 20));
}

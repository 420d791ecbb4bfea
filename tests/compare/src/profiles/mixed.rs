//! Profiles of single steps alone.

use super::steps::{let_all_go, step};
use crate::author::Author;
use independent::tables::CAPACITY;

/// Steps in a store of a few or of many pieces.
pub fn mixed(author: &mut Author) {
    let wanted = author.random.pick(&[3, 5, 8, 20, 100]);
    while author.lines < 1_500 {
        step(author, wanted);
    }
    if author.random.once_in(2) {
        let_all_go(author);
    }
}

/// Fills the table, then frees pieces and makes as many again.
pub fn full(author: &mut Author) {
    while author.live() < CAPACITY {
        if author.random.once_in(4) {
            step(author, 0);
        } else {
            author.make();
        }
    }
    while author.lines < 3_000 {
        author.make();
        for _ in 0..author.random.below(6) {
            step(author, CAPACITY);
        }
        while let (true, Some(p)) = (author.random.below(10) > 1, author.one_held()) {
            author.release(p);
        }
        while author.live() < CAPACITY {
            author.make();
        }
    }
}

//! Single steps, mostly accepted.

use crate::author::Author;
use independent::tables::NONE;

/// A random target: none, the piece itself, or a live piece.
fn target(author: &mut Author, p: u16) -> u16 {
    match author.random.below(8) {
        0 => NONE,
        1 => p,
        _ => author.one_live().unwrap_or(NONE),
    }
}

/// One step on a piece that suits it, none if there is no such piece.
fn try_step(author: &mut Author) -> Option<()> {
    match author.random.below(12) {
        0..=3 => {
            let p = author.one_draft()?;
            let (k, t) = (author.place(), target(author, p));
            author.set(p, k, t);
        }
        4 => author.one_draft().map(|p| author.freeze(p))?,
        5 => author.one_frozen().map(|p| author.freeze(p))?,
        6 => author.one_frozen().map(|p| author.acquire(p))?,
        7 => author.one_held().map(|p| author.release(p))?,
        8 => author.one_frozen().map(|p| author.release(p))?,
        9 => author.one_draft().map(|p| author.bin(p))?,
        _ => author.one_live().map(|p| author.look(p))?,
    }
    Some(())
}

/// One step; a new piece if there are fewer live ones than wanted or none suits.
pub fn step(author: &mut Author, wanted: usize) {
    let few = author.live() < wanted && author.random.once_in(3);
    if few || try_step(author).is_none() {
        author.make();
    }
}

/// Lets everything go: releases all holds, empties and bins all drafts.
pub fn let_all_go(author: &mut Author) {
    while let Some(p) = author.one_held() {
        author.release(p);
    }
    while let Some(p) = author.one_draft() {
        (0..4).for_each(|k| author.set(p, k, NONE));
        author.bin(p);
    }
}

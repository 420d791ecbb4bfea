//! Linked shapes, frozen and let go.

use super::steps::let_all_go;
use crate::author::Author;
use independent::tables::CAPACITY;

/// As many new drafts; the table is let go first if it has no room for them.
pub fn drafts(author: &mut Author, count: usize) -> Vec<u16> {
    if author.live() + count > CAPACITY {
        let_all_go(author);
    }
    (0..count).filter_map(|_| author.make()).collect()
}

/// Links the pieces into a ring by one link place, in random order.
pub fn ring(author: &mut Author, pieces: &[u16], k: u16) {
    let turn = author.random.below(pieces.len());
    for (i, &p) in pieces.iter().enumerate() {
        let next = pieces[(i + 1 + turn) % pieces.len()];
        author.set(p, k, next);
    }
}

/// A few new drafts, at most so many, alone or in a ring.
pub fn few(author: &mut Author, most: usize) -> Vec<u16> {
    let size = author.random.from(1, most);
    let pieces = drafts(author, size);
    if author.random.once_in(2) {
        ring(author, &pieces, 0);
    }
    pieces
}

/// Freezes one of the pieces and looks at some.
pub fn freeze_and_look(author: &mut Author, pieces: &[u16]) {
    let p = author.random.pick(pieces);
    author.freeze(p);
    for _ in 0..3 {
        let q = author.random.pick(pieces);
        author.look(q);
    }
}

/// Moves holds about within the pieces, then releases them all, looking on.
pub fn let_go(author: &mut Author, pieces: &[u16]) {
    for _ in 0..author.random.below(4) {
        let p = author.random.pick(pieces);
        author.acquire(p);
    }
    for &p in pieces {
        let q = author.random.pick(pieces);
        if author.random.once_in(4) {
            author.release(q)
        } else {
            author.look(q)
        }
        while author.holds(p) > 0 {
            author.release(p);
        }
    }
}

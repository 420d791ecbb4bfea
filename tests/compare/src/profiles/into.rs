//! Profiles of links into drafts: from each other, from outside a freeze, and as many as can be.

use super::shapes::{drafts, freeze_and_look, let_go};
use super::steps::{let_all_go, step};
use crate::author::Author;
use independent::tables::{CAPACITY, DRAFT, NONE};

/// One of the pieces that is a draft.
fn draft_of(author: &mut Author, pieces: &[u16]) -> Option<u16> {
    let in_draft = |p: &&u16| author.pieces.states[usize::from(**p)] == DRAFT;
    let all: Vec<u16> = pieces.iter().filter(in_draft).copied().collect();
    (!all.is_empty()).then(|| author.random.pick(&all))
}

/// Sets a link of one of the drafts: to the one named most, to itself, to another, or to none.
fn tie(author: &mut Author, pieces: &[u16], most: u16) {
    if let Some(p) = draft_of(author, pieces) {
        let k = author.place();
        let t = match author.random.below(8) {
            0 => NONE,
            1 => p,
            2..=4 => most,
            _ => author.random.pick(pieces),
        };
        author.set(p, k, t);
    }
}

/// Sets every link place that names P elsewhere, now and then all but one, and bins P.
fn untie_and_bin(author: &mut Author, p: u16) {
    let all = (0..CAPACITY).flat_map(|q| (0..4).map(move |k| (q, k)));
    let mut naming: Vec<(usize, usize)> =
        all.filter(|&(q, k)| author.pieces.links[q][k] == p).collect();
    if author.random.once_in(3) {
        naming.pop();
    }
    for (q, k) in naming {
        let t = if author.random.once_in(2) { q as u16 } else { NONE };
        author.set(q as u16, k as u16, t);
    }
    author.bin(p);
}

/// Drafts that name each other in loops and by several places: binned while they are named and when
/// they no longer are, frozen with drafts outside that name them; their numbers are used again.
pub fn knots(author: &mut Author) {
    while author.lines < 1_500 {
        let size = author.random.from(2, 8);
        let pieces = drafts(author, size);
        let most = author.random.pick(&pieces);
        for _ in 0..author.random.from(size, 4 * size) {
            tie(author, &pieces, most);
        }
        for _ in 0..author.random.from(2, 8) {
            match (author.random.below(6), draft_of(author, &pieces)) {
                (0, Some(p)) => freeze_and_look(author, &[p]),
                (1, Some(p)) => untie_and_bin(author, p),
                (2, Some(p)) => author.bin(p),
                (3, _) => let_go(author, &pieces),
                (4, _) => step(author, 8),
                _ => tie(author, &pieces, most),
            }
        }
        if let (true, Some(p)) = (author.random.once_in(2), author.make()) {
            author.bin(p);
        }
        if author.random.once_in(3) {
            let_go(author, &pieces);
        }
        if author.live() > 60 {
            let_all_go(author);
        }
    }
    let_all_go(author);
}

/// Every other piece of a full table names one draft with all four places, 4,092 in all; then some
/// are binned or set elsewhere, and it is frozen, alone or from another, and let go.
pub fn most(author: &mut Author) {
    let pieces = drafts(author, CAPACITY);
    let most = author.random.pick(&pieces);
    for &p in pieces.iter().filter(|&&p| p != most) {
        (0..4).for_each(|k| author.set(p, k, most));
    }
    author.bin(most);
    for _ in 0..30 {
        match (author.random.below(5), draft_of(author, &pieces)) {
            (0, _) => author.bin(most),
            (1, _) => drop(author.make()),
            (2, Some(p)) => author.bin(p),
            _ => tie(author, &pieces, most),
        }
    }
    let from = if author.random.once_in(2) { most } else { author.one_draft().unwrap_or(most) };
    author.freeze(from);
    author.look(most);
    for _ in 0..30 {
        match draft_of(author, &pieces) {
            Some(p) if author.random.once_in(3) => author.bin(p),
            _ => tie(author, &pieces, most),
        }
        author.look(most);
    }
    author.release(from);
    author.look(most);
}

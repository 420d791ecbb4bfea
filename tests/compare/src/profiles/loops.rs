//! Profiles of loops: rings, dense loops, groups upon groups.

use super::shapes::{drafts, freeze_and_look, let_go, ring};
use super::steps::{let_all_go, step};
use crate::author::Author;

/// Rings, some with a second ring across, some joined to earlier pieces.
pub fn rings(author: &mut Author) {
    while author.lines < 1_500 {
        let size = author.random.from(1, 12);
        let pieces = drafts(author, size);
        ring(author, &pieces, 0);
        if author.random.once_in(2) {
            ring(author, &pieces, 1);
        }
        if let (true, Some(t)) = (author.random.once_in(2), author.one_live()) {
            author.set(pieces[0], 3, t);
        }
        freeze_and_look(author, &pieces);
        if author.random.once_in(2) {
            let_go(author, &pieces);
        }
        (0..4).for_each(|_| step(author, 0));
    }
    let_all_go(author);
}

/// Few pieces with all their links among themselves.
pub fn dense(author: &mut Author) {
    while author.lines < 1_500 {
        let size = author.random.from(2, 9);
        let pieces = drafts(author, size);
        for _ in 0..4 * size {
            let (p, k, t) =
                (author.random.pick(&pieces), author.place(), author.random.pick(&pieces));
            author.set(p, k, t);
        }
        freeze_and_look(author, &pieces);
        freeze_and_look(author, &pieces);
        pieces.iter().for_each(|&p| author.look(p));
        if !author.random.once_in(4) {
            let_go(author, &pieces);
        }
    }
    let_all_go(author);
}

/// Loops that name lower loops, frozen one by one or all from the top.
pub fn nested(author: &mut Author) {
    while author.lines < 1_500 {
        let one_by_one = author.random.once_in(2);
        let mut below: Vec<u16> = Vec::new();
        for _ in 0..author.random.from(2, 6) {
            let size = author.random.from(1, 4);
            let pieces = drafts(author, size);
            ring(author, &pieces, 0);
            for _ in 0..author.random.from(1, 3).min(below.len()) {
                let (p, t) = (author.random.pick(&pieces), author.random.pick(&below));
                let k = author.random.from(1, 3) as u16;
                author.set(p, k, t);
            }
            if one_by_one {
                freeze_and_look(author, &pieces);
            }
            below.extend(pieces);
        }
        let top = below[below.len() - 1];
        author.freeze(top);
        below.reverse();
        let_go(author, &below);
    }
    let_all_go(author);
}

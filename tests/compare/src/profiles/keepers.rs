//! Profiles of groups kept by the links of drafts.

use super::shapes::{drafts, freeze_and_look, let_go, ring};
use super::steps::let_all_go;
use crate::author::Author;
use independent::tables::NONE;

/// A frozen group kept by one draft's links, which are set again in every way.
pub fn set_again(author: &mut Author) {
    while author.lines < 1_500 {
        let size = author.random.from(1, 4);
        let group = drafts(author, size);
        ring(author, &group, 0);
        let keeper = drafts(author, 1)[0];
        author.set(keeper, 0, group[0]);
        freeze_and_look(author, &group);
        let_go(author, &group);
        for _ in 0..author.random.from(3, 20) {
            let member = match author.one_frozen() {
                Some(member) => member,
                None => break,
            };
            let t = match author.random.below(12) {
                0 => NONE,
                1 | 2 => keeper,
                3..=5 => author.pieces.links[usize::from(keeper)][0],
                _ => member,
            };
            let k = author.random.below(2) as u16;
            author.set(keeper, k, t);
            author.look(member);
        }
        if author.random.once_in(2) {
            author.freeze(keeper)
        } else {
            author.bin(keeper)
        }
    }
    let_all_go(author);
}

/// Drafts that name members of a group before and after it is frozen, then let go one by one.
pub fn drafts_outside(author: &mut Author) {
    while author.lines < 1_500 {
        let size = author.random.from(1, 5);
        let group = drafts(author, size);
        if author.random.once_in(2) {
            ring(author, &group, 0);
        }
        let outside = drafts(author, 3);
        for _ in 0..author.random.from(1, 8) {
            let (p, k, t) =
                (author.random.pick(&outside), author.place(), author.random.pick(&group));
            author.set(p, k, t);
            if author.random.once_in(4) {
                freeze_and_look(author, &group);
            }
        }
        freeze_and_look(author, &group);
        let_go(author, &group);
        for &p in &outside {
            let t =
                if author.random.once_in(2) { NONE } else { author.one_draft().unwrap_or(NONE) };
            let k = author.place();
            author.set(p, k, t);
            author.look(group[0]);
            if author.random.once_in(5) {
                author.freeze(p)
            } else {
                author.bin(p)
            }
        }
        author.look(group[0]);
    }
    let_all_go(author);
}

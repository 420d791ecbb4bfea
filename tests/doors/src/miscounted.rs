//! Tables whose links into drafts are wrong in one respect, by name; all else is as defined.

use crate::near::{in_state, link, one, Spoil};
use compare::random::Random;
use independent::pieces::Pieces;
use independent::tables::{Tables, DRAFT, FREE, FROZEN, NONE};

/// The links into drafts become what the rules define for states and links of whatever kind.
pub fn recount(t: &mut Tables) {
    t.into = Pieces::of(&t.lend().0).links_into();
}

/// The link places of P that name Q.
fn places(t: &Tables, p: usize, q: usize) -> u16 {
    t.links[4 * p..4 * p + 4].iter().filter(|&&named| usize::from(named) == q).count() as u16
}

/// A draft that another piece names.
fn named(r: &mut Random, t: &Tables) -> Option<usize> {
    one(r, t.n, |p| t.into[p] > 0)
}

/// Links draft P to draft Q by an empty link place, and recounts.
fn draft_to(t: &mut Tables, p: usize, q: usize) -> Option<()> {
    link(t, p, q)?;
    recount(t);
    Some(())
}

pub const MISCOUNTED: &[(&str, Spoil)] = &[
    ("one link into a draft too many", |t, r| in_state(r, t, DRAFT).map(|p| t.into[p] += 1)),
    ("one link into a draft too few", |t, r| named(r, t).map(|p| t.into[p] -= 1)),
    ("no link into a draft that is named", |t, r| named(r, t).map(|p| t.into[p] = 0)),
    ("one below 0", |t, r| {
        let p = one(r, t.n, |p| t.states[p] == DRAFT && t.into[p] == 0)?;
        t.into[p] = 65_535;
        Some(())
    }),
    ("a link of its own counted", |t, r| {
        let p = in_state(r, t, DRAFT)?;
        draft_to(t, p, p)?;
        t.into[p] += places(t, p, p);
        Some(())
    }),
    ("two places of one piece counted once", |t, r| {
        let (p, q) = (in_state(r, t, DRAFT)?, in_state(r, t, DRAFT)?);
        (p != q).then_some(())?;
        draft_to(t, p, q)?;
        draft_to(t, p, q)?;
        t.into[q] -= 1;
        Some(())
    }),
    ("the links of a draft counted, not those into it", |t, r| {
        let p = in_state(r, t, DRAFT)?;
        let links = (0..t.n).filter(|&q| q != p && t.states[q] == DRAFT);
        let links = links.map(|q| places(t, p, q)).sum();
        (t.into[p] != links).then(|| t.into[p] = links)
    }),
    ("links into a draft counted at another", |t, r| {
        let p = named(r, t)?;
        let q = one(r, t.n, |q| t.states[q] == DRAFT && t.into[q] != t.into[p])?;
        t.into.swap(p, q);
        Some(())
    }),
    ("counted for a frozen piece", |t, r| {
        let p = in_state(r, t, FROZEN)?;
        let links = (0..t.n).filter(|&q| q != p).map(|q| places(t, q, p)).sum();
        (links > 0).then(|| t.into[p] = links)
    }),
    ("counted for a frozen piece from drafts alone", |t, r| {
        let p = in_state(r, t, FROZEN)?;
        let drafts = (0..t.n).filter(|&q| t.states[q] == DRAFT);
        let links = drafts.map(|q| places(t, q, p)).sum();
        (links > 0).then(|| t.into[p] = links)
    }),
    ("counted for a free number", |t, r| {
        in_state(r, t, FREE).map(|p| t.into[p] = r.pick(&[1, 4, 256, 4_092, NONE]))
    }),
];

//! Tables that are unsound in one respect, by name.

use crate::miscounted::{recount, MISCOUNTED};
use crate::stores::define;
use crate::unregistered::UNREGISTERED;
use compare::random::Random;
use independent::tables::{Tables, DRAFT, FREE, FROZEN, NONE};

/// One of the pieces of which something holds.
pub fn one(random: &mut Random, n: usize, holds: impl Fn(usize) -> bool) -> Option<usize> {
    let all: Vec<usize> = (0..n).filter(|&p| holds(p)).collect();
    (!all.is_empty()).then(|| random.pick(&all))
}

/// One of the pieces in the given state.
pub fn in_state(random: &mut Random, t: &Tables, state: u8) -> Option<usize> {
    one(random, t.n, |p| t.states[p] == state)
}

/// A member of a group that is not its leader.
fn led(random: &mut Random, t: &Tables) -> Option<usize> {
    one(random, t.n, |p| t.states[p] == FROZEN && usize::from(t.leaders[p]) != p)
}

/// A leader.
fn leading(random: &mut Random, t: &Tables) -> Option<usize> {
    one(random, t.n, |p| usize::from(t.leaders[p]) == p)
}

/// Every piece led by the one gets the other as its leader; the count goes along.
fn lead_by(t: &mut Tables, one: usize, other: usize) {
    let led = (0..t.n).filter(|&p| usize::from(t.leaders[p]) == one);
    led.collect::<Vec<usize>>().into_iter().for_each(|p| t.leaders[p] = other as u16);
    t.counts[other] += std::mem::take(&mut t.counts[one]);
}

/// Links P to Q by an empty link place of P.
pub fn link(t: &mut Tables, p: usize, q: usize) -> Option<()> {
    let k = (0..4).find(|k| t.links[4 * p + k] == NONE)?;
    t.links[4 * p + k] = q as u16;
    Some(())
}

/// A change that makes sound tables unsound in one respect, none if they have no place for it.
pub type Spoil = fn(&mut Tables, &mut Random) -> Option<()>;

/// All near misses: of the other tables, of the register, and of the links into drafts.
pub fn near_misses() -> impl Iterator<Item = &'static (&'static str, Spoil)> {
    NEAR_MISSES.iter().chain(UNREGISTERED).chain(MISCOUNTED)
}

const NEAR_MISSES: &[(&str, Spoil)] = &[
    ("state 3", |t, r| {
        one(r, t.n, |_| true).map(|p| t.states[p] = 3)?;
        recount(t);
        Some(())
    }),
    ("a free piece with a link", |t, r| {
        let (p, q) = (in_state(r, t, FREE)?, one(r, t.n, |_| true)?);
        t.links[4 * p + r.below(4)] = q as u16;
        recount(t);
        Some(())
    }),
    ("a free piece with a leader", |t, r| in_state(r, t, FREE).map(|p| t.leaders[p] = p as u16)),
    ("a free piece with a hold", |t, r| in_state(r, t, FREE).map(|p| t.holds[p] = 1)),
    ("a free piece with a count", |t, r| in_state(r, t, FREE).map(|p| t.counts[p] = 1)),
    ("a link of N or more", |t, r| {
        let p = one(r, t.n, |p| t.states[p] != FREE)?;
        t.links[4 * p + r.below(4)] = r.pick(&[t.n as u16, t.n as u16 + 1, 65_534]);
        recount(t);
        Some(())
    }),
    ("a draft's link to a free piece", |t, r| {
        let (p, q) = (in_state(r, t, DRAFT)?, in_state(r, t, FREE)?);
        link(t, p, q)
    }),
    ("a draft with a leader", |t, r| in_state(r, t, DRAFT).map(|p| t.leaders[p] = p as u16)),
    ("a draft with a hold", |t, r| in_state(r, t, DRAFT).map(|p| t.holds[p] = 1)),
    ("a draft with a count", |t, r| in_state(r, t, DRAFT).map(|p| t.counts[p] = 1)),
    ("a frozen piece's link to a free piece", |t, r| {
        let (p, q) = (in_state(r, t, FROZEN)?, in_state(r, t, FREE)?);
        link(t, p, q)
    }),
    ("a frozen piece's link to a draft", |t, r| {
        let (p, q) = (in_state(r, t, FROZEN)?, in_state(r, t, DRAFT)?);
        link(t, p, q)?;
        recount(t);
        Some(())
    }),
    ("a leader that is a member but not the lowest", |t, r| {
        let p = led(r, t)?;
        lead_by(t, usize::from(t.leaders[p]), p);
        Some(())
    }),
    ("two groups under one leader", |t, r| {
        let p = leading(r, t)?;
        let q = one(r, t.n, |q| usize::from(t.leaders[q]) == q && q != p)?;
        lead_by(t, p.max(q), p.min(q));
        Some(())
    }),
    ("a loop split", |t, r| {
        let p = led(r, t)?;
        (t.leaders[p], t.counts[p]) = (p as u16, 1);
        Some(())
    }),
    ("a frozen piece with no leader", |t, r| in_state(r, t, FROZEN).map(|p| t.leaders[p] = NONE)),
    ("a count one too high", |t, r| leading(r, t).map(|p| t.counts[p] += 1)),
    ("a count one too low", |t, r| leading(r, t).map(|p| t.counts[p] -= 1)),
    ("a count at a piece that leads nothing", |t, r| led(r, t).map(|p| t.counts[p] = 1)),
    ("a count at every member", |t, r| {
        let p = led(r, t)?;
        t.counts[p] = t.counts[usize::from(t.leaders[p])];
        Some(())
    }),
    ("groups kept by nobody", |t, r| {
        in_state(r, t, FROZEN)?;
        keep_by_nobody(t);
        Some(())
    }),
    ("a loop kept by nobody", |t, r| {
        led(r, t)?;
        keep_by_nobody(t);
        Some(())
    }),
];

/// Takes away all drafts and all holds, with leaders and counts as defined.
fn keep_by_nobody(t: &mut Tables) {
    for p in (0..t.n).filter(|&p| t.states[p] == DRAFT).collect::<Vec<usize>>() {
        t.states[p] = FREE;
        t.links[4 * p..4 * p + 4].fill(NONE);
    }
    t.register.fill(0);
    define(t);
}

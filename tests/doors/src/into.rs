//! Drafts that name each other, and stores whose links all name one draft.

use crate::any::{apply, seat};
use crate::call::Call;
use crate::judge::{Judge, YES};
use crate::near::one;
use crate::stores::{define, empty, soil, tables_of};
use compare::random::Random;
use independent::pieces::Pieces;
use independent::tables::{Tables, DRAFT, NONE};

/// A piece other than P, in a store of at least two.
fn other(random: &mut Random, n: usize, p: u16) -> u16 {
    let q = random.below(n - 1) as u16;
    q + u16::from(q >= p)
}

/// A target of links: often one of two, by which loops and several places come about.
fn target(random: &mut Random, n: usize, p: u16, two: [u16; 2]) -> u16 {
    match random.below(8) {
        0 => NONE,
        1 => p,
        2 | 3 => random.below(n) as u16,
        _ => random.pick(&two),
    }
}

/// A sound store of drafts with many links among them, and of what was frozen in between.
fn knotted(random: &mut Random, n: usize) -> Tables {
    let mut pieces = Pieces::empty(n);
    let two = [random.below(n) as u16, random.below(n) as u16];
    for _ in 0..random.from(n - n / 3, n) {
        let _ = apply(&mut pieces, Call::New);
    }
    for _ in 0..random.pick(&[2, 4, 8]) * n {
        let (p, k) = (random.below(n) as u16, random.below(4) as u16);
        let _ = apply(&mut pieces, Call::Set(p, k, target(random, n, p, two)));
        if random.once_in(20 * n) {
            let _ = apply(&mut pieces, Call::Freeze(p, 0));
        }
    }
    tables_of(random, pieces)
}

/// Drafts that name each other in loops and by several places: each is binned, frozen and linked to
/// all others on copies, and then they are by calls one after the other.
pub fn knots(random: &mut Random, judge: &mut Judge) -> Result<(), String> {
    for n in [2, 3, 4, 6, 9] {
        let mut tables = knotted(random, n);
        for p in 0..n as u16 {
            judge.each(&tables, &[Call::Bin(p), Call::Freeze(p, seat(random)), Call::Look(p)])?;
            let k = random.below(4) as u16;
            let targets = (0..n as u16).chain([NONE]);
            judge.each(&tables, &targets.map(|t| Call::Set(p, k, t)).collect::<Vec<Call>>())?;
        }
        for _ in 0..60 {
            soil(random, &mut tables);
            let draft = one(random, n, |p| tables.states[p] == DRAFT);
            let p = draft.unwrap_or_else(|| random.below(n)) as u16;
            let k = random.below(4) as u16;
            let call = match random.below(16) {
                0..=4 => Call::New,
                5..=9 => Call::Set(p, k, target(random, n, p, [0, n as u16 - 1])),
                10 => Call::Freeze(p, 0),
                11 | 12 => Call::Release(random.below(n) as u16, 0),
                _ => Call::Bin(p),
            };
            judge.call(&mut tables, call)?;
        }
    }
    Ok(())
}

/// A store full of drafts, of which every other one names P with all four places, or with three and
/// the next piece with the first. P names itself, others or none.
fn all_into(random: &mut Random, n: usize, p: u16, ring: bool) -> Tables {
    let mut tables = empty(random, n);
    tables.states.fill(DRAFT);
    tables.links.fill(p);
    for k in 0..4 {
        let q = other(random, n, p);
        tables.links[4 * usize::from(p) + k] = random.pick(&[NONE, NONE, p, q]);
    }
    if ring {
        (0..n).for_each(|q| tables.links[4 * q] = ((q + 1) % n) as u16);
    }
    define(&mut tables);
    tables
}

/// The most links into one draft that there can be, 4,092 in the largest store, and calls on it.
pub fn most(random: &mut Random, judge: &mut Judge) -> Result<(), String> {
    for (n, ring) in [(2, false), (5, true), (257, false), (1_024, true), (1_024, false)] {
        let p = random.below(n) as u16;
        let (q, k) = (other(random, n, p), random.below(4) as u16);
        let mut tables = all_into(random, n, p, ring);
        let calls =
            [Call::Bin(p), Call::Bin(q), Call::Freeze(p, 0), Call::Freeze(q, 31), Call::New];
        let sets = [NONE, p, q, other(random, n, q)].map(|t| Call::Set(q, k, t));
        let back = [NONE, p, q].map(|t| Call::Set(p, k, t));
        judge.each(&tables, &calls)?;
        judge.each(&tables, &sets)?;
        judge.each(&tables, &back)?;
        if judge.call(&mut tables, Call::Check)? != YES {
            return Err("a store whose links name one draft is not sound".to_string());
        }
        judge.tables += 1;
        let mut calls = vec![Call::Set(q, k, q), Call::Bin(q), Call::New, Call::Bin(p)];
        calls.extend([Call::Set(q, 1, p), Call::Freeze(p, 4), Call::Look(p)]);
        let r = other(random, n, p);
        calls.extend([Call::Set(r, 3, NONE), Call::Bin(r), Call::Release(p, 4), Call::Look(p)]);
        for call in calls {
            soil(random, &mut tables);
            judge.call(&mut tables, call)?;
        }
    }
    Ok(())
}

//! Calls one after the other on sound stores.

use crate::any::any_call;
use crate::call::Call;
use crate::judge::{Judge, YES};
use crate::near::near_misses;
use crate::stores::{chain, empty, soil, sound};
use compare::random::Random;
use independent::tables::{DRAFT, FREE, FROZEN, NONE};

/// Calls one after the other from an empty store, refused ones included.
pub fn sequences(random: &mut Random, judge: &mut Judge) -> Result<(), String> {
    for n in [1, 2, 3, 4, 5, 6, 8, 12] {
        let mut tables = empty(random, n);
        judge.tables += 1;
        judge.call(&mut tables, Call::Start)?;
        for _ in 0..100 {
            soil(random, &mut tables);
            judge.call(&mut tables, any_call(random, n))?;
        }
    }
    Ok(())
}

/// Sets on stores with a draft, a frozen piece and a free number: every piece, place and target that
/// is right or nearly.
pub fn sets(random: &mut Random, judge: &mut Judge) -> Result<(), String> {
    for n in [3, 4, 7] {
        let mut tables = sound(random, n);
        while [FREE, DRAFT, FROZEN].iter().any(|state| !tables.states.contains(state)) {
            tables = sound(random, n);
        }
        let last = n as u16 - 1;
        for p in (0..=last + 1).chain([NONE]) {
            for t in (0..=last + 2).chain([1_024, 65_534, NONE]) {
                judge.each(&tables, &[0, 3, 4, NONE].map(|k| Call::Set(p, k, t)))?;
            }
        }
    }
    Ok(())
}

/// Calls one after the other on large stores, and their near misses.
pub fn large(random: &mut Random, judge: &mut Judge) -> Result<(), String> {
    for n in [255, 256, 257, 1_023, 1_024] {
        let mut tables = sound(random, n);
        judge.tables += 1;
        if judge.call(&mut tables, Call::Check)? != YES {
            return Err("a store made by calls is not sound".to_string());
        }
        for (name, spoil) in near_misses() {
            let mut spoiled = tables.clone();
            soil(random, &mut spoiled);
            if spoil(&mut spoiled, random).is_some() {
                judge.name = name;
                judge.each(&spoiled, &[Call::Check, any_call(random, n)])?;
            }
        }
        judge.name = "";
        for _ in 0..10 {
            soil(random, &mut tables);
            judge.call(&mut tables, any_call(random, n))?;
        }
    }
    Ok(())
}

/// Chains and rings through a whole store, let go at once.
pub fn chains(random: &mut Random, judge: &mut Judge) -> Result<(), String> {
    for (n, ring) in [(1_024, false), (1_024, true), (1_023, false), (2, true)] {
        let mut tables = chain(n, ring);
        judge.tables += 1;
        let last = n as u16 - 1;
        for call in [Call::Check, Call::Look(last), Call::Release(0, 0), Call::New, Call::Check] {
            soil(random, &mut tables);
            judge.call(&mut tables, call)?;
        }
    }
    Ok(())
}

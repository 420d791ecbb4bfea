//! Calls about the limit of holds, on a full register, and of seats that hand in twice.

use crate::any::{any_call, seat};
use crate::call::Call;
use crate::judge::{Judge, YES};
use crate::stores::{empty, filled, soil, sound};
use compare::random::Random;
use independent::tables::{HOLDS, LINES, SEATS};

/// Holds up to 1,000 by acquire, with freezes between, past it, and down again.
pub fn limit(random: &mut Random, judge: &mut Judge) -> Result<(), String> {
    let mut tables = empty(random, 2);
    judge.tables += 1;
    judge.call(&mut tables, Call::New)?;
    let mut past = 0;
    while past < 30 {
        soil(random, &mut tables);
        past += usize::from(tables.holds[0] == HOLDS);
        let seat = if past > 0 { random.pick(&[0, 5, 9]) } else { random.pick(&[0, 9]) };
        let acquire = !random.once_in(if past > 0 { 2 } else { 4 });
        let call = if acquire { Call::Acquire(0, seat) } else { Call::Freeze(0, seat) };
        judge.call(&mut tables, call)?;
    }
    for _ in 0..1_002 {
        judge.call(&mut tables, Call::Look(0))?;
        judge.call(&mut tables, Call::Release(0, random.pick(&[0, 9])))?;
    }
    Ok(())
}

/// Pieces handed in by every seat, each twice on a copy: with holds about the limit, or with a register
/// that is filled to its last line, or nearly.
pub fn twice(random: &mut Random, judge: &mut Judge) -> Result<(), String> {
    for n in [1, 3, 6, 50] {
        let lines = LINES - random.pick(&[0, 0, 1]);
        let store = if n == 50 { filled(random, n, lines) } else { sound(random, n) };
        let limited = store.holds.iter().position(|&holds| holds == HOLDS);
        let any = [0, limited.unwrap_or(0), random.below(n), random.below(n)];
        for p in if n == 50 { any.to_vec() } else { (0..n).collect() } {
            for seat in 0..=SEATS {
                let mut tables = store.clone();
                judge.tables += 1;
                judge.call(&mut tables, Call::Freeze(p as u16, seat))?;
                soil(random, &mut tables);
                judge.call(&mut tables, Call::Freeze(p as u16, seat))?;
            }
        }
    }
    Ok(())
}

/// Calls by all seats on stores whose register is filled to its last line, or nearly.
pub fn register(random: &mut Random, judge: &mut Judge) -> Result<(), String> {
    for n in [50, 53, 64] {
        let lines = LINES - random.pick(&[0, 0, 1, 2]);
        let mut tables = filled(random, n, lines);
        judge.tables += 1;
        if judge.call(&mut tables, Call::Check)? != YES {
            return Err("a filled store is not sound".to_string());
        }
        for _ in 0..80 {
            soil(random, &mut tables);
            let p = random.below(n) as u16;
            let seat = if random.once_in(8) { seat(random) } else { random.below(32) as u16 };
            let call = match random.below(10) {
                0..=4 => Call::Acquire(p, seat),
                5..=7 => Call::Freeze(p, seat),
                8 => Call::Release(p, seat),
                _ => any_call(random, n),
            };
            judge.call(&mut tables, call)?;
        }
    }
    Ok(())
}

//! Calls on tables that are spoiled: in one entry, in one respect, altogether, or in their lengths.

use crate::any::{any_call, nine};
use crate::call::Call;
use crate::judge::{Judge, YES};
use crate::near;
use crate::single::single;
use crate::stores::{empty, sound};
use compare::random::Random;
use independent::tables::{Tables, LINE, LINES};

/// Sound stores with every single entry changed to each telling value.
pub fn singles(random: &mut Random, judge: &mut Judge) -> Result<(), String> {
    let n = random.from(1, 6);
    let tables = sound(random, n);
    judge.each(&tables, &nine(random, n))?;
    single(&tables, |spoiled| {
        let calls = [Call::Check, any_call(random, n), any_call(random, n)];
        judge.each(&spoiled, &calls)
    })
}

/// Sound stores made unsound in one respect.
pub fn near_misses(random: &mut Random, judge: &mut Judge) -> Result<(), String> {
    for (name, spoil) in near::near_misses() {
        let mut tables = sound(random, 1);
        while spoil(&mut tables, random).is_none() {
            let n = random.from(2, 8);
            tables = sound(random, n);
        }
        judge.name = name;
        judge.each(&tables, &nine(random, tables.n))?;
        if judge.call(&mut tables, Call::Check)? == YES {
            return Err(format!("{name}: the independent program finds it sound"));
        }
    }
    judge.name = "";
    Ok(())
}

/// Entries of no meaning: telling values, in some tables mixed with random bits.
pub fn junk(random: &mut Random, judge: &mut Judge) -> Result<(), String> {
    let n = random.from(1, 6);
    let mut tables = empty(random, n);
    for p in 0..n {
        tables.states[p] = random.pick(&[0, 1, 2, 2, 2, 3, 255]);
        tables.holds[p] = random.pick(&[0, 0, 1, 1_000, 1_001, 65_535]);
        tables.leaders[p] = random.pick(&[0, p as u16, n as u16, 65_535]);
        tables.counts[p] = random.pick(&[0, 1, 2, 1_000, u32::MAX]);
        tables.into[p] = random.pick(&[0, 0, 0, 1, 2, 4, 4_092, 65_535]);
        for k in 0..4 {
            tables.links[4 * p + k] =
                random.pick(&[65_535, 65_535, 0, p as u16, n as u16 - 1, n as u16, 65_534]);
        }
    }
    for line in tables.register.chunks_mut(LINE).take(random.below(8)) {
        let any = random.below(n) as u16;
        line[0] = random.pick(&[0, 0, 1, 2, 31, 32]);
        line[1] = random.pick(&[any, any, n as u16 - 1, n as u16]);
        line[2] = random.pick(&[0, 1, 1, 2, 1_000, 1_001]);
    }
    if random.once_in(3) {
        let any = random.bits();
        tables.links.iter_mut().for_each(|link| *link ^= (random.bits() & any) as u16);
        tables.counts.iter_mut().for_each(|count| *count ^= (random.bits() & any) as u32);
    }
    let calls = nine(random, n);
    judge.each(&tables, &calls)
}

/// Makes one of the nine areas of another length, in the rulebook's order.
const RESIZES: [fn(&mut Tables, usize); 9] = [
    |tables, length| tables.states.resize(length, 0),
    |tables, length| tables.links.resize(length, 65_535),
    |tables, length| tables.leaders.resize(length, 65_535),
    |tables, length| tables.holds.resize(length, 0),
    |tables, length| tables.counts.resize(length, 0),
    |tables, length| tables.register.resize(length, 0),
    |tables, length| tables.into.resize(length, 0),
    |tables, length| tables.list.resize(length, 9),
    |tables, length| tables.work.resize(length, 9),
];

/// Areas too short and too long, and capacities that are not theirs.
pub fn sizes(random: &mut Random, judge: &mut Judge) -> Result<(), String> {
    let n = random.from(1, 5);
    let good = sound(random, n);
    let lengths = [n, 4 * n, n, n, n, LINE * LINES, n, n, 8 * n];
    for (resize, right) in RESIZES.iter().zip(lengths) {
        for length in [0, right - 1, right, right + 1, 2 * right] {
            let mut tables = good.clone();
            resize(&mut tables, length);
            judge.each(&tables, &nine(random, n))?;
        }
    }
    for capacity in [0, n - 1, n + 1, 1_024, 1_025, (1 << 61) + n, (1 << 62) + n, usize::MAX] {
        let tables = Tables { n: capacity, ..good.clone() };
        judge.each(&tables, &nine(random, n))?;
    }
    for capacity in [0, 1_025] {
        judge.each(&Tables::empty(capacity), &nine(random, n))?;
    }
    Ok(())
}

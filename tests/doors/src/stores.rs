//! Sound stores, made by random calls or filled on purpose.

use crate::any::{any_call, apply};
use crate::call::Call;
use compare::random::Random;
use independent::pieces::Pieces;
use independent::register::{area, Line};
use independent::sound::leaders_and_counts;
use independent::tables::{Tables, DRAFT, FROZEN, LINES, SEATS};

/// Holds, leaders, counts and the links into drafts become what the rules define for the states,
/// links and register; lines that name no piece of the store are passed over.
pub fn define(tables: &mut Tables) {
    let mut pieces = Pieces::of(&tables.lend().0);
    pieces.register.retain(|line| usize::from(line.piece) < tables.n);
    tables.holds = pieces.holds().iter().map(|&holds| holds.min(65_535) as u16).collect();
    (tables.leaders, tables.counts) = leaders_and_counts(&pieces);
    tables.into = pieces.links_into();
}

/// The tables of these pieces, with soiled list and work.
pub fn tables_of(random: &mut Random, pieces: Pieces) -> Tables {
    let mut tables = empty(random, pieces.n());
    tables.register = area(&pieces.register);
    (tables.states, tables.links) = (pieces.states, pieces.links.concat());
    define(&mut tables);
    tables
}

/// List and work become as long as need be or longer, with random entries.
pub fn soil(random: &mut Random, tables: &mut Tables) {
    let n = tables.n;
    tables.list = (0..n + random.below(3)).map(|_| random.bits() as u16).collect();
    tables.work = (0..8 * n + random.below(3)).map(|_| random.bits() as u32).collect();
}

/// An empty store with soiled list and work.
pub fn empty(random: &mut Random, n: usize) -> Tables {
    let mut tables = Tables::empty(n);
    soil(random, &mut tables);
    tables
}

/// The holds of P become so many, of one, two or three seats.
fn hold(random: &mut Random, pieces: &mut Pieces, p: usize, holds: u16) {
    pieces.register.retain(|line| usize::from(line.piece) != p);
    let first = random.below(30) as u16;
    let (one, two) = (random.pick(&[0, 1, holds / 3]), random.pick(&[0, 0, 1, holds / 2]));
    let one = one.min(holds);
    let two = two.min(holds - one);
    let numbers = [one, two, holds - one - two];
    for (seat, number) in (first..).zip(numbers).filter(|&(_, number)| number > 0) {
        pieces.register.push(Line { seat, piece: p as u16, number });
    }
    pieces.register.sort();
}

/// A sound store: random calls from the empty one, then now and then holds about the limit.
pub fn sound(random: &mut Random, n: usize) -> Tables {
    let mut pieces = Pieces::empty(n);
    let made = if random.once_in(4) { n } else { random.below(n + 1) };
    (0..made).for_each(|_| drop(apply(&mut pieces, Call::New)));
    for _ in 0..random.pick(&[2, 8, 8]) * n {
        let _ = apply(&mut pieces, any_call(random, n));
    }
    for p in 0..n {
        if pieces.states[p] == FROZEN && pieces.register.len() < LINES - 3 && random.once_in(6) {
            let holds = random.pick(&[1, 2, 999, 1_000, 1_000]);
            hold(random, &mut pieces, p, holds);
        }
    }
    tables_of(random, pieces)
}

/// Frozen pieces of a filled store.
const HELD: usize = 48;

/// A sound store of at least 50 pieces whose register has so many lines, 960 at least: the first 48
/// are frozen, each held by most seats and one of them 1,000 times; then there are drafts.
pub fn filled(random: &mut Random, n: usize, lines: usize) -> Tables {
    let mut pieces = Pieces::empty(n);
    pieces.states[..HELD].fill(FROZEN);
    let drafts = random.from(HELD + 2, n);
    pieces.states[HELD..drafts].fill(DRAFT);
    pieces.links[HELD][0] = random.below(HELD) as u16;
    pieces.links[HELD][1] = random.from(HELD, drafts - 1) as u16;
    let pairs = HELD * usize::from(SEATS);
    let turn = random.below(pairs);
    for i in (0..lines).map(|i| (i + turn) % pairs) {
        let (piece, seat) = ((i % HELD) as u16, (i / HELD) as u16);
        pieces.register.push(Line { seat, piece, number: random.pick(&[1, 1, 2, 31]) });
    }
    let limited = pieces.register[0].piece;
    pieces.register[0].number += 1_000 - pieces.holds()[usize::from(limited)] as u16;
    pieces.register.sort();
    tables_of(random, pieces)
}

/// A frozen chain through the whole store, held at 0, closed to a ring or not.
pub fn chain(n: usize, ring: bool) -> Tables {
    let mut tables = Tables::empty(n);
    tables.states.fill(FROZEN);
    for p in 1..n {
        tables.links[4 * (p - 1)] = p as u16;
    }
    if ring {
        tables.links[4 * (n - 1)] = 0;
    }
    tables.register[2] = 1;
    define(&mut tables);
    tables
}

#[cfg(test)]
mod tests {
    use super::*;
    use crate::call::by_independent;
    use crate::near::near_misses;

    /// Stores made by random calls are sound, and have places for every near miss.
    #[test]
    fn sound_stores_are_sound_and_varied() {
        let mut random = Random::new(1);
        for (n, stores) in [(6, 200), (1_024, 20)] {
            let mut spoiled = vec![false; near_misses().count()];
            for _ in 0..stores {
                let mut tables = sound(&mut random, n);
                assert_eq!(by_independent(Call::Check, &mut tables), 1 << 16);
                for (done, (_, spoil)) in spoiled.iter_mut().zip(near_misses()) {
                    *done |= spoil(&mut tables.clone(), &mut random).is_some();
                }
            }
            let missing: Vec<&str> = (near_misses().zip(spoiled))
                .filter(|(_, done)| !done)
                .map(|((name, _), _)| *name)
                .collect();
            assert!(missing.is_empty(), "N = {n}: {missing:?}");
        }
    }
}

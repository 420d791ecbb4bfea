//! Random calls.

use crate::call::Call;
use compare::random::Random;
use independent::commands::Accepted;
use independent::pieces::Pieces;
use independent::tables::{Refusal, NONE, SEATS};

/// A piece number: mostly one of the store's, else one that is not.
fn number(random: &mut Random, n: usize) -> u16 {
    match random.below(12) {
        0 => random.pick(&[n as u16, n as u16 + 1, 1_023, 1_024, 65_534, NONE]),
        _ => random.below(n) as u16,
    }
}

/// A seat: mostly one of a few, so that they meet; else any, or none.
pub fn seat(random: &mut Random) -> u16 {
    match random.below(12) {
        0 => random.pick(&[31, 32, 33, 255, 256, NONE]),
        1 | 2 => random.below(SEATS.into()) as u16,
        _ => random.pick(&[0, 0, 1, 2]),
    }
}

/// One of the calls but start, on random numbers.
pub fn any_call(random: &mut Random, n: usize) -> Call {
    let (p, seat) = (number(random, n), seat(random));
    match random.below(14) {
        0 | 1 => Call::New,
        2..=6 => {
            let k = random.pick(&[0, 1, 2, 3, 0, 1, 2, 3, 4, NONE]);
            let t = if random.once_in(6) { NONE } else { number(random, n) };
            Call::Set(p, k, t)
        }
        7 => Call::Freeze(p, seat),
        8 => Call::Acquire(p, seat),
        9 | 10 => Call::Release(p, seat),
        11 => Call::Bin(p),
        12 => Call::Look(p),
        _ => Call::Check,
    }
}

/// Each of the nine calls once, on random numbers.
pub fn nine(random: &mut Random, n: usize) -> [Call; 9] {
    let mut p = || number(random, n);
    let set = Call::Set(p(), p() % 5, p());
    let (bin, look) = (Call::Bin(p()), Call::Look(p()));
    let [f, a, r] = [p(), p(), p()];
    let freeze = Call::Freeze(f, seat(random));
    let (acquire, release) = (Call::Acquire(a, seat(random)), Call::Release(r, seat(random)));
    [Call::Start, Call::New, set, freeze, acquire, release, bin, look, Call::Check]
}

/// What a call does to the pieces alone.
pub fn apply(pieces: &mut Pieces, call: Call) -> Result<Accepted, Refusal> {
    match call {
        Call::Set(p, k, t) => pieces.set(p, k, t),
        Call::Freeze(p, seat) => pieces.freeze(p, seat),
        Call::Acquire(p, seat) => pieces.acquire(p, seat),
        Call::Release(p, seat) => pieces.release(p, seat),
        Call::Bin(p) => pieces.bin(p),
        _ => pieces.new_draft(),
    }
}

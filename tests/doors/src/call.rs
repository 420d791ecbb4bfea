//! One of the nine calls, by the independent program and as a request to the door.

use crate::guarded::{put, take};
use crate::packed::{packed, packed_check, packed_look};
use independent::calls;
use independent::tables::Tables;
use std::io::{self, Read};

/// A call and its numbers, in the rulebook's order.
#[derive(Clone, Copy, Debug)]
pub enum Call {
    Start,
    New,
    Set(u16, u16, u16),
    Freeze(u16, u16),
    Acquire(u16, u16),
    Release(u16, u16),
    Bin(u16),
    Look(u16),
    Check,
}

/// The answer by the independent program, which changes the tables.
pub fn by_independent(call: Call, tables: &mut Tables) -> u64 {
    let (mut store, list, work) = tables.lend();
    packed(match call {
        Call::Start => calls::start(&mut store),
        Call::New => calls::new(&mut store, list, work),
        Call::Set(p, k, t) => calls::set(&mut store, list, work, p, k, t),
        Call::Freeze(p, seat) => calls::freeze(&mut store, list, work, p, seat),
        Call::Acquire(p, seat) => calls::acquire(&mut store, list, work, p, seat),
        Call::Release(p, seat) => calls::release(&mut store, list, work, p, seat),
        Call::Bin(p) => calls::bin(&mut store, list, work, p),
        Call::Look(p) => return packed_look(calls::look(&store, work, p)),
        Call::Check => return packed_check(calls::check(&store, work)),
    })
}

/// The number of the call's C function in a request, and its numbers.
fn numbers(call: Call) -> (u8, [u16; 3]) {
    match call {
        Call::Start => (1, [0; 3]),
        Call::New => (2, [0; 3]),
        Call::Set(p, k, t) => (3, [p, k, t]),
        Call::Freeze(p, seat) => (4, [p, seat, 0]),
        Call::Acquire(p, seat) => (5, [p, seat, 0]),
        Call::Release(p, seat) => (6, [p, seat, 0]),
        Call::Bin(p) => (7, [p, 0, 0]),
        Call::Look(p) => (8, [p, 0, 0]),
        Call::Check => (9, [0; 3]),
    }
}

/// The head of a request: the function's number, N, and the call's numbers.
pub fn head(function: u8, n: usize, numbers: [u16; 3]) -> Vec<u8> {
    let mut request = vec![function];
    request.extend((n as u64).to_le_bytes());
    numbers.iter().for_each(|number| request.extend(number.to_le_bytes()));
    request
}

/// The request for a call on the tables.
pub fn request(call: Call, tables: &Tables) -> Vec<u8> {
    let (function, numbers) = numbers(call);
    let mut request = head(function, tables.n, numbers);
    put(&mut request, &tables.states);
    put(&mut request, &tables.links);
    put(&mut request, &tables.leaders);
    put(&mut request, &tables.holds);
    put(&mut request, &tables.counts);
    put(&mut request, &tables.register);
    put(&mut request, &tables.into);
    put(&mut request, &tables.list);
    put(&mut request, &tables.work);
    request
}

/// The u64 that a C function answers.
pub fn word(answer: &mut dyn Read) -> io::Result<u64> {
    let mut bytes = [0; 8];
    answer.read_exact(&mut bytes)?;
    Ok(u64::from_le_bytes(bytes))
}

/// The tables that a C function leaves of those lent, none if it wrote outside them.
pub fn left(answer: &mut dyn Read, lent: &Tables) -> io::Result<Option<Tables>> {
    let states = take(answer, lent.states.len())?;
    let links = take(answer, lent.links.len())?;
    let leaders = take(answer, lent.leaders.len())?;
    let holds = take(answer, lent.holds.len())?;
    let counts = take(answer, lent.counts.len())?;
    let register = take(answer, lent.register.len())?;
    let into = take(answer, lent.into.len())?;
    let list = take(answer, lent.list.len())?;
    let work = take(answer, lent.work.len())?;
    let whole = || {
        Some(Tables {
            n: lent.n,
            states: states?,
            links: links?,
            leaders: leaders?,
            holds: holds?,
            counts: counts?,
            register: register?,
            into: into?,
            list: list?,
            work: work?,
        })
    };
    Ok(whole())
}

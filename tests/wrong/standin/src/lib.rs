//! The C functions of the store, done by the independent program.

use independent::calls::{self, Answer};
use independent::tables::Store;
use independent::trace::lent;
use std::slice::{from_raw_parts, from_raw_parts_mut};

/// An answer in one u64.
fn packed(Answer { refusal, value, freed }: Answer) -> u64 {
    u64::from(refusal) + (u64::from(value) << 16) + (u64::from(freed) << 32)
}

/// # Safety
/// The pointers are to as many bytes as the lengths say.
#[no_mangle]
#[rustfmt::skip]
pub unsafe extern "C" fn pieces_trace(
    trace: *const u8, trace_len: usize, room: *mut u8, room_len: usize,
) -> u64 {
    lent(from_raw_parts(trace, trace_len), from_raw_parts_mut(room, room_len))
}

/// Defines a C function over the seven areas of the store, then some more areas and numbers.
macro_rules! door {
    ($name:ident, [$($area:ident $length:ident $width:ty),*], [$($number:ident),*],
     |$store:ident| $answer:expr) => {
        /// # Safety
        /// Each pointer is to as many entries as the length after it says.
        #[no_mangle]
        #[rustfmt::skip]
        pub unsafe extern "C" fn $name(
            n: usize, states: *mut u8, states_len: usize, links: *mut u16, links_len: usize,
            leaders: *mut u16, leaders_len: usize, holds: *mut u16, holds_len: usize,
            counts: *mut u32, counts_len: usize, lines: *mut u16, lines_len: usize,
            into: *mut u16, into_len: usize,
            $($area: *mut $width, $length: usize,)* $($number: u16),*
        ) -> u64 {
            $(let $area = from_raw_parts_mut($area, $length);)*
            let $store = &mut Store {
                n,
                states: from_raw_parts_mut(states, states_len),
                links: from_raw_parts_mut(links, links_len),
                leaders: from_raw_parts_mut(leaders, leaders_len),
                holds: from_raw_parts_mut(holds, holds_len),
                counts: from_raw_parts_mut(counts, counts_len),
                register: from_raw_parts_mut(lines, lines_len),
                into: from_raw_parts_mut(into, into_len),
            };
            $answer
        }
    };
}

/// Defines a C function that takes a list and work.
macro_rules! all_areas {
    ($name:ident, $call:ident, [$($number:ident),*]) => {
        door!($name, [list list_len u16, work work_len u32], [$($number),*],
              |store| packed(calls::$call(store, list, work, $($number),*)));
    };
}

door!(pieces_start, [], [], |store| packed(calls::start(store)));
all_areas!(pieces_new, new, []);
all_areas!(pieces_set, set, [p, k, t]);
all_areas!(pieces_freeze, freeze, [p, seat]);
all_areas!(pieces_acquire, acquire, [p, seat]);
all_areas!(pieces_release, release, [p, seat]);
all_areas!(pieces_bin, bin, [p]);
door!(pieces_look, [work work_len u32], [p], |store| {
    let calls::Look { refusal, seen } = calls::look(store, work, p);
    u64::from(refusal)
        + (u64::from(seen.state) << 8)
        + (u64::from(seen.leader) << 16)
        + (u64::from(seen.count) << 32)
        + (u64::from(seen.holds) << 52)
});
door!(pieces_check, [work work_len u32], [], |store| {
    let calls::Check { refusal, yes } = calls::check(store, work);
    u64::from(refusal) + (u64::from(yes) << 16)
});

//! An area between guard entries, as it goes to the door and comes back.

use std::io::{self, Read};

/// Guard entries on each side, as in tests/doors/door.c.
const GUARD: usize = 17;

/// An entry of an area, in bytes the lowest first.
pub trait Entry: Copy + PartialEq {
    /// What a guard entry holds.
    const MARK: Self;
    const WIDTH: usize;
    fn put(self, bytes: &mut Vec<u8>);
    fn of(bytes: &[u8]) -> Self;
}

macro_rules! entry {
    ($width:ty, $mark:expr) => {
        impl Entry for $width {
            const MARK: Self = $mark;
            const WIDTH: usize = std::mem::size_of::<Self>();
            fn put(self, bytes: &mut Vec<u8>) {
                bytes.extend(self.to_le_bytes());
            }
            fn of(bytes: &[u8]) -> Self {
                Self::from_le_bytes(bytes.try_into().expect("an entry is of its width"))
            }
        }
    };
}

entry!(u8, 0xa5);
entry!(u16, 0xa5b6);
entry!(u32, 0xa5b6_c7d8);

/// Writes the area's length, then its entries between guard entries.
pub fn put<T: Entry>(request: &mut Vec<u8>, area: &[T]) {
    request.extend((area.len() as u64).to_le_bytes());
    let guard = [T::MARK; GUARD];
    for &entry in guard.iter().chain(area).chain(&guard) {
        entry.put(request);
    }
}

/// Reads an area of the given length; none if a guard entry has changed.
pub fn take<T: Entry>(answer: &mut dyn Read, length: usize) -> io::Result<Option<Vec<T>>> {
    let mut bytes = vec![0; (length + 2 * GUARD) * T::WIDTH];
    answer.read_exact(&mut bytes)?;
    let entries: Vec<T> = bytes.chunks_exact(T::WIDTH).map(T::of).collect();
    let (front, rest) = entries.split_at(GUARD);
    let (area, behind) = rest.split_at(length);
    let whole = front.iter().chain(behind).all(|&entry| entry == T::MARK);
    Ok(whole.then(|| area.to_vec()))
}

//! Tables with a single entry changed.

use independent::tables::{Tables, LINE, NONE};

/// Every copy of the tables with one entry of the store changed to a telling value.
pub fn single(
    tables: &Tables,
    mut each: impl FnMut(Tables) -> Result<(), String>,
) -> Result<(), String> {
    let n = tables.n as u16;
    let numbers: Vec<u16> = (0..=n).chain([n + 1, 1_023, 1_024, 65_534, NONE]).collect();
    for (entry, value) in pairs(tables.states.len(), &[0, 1, 2, 3, 4, 128, 255]) {
        each(Tables { states: with(&tables.states, entry, value), ..tables.clone() })?;
    }
    for (entry, value) in pairs(tables.links.len(), &numbers) {
        each(Tables { links: with(&tables.links, entry, value), ..tables.clone() })?;
    }
    for (entry, value) in pairs(tables.leaders.len(), &numbers) {
        each(Tables { leaders: with(&tables.leaders, entry, value), ..tables.clone() })?;
    }
    for (entry, value) in pairs(tables.holds.len(), &[0, 1, 2, 999, 1_000, 1_001, 65_535]) {
        each(Tables { holds: with(&tables.holds, entry, value), ..tables.clone() })?;
    }
    for (entry, value) in
        pairs(tables.counts.len(), &[0, 1, 2, 3, 4, 65_536, 1_028_096, 1 << 31, u32::MAX])
    {
        each(Tables { counts: with(&tables.counts, entry, value), ..tables.clone() })?;
    }
    let values = [0, 1, 2, 3, n - 1, n, 31, 32, 999, 1_000, 1_001, 65_535];
    for (entry, value) in telling(&tables.register).into_iter().flat_map(|i| values.map(|v| (i, v)))
    {
        each(Tables { register: with(&tables.register, entry, value), ..tables.clone() })?;
    }
    for (entry, value) in pairs(tables.into.len(), &[0, 1, 2, 3, 4, 4_092, 65_535]) {
        each(Tables { into: with(&tables.into, entry, value), ..tables.clone() })?;
    }
    Ok(())
}

/// The entries of the first lines of a register, of the line behind the used ones, and of the last.
fn telling(register: &[u16]) -> Vec<usize> {
    let used = register.chunks(LINE).take_while(|line| line[2] > 0).count();
    let last = register.len() - LINE..register.len();
    (0..LINE * used.min(4)).chain(LINE * used..LINE * (used + 1)).chain(last).collect()
}

/// Every entry with every value.
fn pairs<T: Copy>(entries: usize, values: &[T]) -> Vec<(usize, T)> {
    (0..entries).flat_map(|entry| values.iter().map(move |&value| (entry, value))).collect()
}

/// A copy of an area with one entry changed.
fn with<T: Copy>(area: &[T], entry: usize, value: T) -> Vec<T> {
    let mut area = area.to_vec();
    area[entry] = value;
    area
}

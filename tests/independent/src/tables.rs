//! The limits, the refusal numbers and the areas: the rulebook's tables.

/// The largest capacity.
pub const CAPACITY: usize = 1_024;
/// Links a piece.
pub const LINKS: usize = 4;
/// Holds a piece, at most.
pub const HOLDS: u16 = 1_000;
/// Seats, 0 to 31.
pub const SEATS: u16 = 32;
/// Lines of the register.
pub const LINES: usize = 1_024;
/// Entries of a line: seat, piece, number.
pub const LINE: usize = 3;
/// Bytes of a trace lent in memory, at most.
pub const LENT: usize = 65_536;
/// The mark for none.
pub const NONE: u16 = 65_535;

/// The states of a piece.
pub const FREE: u8 = 0;
pub const DRAFT: u8 = 1;
pub const FROZEN: u8 = 2;

/// The refusals, in the rulebook's order, with their numbers.
#[derive(Clone, Copy, Debug, PartialEq, Eq)]
pub enum Refusal {
    Size = 1,
    Unsound = 2,
    Seat = 12,
    Number = 3,
    Place = 15,
    Target = 16,
    Free = 4,
    FreeTarget = 17,
    State = 5,
    Limit = 6,
    Register = 14,
    NotHeld = 7,
    NotYours = 13,
    Linked = 8,
    Full = 9,
    Long = 10,
    Room = 11,
}

/// A store as it is lent to a call: its capacity and its seven areas.
pub struct Store<'a> {
    pub n: usize,
    pub states: &'a mut [u8],
    pub links: &'a mut [u16],
    pub leaders: &'a mut [u16],
    pub holds: &'a mut [u16],
    pub counts: &'a mut [u32],
    pub register: &'a mut [u16],
    pub into: &'a mut [u16],
}

impl Store<'_> {
    /// Whether N is from 1 to 1,024 and every area is exactly its length.
    pub fn sized(&self) -> bool {
        (1..=CAPACITY).contains(&self.n)
            && self.states.len() == self.n
            && self.links.len() == LINKS * self.n
            && self.leaders.len() == self.n
            && self.holds.len() == self.n
            && self.counts.len() == self.n
            && self.register.len() == LINE * LINES
            && self.into.len() == self.n
    }
}

/// All nine areas, owned by whoever lends them.
#[derive(Clone, Debug, PartialEq, Eq)]
pub struct Tables {
    pub n: usize,
    pub states: Vec<u8>,
    pub links: Vec<u16>,
    pub leaders: Vec<u16>,
    pub holds: Vec<u16>,
    pub counts: Vec<u32>,
    pub register: Vec<u16>,
    pub into: Vec<u16>,
    pub list: Vec<u16>,
    pub work: Vec<u32>,
}

impl Tables {
    /// The empty store of capacity N, with the shortest list and work.
    pub fn empty(n: usize) -> Tables {
        Tables {
            n,
            states: vec![FREE; n],
            links: vec![NONE; LINKS * n],
            leaders: vec![NONE; n],
            holds: vec![0; n],
            counts: vec![0; n],
            register: vec![0; LINE * LINES],
            into: vec![0; n],
            list: vec![0; n],
            work: vec![0; 8 * n],
        }
    }

    /// The store, the list and the work area, lent for one call.
    pub fn lend(&mut self) -> (Store<'_>, &mut [u16], &mut [u32]) {
        let store = Store {
            n: self.n,
            states: &mut self.states,
            links: &mut self.links,
            leaders: &mut self.leaders,
            holds: &mut self.holds,
            counts: &mut self.counts,
            register: &mut self.register,
            into: &mut self.into,
        };
        (store, &mut self.list, &mut self.work)
    }
}

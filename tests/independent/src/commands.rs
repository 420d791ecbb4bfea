//! The commands on the pieces of a sound store, with their refusals in the rulebook's order.

use crate::pieces::Pieces;
use crate::register::seated;
use crate::tables::{Refusal, DRAFT, FREE, FROZEN, HOLDS, LINKS, NONE};

/// What an accepted command gives: its value and the numbers freed, ascending.
#[derive(Clone, Debug, PartialEq, Eq)]
pub struct Accepted {
    pub value: u16,
    pub freed: Vec<u16>,
}

/// What an accepted look gives.
#[derive(Clone, Copy, Debug, PartialEq, Eq)]
pub struct Seen {
    pub state: u8,
    pub leader: u16,
    pub count: u32,
    pub holds: u16,
}

/// Accepted, with no value and nothing freed.
fn nothing() -> Result<Accepted, Refusal> {
    Ok(Accepted { value: NONE, freed: Vec::new() })
}

impl Pieces {
    /// P as a live piece, or NUMBER or FREE.
    fn live(&self, p: u16) -> Result<usize, Refusal> {
        match self.states.get(usize::from(p)) {
            None => Err(Refusal::Number),
            Some(&FREE) => Err(Refusal::Free),
            Some(_) => Ok(usize::from(p)),
        }
    }

    /// P as a live piece in the given state, or NUMBER, FREE or STATE.
    fn live_in(&self, state: u8, p: u16) -> Result<usize, Refusal> {
        let p = self.live(p)?;
        if self.states[p] == state {
            Ok(p)
        } else {
            Err(Refusal::State)
        }
    }

    /// P becomes free.
    fn clear(&mut self, p: usize) {
        self.states[p] = FREE;
        self.links[p] = [NONE; LINKS];
    }

    /// Every frozen piece no longer kept becomes free; these are the freed.
    fn settle(&mut self) -> Result<Accepted, Refusal> {
        let kept = self.kept();
        let freed: Vec<usize> = self.in_state(FROZEN).filter(|&p| !kept[p]).collect();
        freed.iter().for_each(|&p| self.clear(p));
        Ok(Accepted { value: NONE, freed: freed.iter().map(|&p| p as u16).collect() })
    }

    /// The lowest free number becomes a draft with four empty links.
    pub fn new_draft(&mut self) -> Result<Accepted, Refusal> {
        let p = self.in_state(FREE).next().ok_or(Refusal::Full)?;
        self.states[p] = DRAFT;
        Ok(Accepted { value: p as u16, freed: Vec::new() })
    }

    /// Draft P's link K becomes T.
    pub fn set(&mut self, p: u16, k: u16, t: u16) -> Result<Accepted, Refusal> {
        let target = (t != NONE).then_some(usize::from(t));
        if usize::from(p) >= self.n() {
            return Err(Refusal::Number);
        }
        if usize::from(k) >= LINKS {
            return Err(Refusal::Place);
        }
        if target.map_or(false, |t| t >= self.n()) {
            return Err(Refusal::Target);
        }
        self.live(p)?;
        if target.map_or(false, |t| self.states[t] == FREE) {
            return Err(Refusal::FreeTarget);
        }
        let p = self.live_in(DRAFT, p)?;
        self.links[p][usize::from(k)] = t;
        self.settle()
    }

    /// P and every draft it reaches become frozen; P gets one hold of the seat's. A frozen P gets it
    /// only if the seat has none on it: a second hand-in is the same hand-in.
    pub fn freeze(&mut self, p: u16, seat: u16) -> Result<Accepted, Refusal> {
        seated(seat)?;
        let start = self.live(p)?;
        if self.states[start] == FROZEN {
            let held = self.line(start, seat).is_some();
            return if held { nothing() } else { self.acquire(p, seat) };
        }
        self.room(start, seat)?;
        for (q, reached) in self.reached(vec![start]).into_iter().enumerate() {
            if reached {
                self.states[q] = FROZEN;
            }
        }
        self.acquire(p, seat)
    }

    /// One hold of the seat's more on frozen P.
    pub fn acquire(&mut self, p: u16, seat: u16) -> Result<Accepted, Refusal> {
        seated(seat)?;
        let p = self.live_in(FROZEN, p)?;
        if self.holds()[p] == u32::from(HOLDS) {
            return Err(Refusal::Limit);
        }
        self.room(p, seat)?;
        self.one_more(p, seat);
        nothing()
    }

    /// One hold of the seat's less on frozen P.
    pub fn release(&mut self, p: u16, seat: u16) -> Result<Accepted, Refusal> {
        seated(seat)?;
        let p = self.live_in(FROZEN, p)?;
        if self.holds()[p] == 0 {
            return Err(Refusal::NotHeld);
        }
        self.one_less(p, seat)?;
        self.settle()
    }

    /// Draft P becomes free.
    pub fn bin(&mut self, p: u16) -> Result<Accepted, Refusal> {
        let p = self.live_in(DRAFT, p)?;
        let another = (0..self.n()).filter(|&q| q != p);
        if another.into_iter().any(|q| self.named(q).any(|named| named == p)) {
            return Err(Refusal::Linked);
        }
        self.clear(p);
        self.settle()
    }

    /// State, leader, count of its group, holds of P.
    pub fn look(&self, p: u16) -> Result<Seen, Refusal> {
        let p = self.live(p)?;
        if self.states[p] == DRAFT {
            return Ok(Seen { state: DRAFT, leader: NONE, count: 0, holds: 0 });
        }
        let namers = self.namers();
        let group = self.group(p, &namers);
        let (leader, count) = (self.leader(&group), self.count(&group, &namers));
        Ok(Seen { state: FROZEN, leader, count, holds: self.holds()[p] as u16 })
    }
}

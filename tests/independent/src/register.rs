//! The register: which seat has how many holds on which piece.

use crate::pieces::Pieces;
use crate::tables::{Refusal, Store, LINE, LINES, SEATS};

/// A used line of the register. Lines are ordered by seat, then piece.
#[derive(Clone, Copy, Debug, PartialEq, Eq, PartialOrd, Ord)]
pub struct Line {
    pub seat: u16,
    pub piece: u16,
    pub number: u16,
}

/// The used lines of a store whose areas have their lengths.
pub fn used(store: &Store) -> Vec<Line> {
    let lines = store.register.chunks(LINE);
    lines
        .map(|line| Line { seat: line[0], piece: line[1], number: line[2] })
        .filter(|line| line.number > 0)
        .collect()
}

/// The register with these lines, then unused ones.
pub fn area(lines: &[Line]) -> Vec<u16> {
    let mut area: Vec<u16> =
        lines.iter().flat_map(|line| [line.seat, line.piece, line.number]).collect();
    area.resize(LINE * LINES, 0);
    area
}

/// SEAT unless the seat is one.
pub fn seated(seat: u16) -> Result<(), Refusal> {
    if seat < SEATS {
        Ok(())
    } else {
        Err(Refusal::Seat)
    }
}

impl Pieces {
    /// The holds of each piece: the sum of the numbers of the lines that name it.
    pub fn holds(&self) -> Vec<u32> {
        let mut holds = vec![0; self.n()];
        for line in &self.register {
            holds[usize::from(line.piece)] += u32::from(line.number);
        }
        holds
    }

    /// The place of the seat's line for P, if it has one.
    pub fn line(&self, p: usize, seat: u16) -> Option<usize> {
        self.register.iter().position(|line| line.seat == seat && usize::from(line.piece) == p)
    }

    /// REGISTER if a hold of the seat's on P would need a line and none is free.
    pub fn room(&self, p: usize, seat: u16) -> Result<(), Refusal> {
        if self.line(p, seat).is_none() && self.register.len() == LINES {
            return Err(Refusal::Register);
        }
        Ok(())
    }

    /// One hold of the seat's more on P.
    pub fn one_more(&mut self, p: usize, seat: u16) {
        match self.line(p, seat) {
            Some(own) => self.register[own].number += 1,
            None => self.register.push(Line { seat, piece: p as u16, number: 1 }),
        }
        self.register.sort();
    }

    /// One hold of the seat's less on P, or NOTYOURS; a line that falls to 0 is removed.
    pub fn one_less(&mut self, p: usize, seat: u16) -> Result<(), Refusal> {
        let own = self.line(p, seat).ok_or(Refusal::NotYours)?;
        self.register[own].number -= 1;
        self.register.retain(|line| line.number > 0);
        Ok(())
    }
}

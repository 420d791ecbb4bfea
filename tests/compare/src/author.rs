//! Writes a trace line by line and follows what it does to the store.

use crate::random::Random;
use independent::pieces::Pieces;
use independent::register::Line;
use independent::tables::{CAPACITY, DRAFT, FREE, FROZEN, NONE};
use independent::trace::answer;

pub struct Author {
    pub random: Random,
    pub pieces: Pieces,
    /// How many seats act; while there is one, it is mostly not named.
    pub seats: u16,
    pub trace: Vec<u8>,
    pub lines: usize,
}

impl Author {
    pub fn new(seed: u64) -> Author {
        let pieces = Pieces::empty(CAPACITY);
        Author { random: Random::new(seed), pieces, seats: 1, trace: Vec::new(), lines: 0 }
    }

    /// Writes a line of any bytes but 10.
    pub fn write(&mut self, line: &[u8]) {
        answer(&mut self.pieces, line);
        self.trace.extend(line);
        self.trace.push(b'\n');
        self.lines += 1;
    }

    /// A number as a word, now and then with leading zeros.
    pub fn word(&mut self, number: u16) -> String {
        match self.random.below(32) {
            0 => format!("{number:05}"),
            1 => format!("{number:03}"),
            _ => number.to_string(),
        }
    }

    /// Writes a command with one number.
    fn command(&mut self, command: char, p: u16) {
        let line = format!("{command} {}", self.word(p));
        self.write(line.as_bytes());
    }

    /// The number of a piece made, none if the table is full.
    pub fn make(&mut self) -> Option<u16> {
        let lowest = self.pieces.in_state(FREE).next();
        self.write(b"n");
        lowest.map(|p| p as u16)
    }

    pub fn set(&mut self, p: u16, k: u16, t: u16) {
        let dash = t == NONE && !self.random.once_in(4);
        let target = if dash { "-".to_string() } else { self.word(t) };
        let line = format!("s {} {} {target}", self.word(p), self.word(k));
        self.write(line.as_bytes());
    }

    /// Writes a command with a piece and a seat; seat 0 is now and then not named.
    pub fn by(&mut self, command: char, p: u16, seat: u16) {
        if seat == 0 && !self.random.once_in(if self.seats == 1 { 16 } else { 2 }) {
            return self.command(command, p);
        }
        let line = format!("{command} {} {}", self.word(p), self.word(seat));
        self.write(line.as_bytes());
    }

    /// One of the seats that act.
    pub fn seat(&mut self) -> u16 {
        self.random.below(self.seats.into()) as u16
    }

    pub fn freeze(&mut self, p: u16) {
        let seat = self.seat();
        self.by('f', p, seat);
    }

    pub fn acquire(&mut self, p: u16) {
        let seat = self.seat();
        self.by('a', p, seat);
    }

    /// Releases P, mostly by a seat that has a hold on it if one has.
    pub fn release(&mut self, p: u16) {
        let seat = match self.owner(p) {
            Some(owner) if self.seats == 1 || !self.random.once_in(8) => owner,
            _ => self.seat(),
        };
        self.by('r', p, seat);
    }

    /// One of the seats that have a hold on P.
    pub fn owner(&mut self, p: u16) -> Option<u16> {
        let lines = self.pieces.register.iter().filter(|line| line.piece == p);
        let seats: Vec<u16> = lines.map(|line| line.seat).collect();
        (!seats.is_empty()).then(|| self.random.pick(&seats))
    }

    /// One of the used lines of the register.
    pub fn one_line(&mut self) -> Option<Line> {
        let lines = &self.pieces.register;
        (!lines.is_empty()).then(|| self.random.pick(lines))
    }

    pub fn bin(&mut self, p: u16) {
        self.command('b', p);
    }

    pub fn look(&mut self, p: u16) {
        self.command('l', p);
    }

    /// One of the pieces of which something holds.
    pub fn one(&mut self, holds: impl Fn(&Pieces, usize) -> bool) -> Option<u16> {
        let all: Vec<usize> = (0..CAPACITY).filter(|&p| holds(&self.pieces, p)).collect();
        (!all.is_empty()).then(|| self.random.pick(&all) as u16)
    }

    pub fn one_free(&mut self) -> Option<u16> {
        self.one(|pieces, p| pieces.states[p] == FREE)
    }

    pub fn one_draft(&mut self) -> Option<u16> {
        self.one(|pieces, p| pieces.states[p] == DRAFT)
    }

    pub fn one_frozen(&mut self) -> Option<u16> {
        self.one(|pieces, p| pieces.states[p] == FROZEN)
    }

    pub fn one_live(&mut self) -> Option<u16> {
        self.one(|pieces, p| pieces.states[p] != FREE)
    }

    pub fn one_held(&mut self) -> Option<u16> {
        let holds = self.pieces.holds();
        self.one(|_, p| holds[p] > 0)
    }

    /// A link place.
    pub fn place(&mut self) -> u16 {
        self.random.below(4) as u16
    }

    /// The live pieces.
    pub fn live(&self) -> usize {
        CAPACITY - self.pieces.in_state(FREE).count()
    }

    /// The holds of P.
    pub fn holds(&self, p: u16) -> u32 {
        self.pieces.holds()[usize::from(p)]
    }
}

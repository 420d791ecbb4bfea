//! Registers that are wrong in one respect, by name; all else is as defined for them, if it can be.

use crate::near::{in_state, one, Spoil};
use compare::random::Random;
use independent::register::{area, used, Line};
use independent::tables::{Tables, DRAFT, FREE, FROZEN, LINE, LINES};

/// The used lines.
fn lines(t: &mut Tables) -> Vec<Line> {
    used(&t.lend().0)
}

/// The place of one of the used lines of which something holds.
fn place(r: &mut Random, lines: &[Line], holds: impl Fn(&Line) -> bool) -> Option<usize> {
    one(r, lines.len(), |i| holds(&lines[i]))
}

/// Writes so many used lines, in the order given.
fn write(t: &mut Tables, lines: Vec<Line>) -> Option<()> {
    (lines.len() <= LINES).then(|| t.register = area(&lines))
}

/// One line more, in its order, of a pair that has none.
fn with(t: &mut Tables, line: Line) -> Option<()> {
    let mut lines = lines(t);
    if lines.iter().any(|other| (other.seat, other.piece) == (line.seat, line.piece)) {
        return None;
    }
    lines.push(line);
    lines.sort();
    write(t, lines)
}

/// Frozen P has so many holds more, and its group's count goes along.
fn held(t: &mut Tables, p: usize, more: i32) {
    t.holds[p] = (i32::from(t.holds[p]) + more) as u16;
    let count = &mut t.counts[usize::from(t.leaders[p])];
    *count = (*count as i32 + more) as u32;
}

/// A frozen piece with a hold that may have one more.
fn holding(r: &mut Random, t: &Tables) -> Option<usize> {
    one(r, t.n, |p| t.states[p] == FROZEN && (1..1_000).contains(&t.holds[p]))
}

/// A line that names a piece in that state, which has so many holds.
fn naming(t: &mut Tables, r: &mut Random, state: u8, holds: u16) -> Option<()> {
    let (seat, p) = (r.below(32) as u16, in_state(r, t, state)?);
    t.holds[p] = holds;
    with(t, Line { seat, piece: p as u16, number: 1 })
}

pub const UNREGISTERED: &[(&str, Spoil)] = &[
    ("two lines in the other order", |t, r| {
        let mut lines = lines(t);
        let i = one(r, lines.len().max(1) - 1, |_| true)?;
        lines.swap(i, i + 1);
        write(t, lines)
    }),
    ("lines ordered by piece, then seat", |t, _| {
        let mut lines = lines(t);
        let before = lines.clone();
        lines.sort_by_key(|line| (line.piece, line.seat));
        (lines != before).then(|| write(t, lines))?
    }),
    ("a pair twice", |t, r| {
        let mut lines = lines(t);
        let i = place(r, &lines, |line| line.number > 1)?;
        lines[i].number -= 1;
        lines.insert(i, Line { number: 1, ..lines[i] });
        write(t, lines)
    }),
    ("a zero line before or between the used ones", |t, r| {
        let mut lines = lines(t);
        let i = place(r, &lines, |_| true)?;
        lines.insert(i, Line { seat: 0, piece: 0, number: 0 });
        write(t, lines)
    }),
    ("a line of number 0 in its order", |t, r| {
        let (seat, p) = (r.from(1, 31) as u16, in_state(r, t, FROZEN)?);
        with(t, Line { seat, piece: p as u16, number: 0 })
    }),
    ("a seat behind the last line", |t, r| {
        let used = lines(t).len();
        let i = one(r, LINES, |i| i >= used)?;
        t.register[LINE * i] = r.pick(&[1, 31, 32]);
        Some(())
    }),
    ("a piece behind the last line", |t, r| {
        let used = lines(t).len();
        let i = one(r, LINES, |i| i == used || i == LINES - 1)?;
        t.register[LINE * i + 1] = r.pick(&[1, t.n as u16]);
        Some(())
    }),
    ("a line at the end that unused ones part from the others", |t, r| {
        let p = holding(r, t)?;
        t.register[LINE * LINES - LINE..].copy_from_slice(&[31, p as u16, 1]);
        held(t, p, 1);
        Some(())
    }),
    ("a number of 1,001", |t, r| {
        let mut lines = lines(t);
        let i = place(r, &lines, |_| true)?;
        let more = 1_001 - i32::from(lines[i].number);
        lines[i].number = 1_001;
        held(t, lines[i].piece.into(), more);
        write(t, lines)
    }),
    ("1,001 holds of two seats", |t, r| {
        let mut lines = lines(t);
        let i = place(r, &lines, |line| t.holds[usize::from(line.piece)] > line.number)?;
        let more = 1_001 - t.holds[usize::from(lines[i].piece)];
        lines[i].number += more;
        held(t, lines[i].piece.into(), more.into());
        write(t, lines)
    }),
    ("seat 32", |t, r| {
        let p = holding(r, t)?;
        held(t, p, 1);
        with(t, Line { seat: 32, piece: p as u16, number: 1 })
    }),
    ("piece N", |t, r| {
        let seat = r.below(32) as u16;
        with(t, Line { seat, piece: t.n as u16, number: 1 })
    }),
    ("a line that names a draft", |t, r| naming(t, r, DRAFT, 0)),
    ("a line that names a draft, with that hold", |t, r| naming(t, r, DRAFT, 1)),
    ("a line that names a free number", |t, r| naming(t, r, FREE, 0)),
    ("a line that names a free number, with that hold", |t, r| naming(t, r, FREE, 1)),
    ("a sum one below the holds", |t, r| holding(r, t).map(|p| held(t, p, 1))),
    ("a sum one above the holds", |t, r| {
        let p = one(r, t.n, |p| t.holds[p] > 1)?;
        held(t, p, -1);
        Some(())
    }),
    ("a line lost", |t, r| {
        let mut lines = lines(t);
        lines.remove(place(r, &lines, |_| true)?);
        write(t, lines)
    }),
    ("a hold at another piece", |t, r| {
        let mut lines = lines(t);
        let i = place(r, &lines, |line| line.number > 1)?;
        let q = one(r, t.n, |q| t.states[q] == FROZEN && q != usize::from(lines[i].piece))?;
        lines[i].number -= 1;
        let line = Line { seat: lines[i].seat, piece: q as u16, number: 1 };
        write(t, lines)?;
        with(t, line)
    }),
    ("a sum that wraps around to the holds", |t, r| {
        let mut lines = lines(t);
        let i = place(r, &lines, |line| t.holds[usize::from(line.piece)] > line.number)?;
        let j = (0..lines.len()).find(|&j| j != i && lines[j].piece == lines[i].piece)?;
        let sum = lines[i].number + lines[j].number;
        (lines[i].number, lines[j].number) = (65_535, sum + 1);
        write(t, lines)
    }),
];

//! Seats change no line of another's, and hand pieces in twice.

use compare::profiles::{trace, PROFILES};
use independent::line::{read, Command};
use independent::pieces::Pieces;
use independent::register::Line;
use independent::tables::{CAPACITY, HOLDS, LINES, SEATS};
use independent::trace::{answer, lines};

/// The seat that a line names.
fn seat(line: &[u8]) -> Option<u16> {
    match read(line)? {
        Command::Freeze(_, seat) | Command::Acquire(_, seat) | Command::Release(_, seat) => {
            Some(seat)
        }
        _ => None,
    }
}

#[test]
fn no_line_changes_the_lines_of_a_seat_that_it_does_not_name() {
    for profile in PROFILES.iter().filter(|profile| profile.traces == 1) {
        let mut pieces = Pieces::empty(CAPACITY);
        for line in lines(&trace(profile, 1)) {
            let others = |pieces: &Pieces| -> Vec<Line> {
                let lines = pieces.register.iter().copied();
                lines.filter(|other| Some(other.seat) != seat(line)).collect()
            };
            let before = others(&pieces);
            answer(&mut pieces, line);
            assert_eq!(before, others(&pieces), "{}: {}", profile.name, line.escape_ascii());
        }
    }
}

#[test]
fn pieces_are_handed_in_twice() {
    let (mut same, mut other, mut at_limit, mut full) = (0, 0, 0, 0);
    let profiles = PROFILES.iter().filter(|profile| profile.name.starts_with("handed in twice"));
    for trace in profiles.flat_map(|profile| (0..4).map(move |seed| trace(profile, seed))) {
        let mut pieces = Pieces::empty(CAPACITY);
        for line in lines(&trace) {
            match read(line) {
                Some(Command::Freeze(p, seat)) if pieces.line(p.into(), seat).is_some() => {
                    same += 1;
                    at_limit += u32::from(pieces.holds()[usize::from(p)] == u32::from(HOLDS));
                    full += u32::from(pieces.register.len() == LINES);
                }
                Some(Command::Freeze(p, seat)) if seat < SEATS => {
                    other += u32::from(pieces.holds()[usize::from(p)] > 0);
                }
                _ => (),
            }
            answer(&mut pieces, line);
        }
    }
    let all = [same, other, at_limit, full];
    assert!(same > 2_000 && other > 600 && at_limit > 150 && full > 400, "{all:?}");
}

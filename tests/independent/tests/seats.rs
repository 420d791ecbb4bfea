//! Holds by seat: whose hold it is, the lines of the register, and refusals 12, 13 and 14.

mod shown;

use independent::pieces::Pieces;
use independent::register::{area, Line};
use independent::tables::{Refusal, LINES};
use shown::{show, Set, DONE, NEW_0, NEW_1};

#[rustfmt::skip]
const TWO_SEATS: Set = Set("two seats", 4, &[
    NEW_0, ("f 0 3", DONE), ("a 0 5", DONE), ("a 0 5", DONE), ("l 0", "0 2 0 3 3"),
    ("r 0", "13 - 0"), ("r 0 4", "13 - 0"), ("r 0 3", DONE), ("r 0 3", "13 - 0"), ("r 0 5", DONE),
    ("l 0", "0 2 0 1 1"), ("a 0", DONE), ("r 0 0", DONE), ("r 0 00005", "0 - 1 0"), ("r 0 5", "4 - 0"),
]);

#[rustfmt::skip]
const ORDER: Set = Set("lines by seat, then piece", 4, &[
    NEW_0, NEW_1, ("f 1 2", DONE), ("f 0 2", DONE), ("a 1 31", DONE), ("a 1", DONE), ("a 0 1", DONE),
    ("a 1 2", DONE), ("a 0 9", DONE), ("r 0 9", DONE),
]);

#[rustfmt::skip]
const REFUSED: &[Set] = &[
    Set("SEAT before NUMBER and FREE", 2, &[
        NEW_0, ("f 0 32", "12 - 0"), ("a 9 32", "12 - 0"), ("r 1 65535", "12 - 0"),
        ("a 9 31", "3 - 0"), ("r 1 31", "4 - 0"), ("a 0 31", "5 - 0"), ("f 0 31", DONE),
        ("a 0 32", "12 - 0"),
    ]),
    Set("NOTHELD before NOTYOURS", 2, &[
        NEW_0, NEW_1, ("s 0 0 1", DONE), ("f 0 1", DONE), ("r 1 1", "7 - 0"), ("r 1 2", "7 - 0"),
        ("r 0 2", "13 - 0"), ("a 1 2", DONE), ("r 1 1", "13 - 0"), ("r 0 1", "0 - 1 0"),
        ("r 1 2", "0 - 1 1"),
    ]),
    Set("LIMIT is of all seats", 1, &[
        NEW_0, ("f 0 7", DONE), ("599*a 0 7", DONE), ("400*a 0 8", DONE), ("a 0 8", "6 - 0"),
        ("a 0 9", "6 - 0"), ("f 0 9", "6 - 0"), ("r 0 9", "13 - 0"), ("r 0 8", DONE), ("f 0 9", DONE),
        ("l 0", "0 2 0 1000 1000"),
    ]),
];

#[test]
fn a_hold_belongs_to_its_seat() {
    assert!(show(&TWO_SEATS).register.is_empty());
}

#[test]
fn lines_stand_by_seat_then_piece() {
    let lines = [[0, 1, 1], [1, 0, 1], [2, 0, 1], [2, 1, 2], [31, 1, 1]].concat();
    let (used, unused) = (lines.len(), vec![0; 3_072 - lines.len()]);
    let written = area(&show(&ORDER).register);
    assert_eq!((&written[..used], &written[used..]), (&lines[..], &unused[..]));
}

#[test]
fn refusals_in_their_order() {
    REFUSED.iter().for_each(|set| drop(show(set)));
}

/// 32 frozen pieces with a hold of every seat's each: all lines are used; then a frozen piece that
/// draft 33 alone keeps, and drafts 33 and 34, of which 34 names 33.
fn full() -> Pieces {
    let mut pieces = Pieces::empty(36);
    (0..35).for_each(|_| drop(pieces.new_draft()));
    for p in 0..33 {
        pieces.freeze(p, 0).expect("a line is free");
    }
    pieces.set(33, 0, 32).expect("a draft");
    pieces.set(34, 0, 33).expect("a draft");
    pieces.release(32, 0).expect("a hold");
    for seat in 1..32 {
        (0..32).for_each(|p| drop(pieces.acquire(p, seat).expect("a line is free")));
    }
    assert_eq!(pieces.register.len(), LINES);
    pieces
}

#[test]
fn a_full_register() {
    let mut pieces = full();
    let before = pieces.clone();
    assert_eq!(pieces.acquire(32, 5), Err(Refusal::Register));
    assert_eq!(pieces.freeze(32, 5), Err(Refusal::Register));
    assert_eq!(pieces.freeze(34, 0), Err(Refusal::Register));
    assert!(pieces.freeze(0, 0).is_ok() && pieces.freeze(31, 31).is_ok());
    assert_eq!(pieces, before);
    assert!(pieces.acquire(31, 31).is_ok());
    (2..969).for_each(|_| drop(pieces.acquire(31, 31).expect("below the limit")));
    assert_eq!(pieces.acquire(31, 31), Err(Refusal::Limit));
    assert!(pieces.freeze(31, 31).is_ok());
    assert!(pieces.release(4, 4).is_ok() && pieces.freeze(34, 4).is_ok());
    assert_eq!(pieces.register.len(), LINES);
    assert_eq!(pieces.acquire(4, 4), Err(Refusal::Register));
    let own = pieces.line(34, 4).expect("a line");
    assert_eq!(pieces.register[own], Line { seat: 4, piece: 34, number: 1 });
}

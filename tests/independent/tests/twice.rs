//! Handing in twice: a freeze of a frozen piece on which the seat has a hold changes nothing.

mod shown;

use independent::calls;
use independent::tables::{Tables, NONE};
use shown::{show, Set, DONE, NEW_0, NEW_1};

#[rustfmt::skip]
const TWICE: &[Set] = &[
    Set("pressed again by one seat", 1, &[
        NEW_0, ("f 0 3", DONE), ("2*f 0 3", DONE), ("l 0", "0 2 0 1 1"), ("f 0 32", "12 - 0"),
        ("r 0 3", "0 - 1 0"), ("f 0 3", "4 - 0"), NEW_0, ("2*f 0 3", DONE), ("l 0", "0 2 0 1 1"),
    ]),
    Set("another seat hands it in too", 1, &[
        NEW_0, ("f 0 3", DONE), ("2*f 0 4", DONE), ("l 0", "0 2 0 2 2"), ("r 0 3", DONE),
        ("r 0 3", "13 - 0"), ("2*f 0 3", DONE), ("f 0 4", DONE), ("r 0 4", DONE), ("r 0 3", "0 - 1 0"),
    ]),
    Set("holds that were acquired stay", 1, &[
        NEW_0, ("f 0", DONE), ("2*a 0", DONE), ("f 0", DONE), ("l 0", "0 2 0 3 3"), ("2*r 0", DONE),
        ("r 0", "0 - 1 0"),
    ]),
    Set("a hold that was acquired is one", 2, &[
        NEW_0, NEW_1, ("s 0 0 1", DONE), ("f 0 3", DONE), ("a 1 4", DONE), ("f 1 4", DONE),
        ("l 1", "0 2 1 2 1"), ("f 1 3", DONE), ("l 1", "0 2 1 3 2"),
    ]),
    Set("a hold on another member is none on this one", 2, &[
        NEW_0, NEW_1, ("s 0 0 1", DONE), ("s 1 0 0", DONE), ("f 0 3", DONE), ("2*f 1 3", DONE),
        ("l 0", "0 2 0 2 1"), ("l 1", "0 2 0 2 1"),
    ]),
    Set("a frozen piece without holds", 2, &[
        NEW_0, NEW_1, ("s 0 0 1", DONE), ("f 1", DONE), ("r 1", DONE), ("2*f 1", DONE),
        ("l 1", "0 2 1 2 1"),
    ]),
    Set("LIMIT only where a hold is added", 1, &[
        NEW_0, ("f 0 7", DONE), ("998*a 0 7", DONE), ("f 0 8", DONE), ("2*f 0 7", DONE), ("f 0 8", DONE),
        ("f 0 9", "6 - 0"), ("a 0 7", "6 - 0"), ("l 0", "0 2 0 1000 1000"), ("r 0 8", DONE),
        ("f 0 7", DONE), ("2*f 0 9", DONE), ("f 0 8", "6 - 0"),
    ]),
];

#[test]
fn a_second_hand_in_is_the_same() {
    TWICE.iter().for_each(|set| drop(show(set)));
}

#[test]
fn a_second_hand_in_changes_nothing_but_work() {
    let mut tables = Tables::empty(2);
    let (mut store, list, work) = tables.lend();
    calls::new(&mut store, list, work);
    let first = calls::freeze(&mut store, list, work, 0, 5);
    (tables.list, tables.work) = (vec![9; 3], vec![9; 17]);
    let mut expected = tables.clone();
    expected.work[..16].fill(0);
    let (mut store, list, work) = tables.lend();
    assert_eq!(calls::freeze(&mut store, list, work, 0, 5), first);
    assert_eq!((first.refusal, first.value, first.freed), (0, NONE, 0));
    assert_eq!(tables, expected);
}

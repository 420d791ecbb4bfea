//! The fourteen small sets of the rulebook and its worked trace.

mod shown;

use independent::trace::end;
use shown::{show, Set, DONE, NEW_0, NEW_1};

const NEW_2: (&str, &str) = ("n", "0 2 0");
const NEW_3: (&str, &str) = ("n", "0 3 0");

#[rustfmt::skip]
const SETS: &[Set] = &[
    // No links, freeze 0: leader 0, count 1.
    Set("1", 1024, &[NEW_0, ("f 0", DONE), ("l 0", "0 2 0 1 1")]),
    // 0 links to itself, freeze 0: count 1.
    Set("2", 1024, &[NEW_0, ("s 0 0 0", DONE), ("f 0", DONE), ("l 0", "0 2 0 1 1")]),
    // 0 names 1 in two places, freeze 0: group of 1 has count 2.
    Set("3", 1024, &[
        NEW_0, NEW_1, ("s 0 0 1", DONE), ("s 0 3 1", DONE), ("f 0", DONE),
        ("l 0", "0 2 0 1 1"), ("l 1", "0 2 1 2 0"),
    ]),
    // 0 and 1 name each other, freeze 1: leader 0, count 1; hold on 1.
    Set("4", 1024, &[
        NEW_0, NEW_1, ("s 0 0 1", DONE), ("s 1 0 0", DONE), ("f 1", DONE),
        ("l 0", "0 2 0 1 0"), ("l 1", "0 2 0 1 1"),
    ]),
    // Draft 2 names 0, freeze 0: count 2. Release 0 frees none. Bin 2 frees piece 0.
    Set("5", 1024, &[
        NEW_0, NEW_1, NEW_2, ("s 2 0 0", DONE), ("f 0", DONE), ("l 0", "0 2 0 2 1"),
        ("r 0", DONE), ("l 0", "0 2 0 1 0"), ("b 2", "0 - 1 0"), ("l 0", "4 - 0"),
    ]),
    // Freeze 1, draft 0 names 1 (count 2), freeze 0: count of 1 is still 2.
    Set("6", 1024, &[
        NEW_0, NEW_1, ("f 1", DONE), ("s 0 0 1", DONE), ("l 1", "0 2 1 2 1"),
        ("f 0", DONE), ("l 1", "0 2 1 2 1"),
    ]),
    // Frozen 1 kept only by draft 0; the same link set again: none freed.
    Set("7", 1024, &[
        NEW_0, NEW_1, ("s 0 0 1", DONE), ("f 1", DONE), ("r 1", DONE),
        ("s 0 0 1", DONE), ("l 1", "0 2 1 1 0"),
    ]),
    // 1 and 2 frozen in one group, kept only by draft 0's link to 1; that link set to 2: none freed.
    Set("8", 1024, &[
        NEW_0, NEW_1, NEW_2, ("s 1 0 2", DONE), ("s 2 0 1", DONE), ("s 0 0 1", DONE),
        ("f 1", DONE), ("r 1", DONE), ("s 0 0 2", DONE), ("l 2", "0 2 1 1 0"),
    ]),
    // 0 to 1 to 2, freeze 0, release 0: frees 0 1 2.
    Set("9", 1024, &[
        NEW_0, NEW_1, NEW_2, ("s 0 0 1", DONE), ("s 1 0 2", DONE), ("f 0", DONE),
        ("r 0", "0 - 3 0 1 2"),
    ]),
    // 0 to 1 and 2, both to 3, freeze 0: count of 3 is 2; release 0 frees 0 1 2 3.
    Set("10", 1024, &[
        NEW_0, NEW_1, NEW_2, NEW_3, ("s 0 0 1", DONE), ("s 0 1 2", DONE), ("s 1 0 3", DONE),
        ("s 2 0 3", DONE), ("f 0", DONE), ("l 3", "0 2 3 2 0"), ("r 0", "0 - 4 0 1 2 3"),
    ]),
    // 999 holds, acquire: accepted. 1,000 holds of seat 0's: acquire gives 6, and so does a freeze by
    // another seat; its own second freeze is accepted.
    Set("11", 1024, &[
        NEW_0, ("f 0", DONE), ("998*a 0", DONE), ("l 0", "0 2 0 999 999"), ("a 0", DONE),
        ("l 0", "0 2 0 1000 1000"), ("a 0", "6 - 0"), ("f 0 1", "6 - 0"), ("f 0", DONE),
        ("l 0", "0 2 0 1000 1000"),
    ]),
    // Bin of a draft linked by itself: accepted; by another draft: 8.
    Set("12", 1024, &[
        NEW_0, ("s 0 0 0", DONE), ("b 0", DONE), NEW_0, NEW_1, ("s 1 0 0", DONE),
        ("b 0", "8 - 0"), ("l 0", "0 1 - 0 0"),
    ]),
    // N = 1, second new: 9.
    Set("13", 1, &[NEW_0, ("n", "9 - 0")]),
    // N = 4: number 3 may be named, 4 gives 3, as a target 16; link place 3 is right, 4 gives 15.
    Set("14", 4, &[
        NEW_0, NEW_1, NEW_2, NEW_3, ("s 0 0 3", DONE), ("s 0 0 4", "16 - 0"),
        ("s 3 3 0", DONE), ("s 3 4 0", "15 - 0"), ("l 3", "0 1 - 0 0"), ("l 4", "3 - 0"),
    ]),
];

/// The trace of the rulebook that is given whole.
#[rustfmt::skip]
const WORKED: Set = Set("worked trace", 1024, &[
    NEW_0, NEW_1, NEW_2, ("s 0 0 1", DONE), ("s 1 0 0", DONE), ("s 0 1 2", DONE), ("f 0", DONE),
    ("l 1", "0 2 0 1 0"), ("a 2", DONE), ("r 1", "7 - 0"), ("r 0", "0 - 2 0 1"), NEW_0,
    ("r 2", "0 - 1 2"),
]);

#[test]
fn the_fourteen_sets() {
    let numbers: Vec<usize> = SETS.iter().filter_map(|set| set.0.parse().ok()).collect();
    assert_eq!(numbers, Vec::from_iter(1..=14));
    for set in SETS {
        show(set);
    }
}

#[test]
fn the_worked_trace() {
    assert_eq!(end(&show(&WORKED)), "= 1 0 0");
}

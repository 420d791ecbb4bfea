//! The links into drafts: what is counted, what each call makes of it, and when it is spoiled.

mod shown;

use independent::calls::{self, Check};
use independent::pieces::Pieces;
use independent::tables::{Refusal, Tables, CAPACITY, DRAFT, FROZEN};
use shown::{show, Set, DONE, NEW_0, NEW_1};

const NEW_2: (&str, &str) = ("n", "0 2 0");

/// Sets, each with the links into its pieces at the end.
#[rustfmt::skip]
const SETS: &[(Set, &[u16])] = &[
    (Set("two places of one piece count twice", 2, &[
        NEW_0, NEW_1, ("s 0 0 1", DONE), ("s 0 3 1", DONE),
    ]), &[0, 2]),
    (Set("a link of its own does not count", 2, &[
        NEW_0, NEW_1, ("s 0 0 0", DONE), ("s 0 1 0", DONE), ("s 1 2 0", DONE),
    ]), &[1, 0]),
    (Set("the former target has one less", 3, &[
        NEW_0, NEW_1, NEW_2, ("s 0 0 1", DONE), ("s 0 1 1", DONE), ("s 0 0 2", DONE),
    ]), &[0, 1, 1]),
    (Set("the same target again", 2, &[NEW_0, NEW_1, ("s 0 0 1", DONE), ("s 0 0 1", DONE)]), &[0, 1]),
    (Set("none, then itself", 2, &[
        NEW_0, NEW_1, ("s 0 0 1", DONE), ("s 0 0 -", DONE), ("s 0 1 1", DONE), ("s 0 1 0", DONE),
    ]), &[0, 0]),
    (Set("a refused set changes nothing", 3, &[
        NEW_0, NEW_1, ("s 0 0 1", DONE), ("s 0 0 2", "17 - 0"), ("s 0 4 1", "15 - 0"),
    ]), &[0, 1, 0]),
    (Set("drafts in a loop", 3, &[
        NEW_0, NEW_1, NEW_2, ("s 0 0 1", DONE), ("s 1 0 2", DONE), ("s 2 0 0", DONE), ("s 2 3 0", DONE),
    ]), &[2, 1, 1]),
    (Set("a frozen loop has none, and its count has those from outside", 3, &[
        NEW_0, NEW_1, NEW_2, ("s 0 0 1", DONE), ("s 1 0 0", DONE), ("s 1 1 0", DONE), ("s 2 0 1", DONE),
        ("s 2 3 1", DONE), ("f 0", DONE), ("l 1", "0 2 0 3 0"), ("s 2 3 2", DONE), ("l 1", "0 2 0 2 0"),
    ]), &[0, 0, 0]),
    (Set("what a freeze leaves a draft keeps its links into it", 4, &[
        NEW_0, NEW_1, NEW_2, ("n", "0 3 0"), ("s 2 0 0", DONE), ("s 2 1 3", DONE), ("s 3 0 2", DONE),
        ("s 0 0 1", DONE), ("f 0", DONE), ("l 0", "0 2 0 2 1"),
    ]), &[0, 0, 1, 1]),
    (Set("links to a frozen piece do not count", 2, &[
        NEW_0, NEW_1, ("f 1", DONE), ("s 0 0 1", DONE), ("s 0 1 1", DONE), ("l 1", "0 2 1 3 1"),
    ]), &[0, 0]),
    (Set("bin takes the links of the piece along", 3, &[
        NEW_0, NEW_1, NEW_2, ("s 0 0 1", DONE), ("s 0 1 1", DONE), ("s 0 2 0", DONE), ("s 2 0 1", DONE),
        ("b 1", "8 - 0"), ("b 0", DONE), ("b 1", "8 - 0"),
    ]), &[0, 1, 0]),
    (Set("LINKED up to the last place", 2, &[
        NEW_0, NEW_1, ("s 0 0 1", DONE), ("s 0 1 1", DONE), ("s 1 0 1", DONE), ("s 0 0 -", DONE),
        ("b 1", "8 - 0"), ("s 0 1 0", DONE), ("b 1", DONE),
    ]), &[0, 0]),
    (Set("a number used again is named by nobody", 2, &[
        NEW_0, NEW_1, ("s 0 0 1", DONE), ("s 1 0 0", DONE), ("f 0", DONE), ("r 0", "0 - 2 0 1"), NEW_0,
        NEW_1, ("s 1 0 0", DONE), ("s 1 0 1", DONE), ("b 0", DONE), NEW_0,
    ]), &[0, 0]),
];

#[test]
fn what_is_counted() {
    for (set, into) in SETS {
        assert_eq!(show(set).links_into(), *into, "{}", set.0);
    }
}

#[test]
fn the_most() {
    let mut pieces = Pieces::empty(CAPACITY);
    pieces.states.fill(DRAFT);
    pieces.links.fill([5; 4]);
    let mut most = vec![0; CAPACITY];
    most[5] = 4_092;
    assert_eq!(pieces.links_into(), most);
    assert_eq!(pieces.bin(5), Err(Refusal::Linked));
    assert!(pieces.bin(1_023).is_ok());
    most[5] = 4_088;
    assert_eq!(pieces.links_into(), most);
    assert!(pieces.freeze(5, 0).is_ok());
    assert_eq!(pieces.look(5).map(|seen| seen.count), Ok(4_089));
    assert_eq!(pieces.links_into(), vec![0; CAPACITY]);
}

/// Drafts 0 and 1, of which 0 names 1 twice, itself and the frozen piece 2; 3 is free.
fn some() -> Tables {
    let mut tables = Tables::empty(4);
    tables.states = vec![DRAFT, DRAFT, FROZEN, 0];
    tables.links[..4].copy_from_slice(&[1, 0, 1, 2]);
    tables.leaders[2] = 2;
    tables.counts[2] = 1;
    tables.into[1] = 2;
    tables
}

#[test]
fn each_spoiled_entry_is_seen() {
    let check = |tables: &mut Tables| {
        let (store, _, work) = tables.lend();
        calls::check(&store, work)
    };
    assert_eq!(check(&mut some()), Check { refusal: 0, yes: true });
    for (name, p, into) in [
        ("one too many", 1, 3),
        ("one too few", 1, 1),
        ("none", 1, 0),
        ("a link of its own counted", 0, 1),
        ("one below 0", 0, 65_535),
        ("counted for a frozen piece", 2, 1),
        ("counted for a free number", 3, 1),
    ] {
        let mut tables = some();
        tables.into[p] = into;
        assert_eq!(check(&mut tables), Check { refusal: 0, yes: false }, "{name}");
        let (mut store, list, work) = tables.lend();
        assert_eq!(calls::bin(&mut store, list, work, 0).refusal, 2, "{name}");
        assert_eq!(tables.into[p], into, "{name}");
    }
}

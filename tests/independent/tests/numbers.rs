//! Which number was wrong: refusals 3, 15, 16, 4 and 17 in their order, alone and several at once.

mod shown;

use independent::pieces::Pieces;
use independent::tables::{Refusal, FREE, LINKS, NONE};
use shown::{show, Set, DONE, NEW_0, NEW_1};

#[rustfmt::skip]
const SETS: &[Set] = &[
    Set("one number is wrong", 4, &[
        NEW_0, NEW_1, ("f 1", DONE), ("s 4 0 0", "3 - 0"), ("s 0 4 0", "15 - 0"),
        ("s 0 0 4", "16 - 0"), ("s 2 0 0", "4 - 0"), ("s 0 0 2", "17 - 0"), ("s 1 0 0", "5 - 0"),
        ("s 0 3 1", DONE),
    ]),
    Set("several are", 4, &[
        NEW_0, NEW_1, ("f 1", DONE), ("s 4 4 4", "3 - 0"), ("s 4 4 0", "3 - 0"), ("s 4 0 4", "3 - 0"),
        ("s 4 0 2", "3 - 0"), ("s 0 4 4", "15 - 0"), ("s 2 4 4", "15 - 0"), ("s 2 4 0", "15 - 0"),
        ("s 0 4 2", "15 - 0"), ("s 1 4 1", "15 - 0"), ("s 2 0 4", "16 - 0"), ("s 1 0 4", "16 - 0"),
        ("s 2 0 3", "4 - 0"), ("s 2 0 2", "4 - 0"), ("s 1 0 2", "17 - 0"),
    ]),
    Set("none is no target", 4, &[
        NEW_0, NEW_1, ("f 1", DONE), ("s 0 0 -", DONE), ("s 0 0 65535", DONE), ("s 0 0 65534", "16 - 0"),
        ("s 65535 0 -", "3 - 0"), ("s 0 65535 -", "15 - 0"), ("s 2 0 -", "4 - 0"), ("s 1 0 -", "5 - 0"),
    ]),
    Set("the other commands name a piece alone", 2, &[
        NEW_0, ("f 2", "3 - 0"), ("a 2", "3 - 0"), ("r 2", "3 - 0"), ("b 2", "3 - 0"), ("l 2", "3 - 0"),
        ("f 1", "4 - 0"), ("a 1", "4 - 0"), ("r 1", "4 - 0"), ("b 1", "4 - 0"), ("l 1", "4 - 0"),
    ]),
];

#[test]
fn wrong_numbers_in_their_order() {
    SETS.iter().for_each(|set| drop(show(set)));
}

/// Draft 0, the frozen piece 1, and the free numbers 2 and 3.
fn some() -> Pieces {
    let mut pieces = Pieces::empty(4);
    (0..2).for_each(|_| drop(pieces.new_draft()));
    pieces.freeze(1, 0).expect("a draft");
    pieces
}

#[test]
fn together_they_are_a_wrong_number_or_a_free_one() {
    let numbers = [0, 1, 2, 3, 4, 5, 65_534, NONE];
    for i in 0..numbers.len().pow(3) {
        let [p, k, t] = [i / 64, i / 8 % 8, i % 8].map(|i| numbers[i]);
        let pieces = some();
        let past = |q: u16| usize::from(q) >= pieces.n();
        let free = |q: u16| pieces.states[usize::from(q)] == FREE;
        let number = past(p) || usize::from(k) >= LINKS || (t != NONE && past(t));
        let refusal = some().set(p, k, t).err();
        let one_of = |all: &[Refusal]| all.iter().any(|&one| refusal == Some(one));
        assert_eq!(one_of(&[Refusal::Number, Refusal::Place, Refusal::Target]), number);
        let free = !number && (free(p) || (t != NONE && free(t)));
        assert_eq!(one_of(&[Refusal::Free, Refusal::FreeTarget]), free);
        assert_eq!(one_of(&[Refusal::State]), !number && !free && p == 1);
    }
}

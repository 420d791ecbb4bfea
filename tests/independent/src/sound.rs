//! Soundness, in the words of the rulebook.

use crate::pieces::Pieces;
use crate::tables::{Store, DRAFT, FREE, FROZEN, HOLDS, LINE, NONE, SEATS};

/// Whether piece P of a store with right lengths has links and holds that suit its state.
fn suited(store: &Store, p: usize) -> bool {
    let links = &store.links[4 * p..4 * p + 4];
    let state = |t: u16| store.states.get(usize::from(t)).copied();
    let none_or = |states: &[u8]| {
        links.iter().all(|&t| t == NONE || state(t).map_or(false, |s| states.contains(&s)))
    };
    match store.states[p] {
        FREE => none_or(&[]) && store.holds[p] == 0,
        DRAFT => none_or(&[DRAFT, FROZEN]) && store.holds[p] == 0,
        FROZEN => none_or(&[FROZEN]) && store.holds[p] <= HOLDS,
        _ => false,
    }
}

/// Whether the lines of the register of a store with right lengths are right: used lines first,
/// strictly ascending by seat, then piece; an unused line is 0 0 0.
fn registered(store: &Store) -> bool {
    let lines: Vec<&[u16]> = store.register.chunks(LINE).collect();
    let (used, unused) = lines.split_at(lines.iter().take_while(|line| line[2] > 0).count());
    let right = |line: &&[u16]| {
        line[0] < SEATS && usize::from(line[1]) < store.n && (1..=HOLDS).contains(&line[2])
    };
    used.iter().all(right)
        && used.windows(2).all(|two| two[0][..2] < two[1][..2])
        && unused.iter().all(|line| line == &[0; LINE])
}

/// The leaders and counts as defined: none and 0 but for frozen pieces and leaders.
pub fn leaders_and_counts(pieces: &Pieces) -> (Vec<u16>, Vec<u32>) {
    let namers = pieces.namers();
    let mut leaders = vec![NONE; pieces.n()];
    let mut counts = vec![0; pieces.n()];
    for group in pieces.groups() {
        let leader = pieces.leader(&group);
        counts[usize::from(leader)] = pieces.count(&group, &namers);
        group.iter().for_each(|&q| leaders[q] = leader);
    }
    (leaders, counts)
}

/// The pieces of a store with right lengths, if it is sound.
pub fn sound(store: &Store) -> Option<Pieces> {
    if !(0..store.n).all(|p| suited(store, p)) || !registered(store) {
        return None;
    }
    let pieces = Pieces::of(store);
    let summed =
        pieces.holds().iter().zip(store.holds.iter()).all(|(&sum, &p)| sum == u32::from(p));
    let (leaders, counts) = leaders_and_counts(&pieces);
    let linked = pieces.links_into() == store.into;
    let kept = pieces.kept();
    let all_kept = pieces.in_state(FROZEN).all(|p| kept[p]);
    let (led, counted) = (leaders == store.leaders, counts == store.counts);
    (summed && led && counted && linked && all_kept).then_some(pieces)
}

//! Drafts name each other in every way before they are set, frozen and binned.

use compare::profiles::{trace, PROFILES};
use independent::line::{read, Command};
use independent::pieces::Pieces;
use independent::tables::{CAPACITY, DRAFT, FROZEN, NONE};
use independent::trace::{answer, lines};

/// How often each thing happens in some traces.
#[derive(Debug, Default)]
struct Happened {
    /// Bins of drafts that another names, and of drafts that name others.
    linked: usize,
    binned: usize,
    /// Sets that take a link from another draft, and sets to the piece itself.
    taken: usize,
    own: usize,
    /// Freezes of pieces that drafts name which stay drafts, and freezes of loops.
    outside: usize,
    loops: usize,
    /// Pieces that were named by others when they were frozen, and are drafts again.
    again: usize,
    /// The most links into a draft that was to be binned.
    most: usize,
}

/// What a line did to the pieces before it.
fn add(happened: &mut Happened, line: &[u8], before: &Pieces, after: &Pieces, frozen: &mut [bool]) {
    let changed = before != after;
    let into = |p: usize| {
        let others = (0..CAPACITY).filter(|&q| q != p);
        others.flat_map(|q| before.named(q)).filter(|&named| named == p).count()
    };
    let fresh = |p: usize| before.states[p] == DRAFT && after.states[p] == FROZEN;
    let names = |p: usize| before.named(p).any(|q| q != p && before.states[q] == DRAFT);
    match read(line) {
        Some(Command::Bin(p)) if usize::from(p) < CAPACITY => {
            let p = usize::from(p);
            happened.linked += usize::from(into(p) > 0 && !changed);
            happened.most = happened.most.max(into(p));
            happened.binned += usize::from(changed && names(p));
        }
        Some(Command::Set(p, k, t)) if changed => {
            let former = before.links[usize::from(p)][usize::from(k)];
            let draft = former != NONE && before.states[usize::from(former)] == DRAFT;
            happened.taken += usize::from(draft && former != p);
            happened.own += usize::from(t == p);
        }
        Some(Command::Freeze(..)) if (0..CAPACITY).any(fresh) => {
            let outside = after.in_state(DRAFT).any(|p| after.named(p).any(fresh));
            happened.outside += usize::from(outside);
            happened.loops +=
                usize::from(after.groups().iter().any(|g| g.len() > 1 && fresh(g[0])));
            (0..CAPACITY).filter(|&p| fresh(p) && into(p) > 0).for_each(|p| frozen[p] = true);
        }
        Some(Command::New) => {
            let given = after.in_state(DRAFT).find(|&p| before.states[p] != DRAFT);
            let again = given.map_or(false, |p| std::mem::take(&mut frozen[p]));
            happened.again += usize::from(again);
        }
        _ => (),
    }
}

/// What happens in some traces of a profile.
fn happened(name: &str, traces: u64) -> Happened {
    let profile = PROFILES.iter().find(|profile| profile.name == name).expect("a profile");
    let mut happened = Happened::default();
    for seed in 0..traces {
        let (mut pieces, mut frozen) = (Pieces::empty(CAPACITY), vec![false; CAPACITY]);
        for line in lines(&trace(profile, seed)) {
            let before = pieces.clone();
            answer(&mut pieces, line);
            add(&mut happened, line, &before, &pieces, &mut frozen);
        }
    }
    happened
}

#[test]
fn drafts_name_each_other() {
    let all = happened("drafts that name each other", 4);
    assert!(all.linked > 150 && all.binned > 40 && all.taken > 300 && all.own > 200, "{all:?}");
    assert!(all.outside > 30 && all.loops > 15 && all.again > 60, "{all:?}");
}

#[test]
fn all_links_name_one_draft() {
    let all = happened("all links into one draft", 1);
    assert!(all.most == 4_092 && all.linked > 0 && all.outside == 1, "{all:?}");
}

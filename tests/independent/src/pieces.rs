//! Reach, group, leader, count, kept and the links into drafts, as the rulebook defines them.

use crate::register::{used, Line};
use crate::tables::{Store, DRAFT, FREE, FROZEN, LINKS, NONE};

/// What the commands change: states, links and the used lines of the register. All else follows
/// from them.
#[derive(Clone, Debug, PartialEq, Eq)]
pub struct Pieces {
    pub states: Vec<u8>,
    pub links: Vec<[u16; LINKS]>,
    pub register: Vec<Line>,
}

/// For each piece, the pieces with a link to it, once for each link place.
pub type Namers = Vec<Vec<usize>>;

/// All that steps lead to from the starts, the starts themselves included.
fn spread<I>(n: usize, starts: Vec<usize>, step: impl Fn(usize) -> I) -> Vec<bool>
where
    I: IntoIterator<Item = usize>,
{
    let mut found = vec![false; n];
    let mut waiting = starts;
    while let Some(p) = waiting.pop() {
        if !found[p] {
            found[p] = true;
            waiting.extend(step(p));
        }
    }
    found
}

impl Pieces {
    /// N free pieces.
    pub fn empty(n: usize) -> Pieces {
        Pieces { states: vec![FREE; n], links: vec![[NONE; LINKS]; n], register: Vec::new() }
    }

    /// The pieces of a store whose areas have their lengths.
    pub fn of(store: &Store) -> Pieces {
        Pieces {
            states: store.states.to_vec(),
            links: store
                .links
                .chunks(LINKS)
                .map(|four| [four[0], four[1], four[2], four[3]])
                .collect(),
            register: used(store),
        }
    }

    /// The capacity.
    pub fn n(&self) -> usize {
        self.states.len()
    }

    /// The pieces in the given state, ascending.
    pub fn in_state(&self, state: u8) -> impl Iterator<Item = usize> + '_ {
        (0..self.n()).filter(move |&p| self.states[p] == state)
    }

    /// The pieces that P's links name, one for each link place in use.
    pub fn named(&self, p: usize) -> impl Iterator<Item = usize> + '_ {
        self.links[p].iter().filter(|&&t| t != NONE).map(|&t| usize::from(t))
    }

    /// For each piece, the pieces with a link to it.
    pub fn namers(&self) -> Namers {
        let mut namers = vec![Vec::new(); self.n()];
        for p in 0..self.n() {
            self.named(p).for_each(|q| namers[q].push(p));
        }
        namers
    }

    /// What one of the starts reaches.
    pub fn reached(&self, starts: Vec<usize>) -> Vec<bool> {
        spread(self.n(), starts, |p| self.named(p))
    }

    /// The group of frozen P: all frozen pieces that it reaches and that reach it, ascending.
    pub fn group(&self, p: usize, namers: &Namers) -> Vec<usize> {
        let reached = self.reached(vec![p]);
        let reaching = spread(self.n(), vec![p], |q| namers[q].iter().copied());
        self.in_state(FROZEN).filter(|&q| reached[q] && reaching[q]).collect()
    }

    /// The groups, each once.
    pub fn groups(&self) -> Vec<Vec<usize>> {
        let namers = self.namers();
        let mut grouped = vec![false; self.n()];
        let mut groups = Vec::new();
        for p in self.in_state(FROZEN) {
            if !grouped[p] {
                let group = self.group(p, &namers);
                group.iter().for_each(|&q| grouped[q] = true);
                groups.push(group);
            }
        }
        groups
    }

    /// The leader: the lowest number in the group.
    pub fn leader(&self, group: &[usize]) -> u16 {
        *group.iter().min().expect("a group has a member") as u16
    }

    /// The count: the members' holds, and every link place of a live piece
    /// outside the group that names a member.
    pub fn count(&self, group: &[usize], namers: &Namers) -> u32 {
        let mut inside = vec![false; self.n()];
        group.iter().for_each(|&q| inside[q] = true);
        let holds = self.holds();
        let held: u32 = group.iter().map(|&q| holds[q]).sum();
        let outside = |q: &usize| namers[*q].iter().filter(|&&p| !inside[p]).count() as u32;
        held + group.iter().map(outside).sum::<u32>()
    }

    /// The links into each draft: the link places of other pieces that name it; 0 for all else.
    pub fn links_into(&self) -> Vec<u16> {
        let mut into = vec![0; self.n()];
        for p in self.in_state(DRAFT) {
            let others = (0..self.n()).filter(|&q| q != p);
            into[p] = others.flat_map(|q| self.named(q)).filter(|&named| named == p).count() as u16;
        }
        into
    }

    /// What is kept: reached from a draft, or from a frozen piece with a hold.
    pub fn kept(&self) -> Vec<bool> {
        let holds = self.holds();
        let held = self.in_state(FROZEN).filter(|&p| holds[p] > 0);
        self.reached(self.in_state(DRAFT).chain(held).collect())
    }
}

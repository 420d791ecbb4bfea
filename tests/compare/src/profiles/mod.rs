//! The profiles: each writes traces of one kind.

mod chains;
mod ends;
mod into;
mod keepers;
mod loops;
mod misses;
mod mixed;
mod refusals;
mod seats;
mod shapes;
mod steps;
mod twice;

use crate::author::Author;
use crate::random::Random;

/// A kind of trace, by name, and how many of them make up one round.
pub struct Profile {
    pub name: &'static str,
    pub traces: u64,
    pub write: fn(&mut Author),
}

impl Profile {
    /// The random numbers of a round, others for each profile.
    pub fn random(&self, round: u64) -> Random {
        let name =
            self.name.bytes().fold(0, |sum: u64, byte| 31 * (sum % (1 << 48)) + u64::from(byte));
        Random::new(round.wrapping_add(name))
    }
}

pub const PROFILES: &[Profile] = &[
    Profile { name: "mixed commands", traces: 1, write: mixed::mixed },
    Profile { name: "full tables, numbers used again", traces: 1, write: mixed::full },
    Profile { name: "rings", traces: 1, write: loops::rings },
    Profile { name: "doubly linked chains", traces: 1, write: chains::doubly_linked },
    Profile { name: "dense loops", traces: 1, write: loops::dense },
    Profile { name: "nested groups", traces: 1, write: loops::nested },
    Profile { name: "chains of 1,024 let go at once", traces: 1, write: chains::long_chain },
    Profile { name: "every refusal", traces: 1, write: refusals::refusals },
    Profile { name: "wrong numbers", traces: 1, write: refusals::wrong_numbers },
    Profile { name: "holds up to 1,000", traces: 1, write: refusals::holds },
    Profile { name: "links set again", traces: 1, write: keepers::set_again },
    Profile { name: "drafts outside a freeze", traces: 1, write: keepers::drafts_outside },
    Profile { name: "drafts that name each other", traces: 1, write: into::knots },
    Profile { name: "all links into one draft", traces: 1, write: into::most },
    Profile { name: "many seats", traces: 1, write: seats::many },
    Profile { name: "shapes by many seats", traces: 1, write: seats::shapes },
    Profile { name: "a full register", traces: 1, write: seats::full },
    Profile { name: "handed in twice", traces: 1, write: twice::twice },
    Profile { name: "handed in twice, at the limits", traces: 1, write: twice::at_the_limits },
    Profile { name: "near misses", traces: 1, write: misses::near_misses },
    Profile { name: "random bytes", traces: 1, write: misses::random_bytes },
    Profile { name: "long lines", traces: 1, write: ends::long_lines },
    Profile { name: "a line of a million bytes", traces: 1, write: ends::million },
    Profile { name: "no last byte 10", traces: 20, write: ends::no_end },
];

/// The trace of a profile and a seed.
pub fn trace(profile: &Profile, seed: u64) -> Vec<u8> {
    let mut author = Author::new(seed);
    (profile.write)(&mut author);
    author.trace
}

//! Writes one long trace to a file, to be timed: of a profile, or of one command over and over.

use compare::author::Author;
use compare::growth::{beside, chains, times};
use compare::profiles::{trace, Profile, PROFILES};
use compare::random::Random;
use independent::tables::{CAPACITY, NONE};
use independent::trace::lines;
use std::process::ExitCode;

const USAGE: &str = "usage: traces --list | traces PROFILE FILE [LINES] [SEED]
  PROFILE is a name of the list, `chains of M` with M pieces each, or one of `pairs frozen`,
  `chains of 4 frozen`, `drafts binned` and `bins refused` with ` beside M`, for M live pieces, 16 to
  1,000. The trace has LINES lines or a few more, 200000 if not given; one of long lines ends at 16 MB.";

/// Lines of a profile that differ; beyond them the trace repeats itself.
const DIFFERENT: usize = 200_000;
const BYTES: usize = 16 << 20;

/// The pieces below are frozen in rings of 8, those from it on are drafts.
const HALF: usize = CAPACITY / 2;

/// The pieces at which all seats have a line in the traces `only ... by 32 seats`: 994 lines are
/// used.
const MET: usize = 30;

/// One command or two over and over, by name, with the next line on a full table.
type Only = (&'static str, fn(&mut Random, &mut Vec<usize>) -> String);

const ONLY: &[Only] = &[
    ("only look", |random, _| format!("l {}", random.below(CAPACITY))),
    ("only acquire and release", |random, held| {
        let p = random.below(HALF);
        hold(random, held, "a", p)
    }),
    ("only freeze again and release", |random, held| {
        let p = without(random, held);
        hold(random, held, "f", p)
    }),
    ("only freeze again, where there is a hold", |random, _| {
        format!("f {}", 8 * random.below(HALF / 8))
    }),
    ("only acquire and release, lines that are there, by 32 seats", |random, held| {
        let (p, seat) = (8 * random.below(MET), random.from(1, 31));
        hold_by(random, held, p, seat)
    }),
    ("only acquire and release, lines that come and go, by 32 seats", |random, held| {
        let (p, seat) = (8 * random.from(MET, HALF / 8 - 1), random.from(1, 31));
        hold_by(random, held, p, seat)
    }),
    ("only refused releases, by 32 seats", |random, _| {
        format!("r {} {}", 8 * random.from(MET, HALF / 8 - 1), random.from(1, 31))
    }),
    ("only set, to drafts or none", |random, _| {
        let (p, k, t) = (draft(random), random.below(4), draft(random));
        let t = if random.once_in(8) { "-".to_string() } else { t.to_string() };
        format!("s {p} {k} {t}")
    }),
    ("only set, to frozen pieces", |random, _| {
        format!("s {} {} {}", draft(random), random.below(4), random.below(HALF))
    }),
    ("only new, refused", |_, _| "n".to_string()),
    ("only refused lines", |random, _| match random.below(5) {
        0 => format!("a {}", draft(random)),
        1 => format!("b {}", random.below(HALF)),
        2 => format!("r {}", 8 * random.below(HALF / 8) + 1),
        3 => format!("l {}", random.from(CAPACITY, 65_535)),
        _ => format!("s {} 0 0", random.below(HALF)),
    }),
    ("only bad lines", |random, _| {
        random.pick(&["", "f", "n 0", "s 0 0", "s 0 0 1 ", "a  7", "r 65536", "q 1"]).to_string()
    }),
    ("only new and bin", |random, held| match held.pop() {
        Some(_) => "n".to_string(),
        None => {
            held.push(0);
            format!("b {}", draft(random))
        }
    }),
];

fn draft(random: &mut Random) -> usize {
    random.from(HALF, CAPACITY - 1)
}

/// A frozen piece that has no hold.
fn without(random: &mut Random, held: &[usize]) -> usize {
    loop {
        let p = 8 * random.below(HALF / 8) + random.from(1, 7);
        if !held.contains(&p) {
            return p;
        }
    }
}

/// One hold more on a frozen piece, or one of at most 256 such holds less.
fn hold(random: &mut Random, held: &mut Vec<usize>, more: &str, p: usize) -> String {
    if held.len() >= HALF / 2 || (!held.is_empty() && random.once_in(2)) {
        let last = held.swap_remove(random.below(held.len()));
        return format!("r {last}");
    }
    held.push(p);
    format!("{more} {p}")
}

/// One hold more of a seat's on a piece, or one of at most thirty such holds less.
fn hold_by(random: &mut Random, held: &mut Vec<usize>, p: usize, seat: usize) -> String {
    if held.len() >= 30 || (!held.is_empty() && random.once_in(2)) {
        let last = held.swap_remove(random.below(held.len()));
        return format!("r {} {}", last % CAPACITY, last / CAPACITY);
    }
    held.push(seat * CAPACITY + p);
    format!("a {p} {seat}")
}

/// A full table, half of it frozen, by seat 0 or by all seats, then the lines.
fn only((name, next): &Only, seed: u64, count: usize) -> Vec<u8> {
    let mut text = vec!["n".to_string(); CAPACITY];
    for p in 0..HALF {
        text.push(format!("s {p} 0 {}", p / 8 * 8 + (p + 1) % 8));
    }
    text.extend((0..HALF).step_by(8).map(|p| format!("f {p}")));
    if name.ends_with("by 32 seats") {
        let met = (0..MET).flat_map(|i| (1..32).map(move |seat| format!("a {} {seat}", 8 * i)));
        text.extend(met);
    }
    let (mut random, mut held) = (Random::new(seed), Vec::new());
    text.extend((0..count).map(|_| next(&mut random, &mut held)));
    (text.join("\n") + "\n").into_bytes()
}

/// A trace of the profile, followed by what empties the store.
fn emptied(profile: &Profile, seed: u64) -> Vec<u8> {
    let mut author = Author::new(seed);
    lines(&trace(profile, seed)).for_each(|line| author.write(line));
    while let Some(p) = author.one_held() {
        author.release(p);
    }
    while let Some(p) = author.one_draft() {
        (0..4).for_each(|k| author.set(p, k, NONE));
        author.bin(p);
    }
    author.trace
}

/// Traces of the profile one after another, each from an empty store.
fn profile(profile: &Profile, seed: u64, count: usize) -> Vec<u8> {
    let mut random = profile.random(seed);
    let (mut text, mut written) = (Vec::new(), 0);
    while written < count.min(DIFFERENT) && text.len() < BYTES {
        let part = emptied(profile, random.bits());
        written += lines(&part).count();
        text.extend(part);
    }
    text.repeat(times(count, written).min(times(BYTES, text.len())))
}

/// The trace of that name, none if there is no such name.
fn named(name: &str, seed: u64, count: usize) -> Option<Vec<u8>> {
    if let Some(size) = name.strip_prefix("chains of ").and_then(|size| size.parse().ok()) {
        return (1..=CAPACITY).contains(&size).then(|| chains(size, count));
    }
    if let Some((lines, live)) = name.split_once(" beside ") {
        let live = live.parse().ok().filter(|live| (16..=1_000).contains(live))?;
        return beside(lines, live, count);
    }
    if let Some(found) = ONLY.iter().find(|(only, _)| *only == name) {
        return Some(only(found, seed, count));
    }
    PROFILES.iter().find(|p| p.name == name).map(|found| profile(found, seed, count))
}

fn write(words: &[String]) -> Option<std::io::Result<()>> {
    let (name, file) = (words.first()?, words.get(1)?);
    let count = words.get(2).map_or(Some(DIFFERENT), |word| word.parse().ok())?;
    let seed = words.get(3).map_or(Some(1), |word| word.parse().ok())?;
    Some(std::fs::write(file, named(name, seed, count)?))
}

fn main() -> ExitCode {
    let words: Vec<String> = std::env::args().skip(1).collect();
    if words == ["--list"] {
        ONLY.iter().for_each(|(name, _)| println!("{name}"));
        PROFILES.iter().for_each(|profile| println!("{}", profile.name));
        return ExitCode::SUCCESS;
    }
    match write(&words) {
        Some(Ok(())) => ExitCode::SUCCESS,
        Some(Err(error)) => {
            eprintln!("{error}");
            ExitCode::FAILURE
        }
        None => {
            eprintln!("{USAGE}");
            ExitCode::from(2)
        }
    }
}

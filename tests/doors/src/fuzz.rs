//! Fuzzing: traces and tables are changed at random, and those that bring up something new are
//! kept to be changed further. Each is tried by the door and by the independent program.

use crate::any::any_call;
use crate::call::Call;
use crate::judge::{Judge, YES};
use crate::lent::lend;
use crate::stores::{define, filled, sound};
use compare::profiles::{trace, PROFILES};
use compare::random::Random;
use independent::tables::{Tables, LINE, LINES};
use independent::trace::{lines, run};
use std::collections::HashSet;

/// The refusal of tables that are not sound.
const UNSOUND: u64 = 2;

/// The longest trace that is kept.
const LONGEST: usize = 2_048;

/// The bytes of right lines, and one that ends lines elsewhere.
const BYTES: &[u8] = b"0123456789 -\n\rnsfarbl";

/// What is kept, and all that it has brought up.
struct Kept<T> {
    all: Vec<T>,
    seen: HashSet<u64>,
}

impl<T: Clone> Kept<T> {
    fn pick(&self, random: &mut Random) -> T {
        self.all[random.below(self.all.len())].clone()
    }

    /// Keeps it if it brought up something new.
    fn keep(&mut self, one: &T, brought: impl Iterator<Item = u64>) {
        let before = self.seen.len();
        self.seen.extend(brought);
        if self.seen.len() > before {
            self.all.push(one.clone());
        }
    }
}

/// Changes a trace in one place: a byte, a seat at a line's end, a line, or all from a place on.
fn change(random: &mut Random, text: &mut Vec<u8>, other: &[u8]) {
    let at = random.below(text.len() + 1);
    let line = |text: &[u8], at: usize| {
        let start = text[..at].iter().rposition(|&b| b == b'\n').map_or(0, |i| i + 1);
        start..text[at..].iter().position(|&b| b == b'\n').map_or(text.len(), |i| at + i + 1)
    };
    match random.below(9) {
        0 if at < text.len() => text[at] = random.bits() as u8,
        1 if at < text.len() => text[at] = random.pick(BYTES),
        2 if at < text.len() => drop(text.remove(at)),
        3 => text.insert(at, random.pick(BYTES)),
        4 => drop(text.drain(line(text, at))),
        5 => {
            let again = text[line(text, at)].to_vec();
            let to = line(text, random.below(text.len() + 1)).start;
            drop(text.splice(to..to, again));
        }
        6 => {
            let taken = other[line(other, random.below(other.len() + 1))].to_vec();
            let to = line(text, at).start;
            drop(text.splice(to..to, taken));
        }
        7 => {
            let end = text[at..].iter().position(|&b| b == b'\n').map_or(text.len(), |i| at + i);
            let seat = random.pick(&[" 0", " 1", " 2", " 31", " 32"]);
            drop(text.splice(end..end, seat.bytes()));
        }
        _ => {
            let from = line(other, random.below(other.len() + 1)).start;
            let to = line(text, at).start;
            drop(text.splice(to.., other[from..].to_vec()));
        }
    }
    text.truncate(LONGEST);
}

/// What each line brought up: its command and whether it names a seat, its answer's first number,
/// how many were freed, and the command and answer before it.
fn brought(text: &[u8], output: &[u8]) -> Vec<u64> {
    let mut before = 0;
    let mut all = Vec::new();
    for (line, answer) in lines(text).zip(output.split(|&b| b == b'\n')) {
        let words = answer.split(|&b| b == b' ').count() as u64;
        let first = |bytes: &[u8]| bytes.first().map_or(0, |&b| u64::from(b));
        let number = answer.split(|&b| b == b' ').next().unwrap_or_default();
        let number = std::str::from_utf8(number).map_or(255, |word| word.parse().unwrap_or(255));
        let seat = u64::from(line.split(|&b| b == b' ').count() == 3);
        let now = seat << 24 | first(line) << 16 | number << 8 | u64::from(words.ilog2()) << 4;
        all.push(before << 32 | now | words.min(9));
        before = now;
    }
    all
}

/// Traces, lent with a room that fits or is one short.
pub fn traces(random: &mut Random, judge: &mut Judge, runs: u64) -> Result<usize, String> {
    let mut kept = Kept { all: vec![b"n\n".to_vec()], seen: HashSet::new() };
    for profile in PROFILES {
        let whole = trace(profile, random.bits());
        kept.all.push(whole[..whole.len().min(LONGEST / 2)].to_vec());
    }
    for _ in 0..runs {
        let mut text = kept.pick(random);
        let other = kept.pick(random);
        (0..random.from(1, 4)).for_each(|_| change(random, &mut text, &other));
        let output = run(&text);
        let room = output.len() - usize::from(random.once_in(8));
        judge.tables += 1;
        lend(judge, &text, room)?;
        kept.keep(&text, brought(&text, &output).into_iter());
    }
    Ok(kept.all.len())
}

/// Changes one of the used lines or the next, or puts one more in.
fn spoil_line(random: &mut Random, register: &mut Vec<u16>, n: usize) {
    let used = register.chunks(LINE).take_while(|line| line[2] > 0).count();
    let at = LINE * random.below((used + 1).min(LINES));
    let any = random.below(n) as u16;
    let (seat, p) = (random.pick(&[0, 1, 2, 31, 32]), random.pick(&[any, n as u16 - 1, n as u16]));
    match random.below(5) {
        0 => register[at] = seat,
        1 => register[at + 1] = p,
        2 => register[at + 2] = random.pick(&[0, 1, 2, 999, 1_000, 1_001]),
        3 => drop(register.drain(at..at + LINE)),
        _ => drop(register.splice(at..at, [seat, p, 1])),
    }
    register.resize(LINE * LINES, 0);
}

/// Changes one entry of the store or a line; after a link to a piece or a line, holds, leaders,
/// counts and the links into drafts may follow.
fn spoil(random: &mut Random, tables: &mut Tables, n: usize) {
    let p = random.below(n);
    let q = random.pick(&[0, p as u16, n as u16 - 1, n as u16, 65_535]);
    let any = random.below(n) as u16;
    let kind = random.below(10);
    match kind {
        0 => tables.states[p] = random.pick(&[0, 1, 2, 2, 3]),
        1 => tables.links[4 * p + random.below(4)] = q,
        2 => tables.links[4 * p + random.below(4)] = any,
        3 => tables.leaders[p] = random.pick(&[q, any]),
        4 => tables.holds[p] = random.pick(&[0, 1, 2, 999, 1_000, 1_001]),
        5 => tables.counts[p] = tables.counts[p].wrapping_add(1),
        6 => tables.counts[p] = tables.counts[p].wrapping_sub(1),
        7 => tables.into[p] = random.pick(&[0, 1, tables.into[p] ^ 1, 4_092, 65_535]),
        _ => spoil_line(random, &mut tables.register, n),
    }
    if (kind == 2 || kind > 7) && random.once_in(2) {
        define(tables);
    }
}

/// What a call brought up: its answer, how many were freed, and the states, holds, links into drafts
/// and number of lines after it.
fn brought_by(answer: u64, tables: &Tables) -> u64 {
    let holds = tables.holds.iter().map(|&holds| holds.min(3) as u8);
    let used = tables.register.chunks(LINE).take_while(|line| line[2] > 0).count();
    let lines = [used.min(8) as u8, u8::from(used == LINES)];
    let into = tables.into.iter().map(|&into| into.min(3) as u8);
    let after = tables.states.iter().copied().chain(holds).chain(into).chain(lines);
    let shape = after.fold(tables.n as u64, |sum, x| 31 * (sum % (1 << 40)) + u64::from(x));
    (answer & 0xff) << 56 ^ (answer >> 32 & 0xf) << 48 ^ shape
}

/// Tables, each after one call more, or spoiled before it; those found unsound are not kept.
pub fn tables(random: &mut Random, judge: &mut Judge, runs: u64) -> Result<usize, String> {
    let mut stores: Vec<Tables> = (1..=8).map(|n| sound(random, n)).collect();
    stores.push(filled(random, 50, LINES));
    let mut kept: Kept<Tables> = Kept { all: stores, seen: HashSet::new() };
    for _ in 0..runs {
        let mut tables = kept.pick(random);
        let n = tables.n;
        if random.once_in(2) {
            spoil(random, &mut tables, n);
        }
        let call = any_call(random, n);
        judge.tables += 1;
        let answer = judge.call(&mut tables, call)?;
        let flawed =
            if matches!(call, Call::Check) { answer != YES } else { answer & 0xff == UNSOUND };
        if !flawed {
            kept.keep(&tables, [brought_by(answer, &tables)].into_iter());
        }
    }
    Ok(kept.all.len())
}

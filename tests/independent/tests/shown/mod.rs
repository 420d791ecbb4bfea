//! Sets of trace lines with their answers, each by the trace commands and by the calls over tables.

use independent::calls::{self, Answer};
use independent::line::{read, Command};
use independent::pieces::Pieces;
use independent::register::used;
use independent::tables::{Tables, NONE};
use independent::trace::answer;

/// A set: its name, its capacity, and its lines, input left, output right.
/// `998*a 0` is the line `a 0` 998 times.
pub struct Set(pub &'static str, pub usize, pub &'static [(&'static str, &'static str)]);

pub const NEW_0: (&str, &str) = ("n", "0 0 0");
pub const NEW_1: (&str, &str) = ("n", "0 1 0");

/// Accepted, no value, nothing freed.
pub const DONE: &str = "0 - 0";

/// The output of one line, by the call that it names.
fn answer_by_call(tables: &mut Tables, line: &str) -> String {
    let (mut store, list, work) = tables.lend();
    let Answer { refusal, value, freed } = match read(line.as_bytes()).expect("no bad line") {
        Command::New => calls::new(&mut store, list, work),
        Command::Set(p, k, t) => calls::set(&mut store, list, work, p, k, t),
        Command::Freeze(p, seat) => calls::freeze(&mut store, list, work, p, seat),
        Command::Acquire(p, seat) => calls::acquire(&mut store, list, work, p, seat),
        Command::Release(p, seat) => calls::release(&mut store, list, work, p, seat),
        Command::Bin(p) => calls::bin(&mut store, list, work, p),
        Command::Look(p) => return look_by_call(tables, p),
    };
    let value = if value == NONE { "-".to_string() } else { value.to_string() };
    let freed_numbers = list[..usize::from(freed)].iter().map(|p| format!(" {p}"));
    format!("{refusal} {value} {freed}") + &freed_numbers.collect::<String>()
}

/// The output of a look, by the call.
fn look_by_call(tables: &mut Tables, p: u16) -> String {
    let (store, _, work) = tables.lend();
    let calls::Look { refusal, seen } = calls::look(&store, work, p);
    if refusal > 0 {
        return format!("{refusal} - 0");
    }
    let leader = if seen.leader == NONE { "-".to_string() } else { seen.leader.to_string() };
    format!("0 {} {leader} {} {}", seen.state, seen.count, seen.holds)
}

/// Shows that a set comes out as written, by the commands and by the calls, with one register and
/// the same links into drafts.
pub fn show(Set(name, n, lines): &Set) -> Pieces {
    let mut pieces = Pieces::empty(*n);
    let mut tables = Tables::empty(*n);
    for (row, output) in *lines {
        let (times, line) = row.split_once('*').unwrap_or(("1", row));
        for _ in 0..times.parse().unwrap() {
            assert_eq!(&answer(&mut pieces, line.as_bytes()), output, "{name}: {line}");
            assert_eq!(&answer_by_call(&mut tables, line), output, "{name}, by calls: {line}");
        }
    }
    assert_eq!(used(&tables.lend().0), pieces.register, "{name}");
    assert_eq!(tables.into, pieces.links_into(), "{name}");
    pieces
}

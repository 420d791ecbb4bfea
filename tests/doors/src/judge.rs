//! Makes each call twice and compares the answer and every area.

use crate::call::{by_independent, left, request, word, Call};
use crate::door::Door;
use crate::packed;
use independent::tables::Tables;
use std::fmt;
use std::io::{self, Read};

/// The answer of an accepted check that says yes.
pub const YES: u64 = 1 << 16;

/// The refusals, in the rulebook's order.
const REFUSALS: [usize; 17] = [1, 2, 12, 3, 15, 16, 4, 17, 5, 6, 14, 7, 13, 8, 9, 10, 11];

/// What has been compared so far under one heading.
pub struct Judge<'a> {
    pub door: &'a mut Door,
    /// What the tables are called in an account of a difference, if they have a name.
    pub name: &'static str,
    pub tables: usize,
    pub calls: usize,
    /// Calls by their refusal number, 0 for accepted.
    pub refused: [usize; 18],
}

/// The first entry of an area that differs, in words.
fn area<T: PartialEq + fmt::Display>(name: &str, wanted: &[T], got: &[T]) -> Option<String> {
    let at = (0..wanted.len()).find(|&i| wanted[i] != got[i])?;
    Some(format!("{name}[{at}]: independent {}, door {}", wanted[at], got[at]))
}

/// The first area that differs, in words.
fn areas(wanted: &Tables, got: &Tables) -> Option<String> {
    area("states", &wanted.states, &got.states)
        .or_else(|| area("links", &wanted.links, &got.links))
        .or_else(|| area("leaders", &wanted.leaders, &got.leaders))
        .or_else(|| area("holds", &wanted.holds, &got.holds))
        .or_else(|| area("counts", &wanted.counts, &got.counts))
        .or_else(|| area("register", &wanted.register, &got.register))
        .or_else(|| area("into", &wanted.into, &got.into))
        .or_else(|| area("list", &wanted.list, &got.list))
        .or_else(|| area("work", &wanted.work, &got.work))
}

/// The tables in words, but for those of a large store; of the register without the zeros at its end.
fn told(tables: &Tables) -> String {
    if tables.states.len() <= 16 {
        let end = tables.register.iter().rposition(|&entry| entry > 0).map_or(0, |last| last + 1);
        let register = tables.register[..end].to_vec();
        format!("{:?}", Tables { register, ..tables.clone() })
    } else {
        format!("N = {}", tables.n)
    }
}

/// The first difference of the door's answer from the one wanted, in words.
fn difference(
    call: Call,
    wanted: u64,
    after: &Tables,
    answer: &mut dyn Read,
) -> io::Result<Option<String>> {
    let got = word(answer)?;
    let left = left(answer, after)?;
    Ok(match left {
        _ if wanted != got => {
            let [wanted, got] = [wanted, got].map(|answer| packed::told(call, answer));
            Some(format!("answer\n    independent: {wanted}\n    door:        {got}"))
        }
        None => Some("it wrote outside the areas lent".to_string()),
        Some(left) => areas(after, &left),
    })
}

impl<'a> Judge<'a> {
    pub fn new(door: &'a mut Door) -> Judge<'a> {
        Judge { door, name: "", tables: 0, calls: 0, refused: [0; 18] }
    }

    /// Makes the call on the tables, by the door later; an account of a difference found so far.
    pub fn call(&mut self, tables: &mut Tables, call: Call) -> Result<u64, String> {
        let before = tables.clone();
        let wanted = by_independent(call, tables);
        let after = tables.clone();
        self.calls += 1;
        self.refused[(wanted & 0xff) as usize] += 1;
        let name = match self.name {
            "" => String::new(),
            name => format!("{name}: "),
        };
        let asked = request(call, &before);
        let judgement = move |answer: &mut dyn Read| {
            let on = || format!("on {}", told(&before));
            match difference(call, wanted, &after, answer) {
                Ok(account) => {
                    Ok(account.map(|account| format!("{name}{call:?}\n  {account}\n  {}", on())))
                }
                Err(why) => Err(io::Error::new(
                    io::ErrorKind::Other,
                    format!("{name}{call:?}\n  {why}\n  {}", on()),
                )),
            }
        };
        self.door.ask(asked, Box::new(judgement))?;
        Ok(wanted)
    }

    /// Makes each of the calls on a copy of the tables.
    pub fn each(&mut self, tables: &Tables, calls: &[Call]) -> Result<(), String> {
        self.tables += 1;
        for &call in calls {
            self.call(&mut tables.clone(), call)?;
        }
        Ok(())
    }
}

impl fmt::Display for Judge<'_> {
    fn fmt(&self, f: &mut fmt::Formatter) -> fmt::Result {
        let refused: Vec<String> =
            REFUSALS.iter().map(|&r| format!("{r}:{}", self.refused[r])).collect();
        let (tables, calls, refused) = (self.tables, self.calls, refused.join(" "));
        write!(f, "{tables:7} tables {calls:8} calls, refused {refused}")
    }
}

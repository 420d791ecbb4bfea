//! Compares the C functions with the independent program, over sound and spoiled tables.

mod any;
mod call;
mod door;
mod fuzz;
mod guarded;
mod holding;
mod into;
mod judge;
mod lent;
mod miscounted;
mod near;
mod packed;
mod sequences;
mod single;
mod spoiled;
mod stores;
mod unregistered;

use compare::random::Random;
use door::Door;
use judge::Judge;
use std::process::ExitCode;

const USAGE: &str = "usage: doors --door COMMAND [--rounds R | --fuzz RUNS] [--seed K]
  COMMAND is the program of tests/doors/build-door, or words that run it, with lines or spaces between.
  RUNS traces and RUNS tables are changed at random and tried, in place of the rounds.";

/// A kind of tables or traces, by name, and how many times it is tried in one round.
type Phase = (&'static str, usize, fn(&mut Random, &mut Judge) -> Result<(), String>);

const PHASES: &[Phase] = &[
    ("calls one after the other", 10, sequences::sequences),
    ("sets with wrong numbers", 5, sequences::sets),
    ("holds up to the limit", 1, holding::limit),
    ("pieces handed in twice", 4, holding::twice),
    ("a register that is full", 3, holding::register),
    ("drafts that name each other", 5, into::knots),
    ("all links into one draft", 1, into::most),
    ("calls on large stores", 1, sequences::large),
    ("chains and rings let go", 1, sequences::chains),
    ("single entries changed", 20, spoiled::singles),
    ("near misses", 50, spoiled::near_misses),
    ("junk", 2_000, spoiled::junk),
    ("wrong lengths and capacities", 20, spoiled::sizes),
    ("lent traces", 1, lent::traces),
];

/// What is fuzzed, by name; gives how many were kept to be changed further.
type Fuzzed = (&'static str, fn(&mut Random, &mut Judge, u64) -> Result<usize, String>);

const FUZZED: &[Fuzzed] = &[("traces", fuzz::traces), ("tables", fuzz::tables)];

struct Options {
    door: String,
    rounds: u64,
    fuzz: u64,
    seed: u64,
}

/// The options of the command line, none if they are not right.
fn options(mut words: impl Iterator<Item = String>) -> Option<Options> {
    let mut options = Options { door: String::new(), rounds: 2, fuzz: 0, seed: 1 };
    while let Some(word) = words.next() {
        let value = words.next()?;
        match word.as_str() {
            "--door" => options.door = value,
            "--rounds" => options.rounds = value.parse().ok()?,
            "--fuzz" => options.fuzz = value.parse().ok()?,
            "--seed" => options.seed = value.parse().ok()?,
            _ => return None,
        }
    }
    (!options.door.is_empty() && options.rounds > 0).then_some(options)
}

/// Tries a phase in every round; round i has seed K + i.
fn compare(
    &(name, times, try_once): &Phase,
    options: &Options,
    judge: &mut Judge,
) -> Result<(), String> {
    for round in options.seed..options.seed + options.rounds {
        let mut random = Random::new(round);
        (0..times)
            .try_for_each(|_| try_once(&mut random, judge))
            .and_then(|()| judge.door.settle())
            .map_err(|account| format!("{name}, seed {round}: {account}"))?;
    }
    Ok(())
}

/// Tries all phases and prints their figures; how many tables and calls there were.
fn phases(options: &Options) -> Result<(usize, usize), String> {
    let mut door = Door::open(&options.door)?;
    let (mut tables, mut calls) = (0, 0);
    for phase in PHASES {
        let mut judge = Judge::new(&mut door);
        compare(phase, options, &mut judge)?;
        println!("{:30} {judge}", phase.0);
        (tables, calls) = (tables + judge.tables, calls + judge.calls);
    }
    door.close()?;
    Ok((tables, calls))
}

/// Fuzzes traces and tables and prints their figures; how many tables and calls there were.
fn fuzzed(options: &Options) -> Result<(usize, usize), String> {
    let mut door = Door::open(&options.door)?;
    let (mut tables, mut calls) = (0, 0);
    for (name, fuzz) in FUZZED {
        let mut judge = Judge::new(&mut door);
        let kept = fuzz(&mut Random::new(options.seed), &mut judge, options.fuzz)
            .and_then(|kept| judge.door.settle().map(|()| kept))
            .map_err(|account| format!("fuzzed {name}, seed {}: {account}", options.seed))?;
        println!("fuzzed {name:23} {judge}, {kept} kept");
        (tables, calls) = (tables + judge.tables, calls + judge.calls);
    }
    door.close()?;
    Ok((tables, calls))
}

fn main() -> ExitCode {
    let options = match options(std::env::args().skip(1)) {
        Some(options) => options,
        None => {
            eprintln!("{USAGE}");
            return ExitCode::from(2);
        }
    };
    match if options.fuzz > 0 { fuzzed(&options) } else { phases(&options) } {
        Ok((tables, calls)) => {
            println!("no difference, {tables} tables and traces tried, {calls} calls compared");
            ExitCode::SUCCESS
        }
        Err(account) => {
            println!("DIFFERENT: {account}");
            ExitCode::FAILURE
        }
    }
}

//! Compares a trace program with the independent one on random traces.

use compare::account::{difference, Figures};
use compare::profiles::{trace, Profile, PROFILES};
use compare::program::{run, Pipe};
use std::path::PathBuf;
use std::process::ExitCode;
use std::time::{Duration, Instant};

const USAGE: &str =
    "usage: compare --program COMMAND [--lines N | --seconds S] [--seed K] [--keep FILE]
  COMMAND is the trace program, or words that run it, with lines or spaces between.
  N lines at least, or rounds for S seconds; 200000 lines if neither is given.
  The trace of a difference, up to its line, is written to FILE.";

/// When to stop, at the end of a round.
enum Until {
    Lines(usize),
    Passed(Duration),
}

struct Options {
    program: String,
    until: Until,
    seed: u64,
    keep: Option<PathBuf>,
}

/// The options of the command line, none if they are not right.
fn options(mut words: impl Iterator<Item = String>) -> Option<Options> {
    let mut options =
        Options { program: String::new(), until: Until::Lines(200_000), seed: 1, keep: None };
    while let Some(word) = words.next() {
        let value = words.next()?;
        match word.as_str() {
            "--program" => options.program = value,
            "--lines" => options.until = Until::Lines(value.parse().ok()?),
            "--seconds" => options.until = Until::Passed(Duration::from_secs(value.parse().ok()?)),
            "--seed" => options.seed = value.parse().ok()?,
            "--keep" => options.keep = Some(value.into()),
            _ => return None,
        }
    }
    (!options.program.is_empty()).then_some(options)
}

/// Compares the profile's traces of one round; an account of the first difference if there is one.
fn compare(
    options: &Options,
    profile: &Profile,
    round: u64,
    figures: &mut Figures,
) -> Result<(), String> {
    let mut random = profile.random(round);
    for _ in 0..profile.traces {
        let trace = trace(profile, random.bits());
        let wanted = independent::trace::run(&trace);
        let pipe = if random.once_in(3) { Pipe::Slow { seed: random.bits() } } else { Pipe::Whole };
        figures.add(&trace, &wanted);
        let got =
            run(&options.program, trace.clone(), pipe).map_err(|why| format!("fault: {why}"))?;
        if let Some((line, account)) = difference(&trace, &wanted, &got) {
            if let Some(path) = &options.keep {
                let kept: Vec<&[u8]> =
                    trace.split_inclusive(|&byte| byte == b'\n').take(line + 1).collect();
                std::fs::write(path, kept.concat())
                    .map_err(|error| format!("{account}\n{error}"))?;
            }
            return Err(account);
        }
    }
    Ok(())
}

/// Compares in rounds of all profiles; round i has seed K + i, so that a difference comes
/// up again in the first round of its seed.
fn rounds(options: &Options) -> Result<Vec<Figures>, String> {
    let begun = Instant::now();
    let mut figures = vec![Figures::default(); PROFILES.len()];
    for round in options.seed.. {
        for (profile, figures) in PROFILES.iter().zip(&mut figures) {
            compare(options, profile, round, figures)
                .map_err(|account| format!("{}, seed {round}: {account}", profile.name))?;
        }
        let enough = match options.until {
            Until::Lines(wanted) => figures.iter().map(|f| f.lines).sum::<usize>() >= wanted,
            Until::Passed(time) => begun.elapsed() >= time,
        };
        if enough {
            break;
        }
    }
    Ok(figures)
}

fn main() -> ExitCode {
    let options = match options(std::env::args().skip(1)) {
        Some(options) => options,
        None => {
            eprintln!("{USAGE}");
            return ExitCode::from(2);
        }
    };
    let begun = Instant::now();
    match rounds(&options) {
        Err(account) => {
            println!("DIFFERENT: {account}");
            ExitCode::FAILURE
        }
        Ok(figures) => {
            let mut total = Figures::default();
            for (profile, figures) in PROFILES.iter().zip(&figures) {
                println!("{:32} {figures}", profile.name);
                total.join(figures);
            }
            println!("{:32} {total}", "all");
            println!("no difference, {:.1} s", begun.elapsed().as_secs_f64());
            ExitCode::SUCCESS
        }
    }
}

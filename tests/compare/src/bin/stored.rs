//! Stored traces: writes one of each profile with the independent program's output beside it, writes
//! the outputs of those that are there, or checks that every stored output is what that program gives.

use compare::profiles::{trace, PROFILES};
use std::fs;
use std::io::{Error, Result};
use std::path::{Path, PathBuf};
use std::process::ExitCode;

const USAGE: &str = "usage: stored write FOLDER | stored answer FOLDER | stored check FOLDER
  NAME.trace in FOLDER has its output in NAME.output.";

/// The longest trace or output that is stored.
const LONGEST: usize = 32 << 10;

/// The first trace of each profile that is short enough, if one of a thousand is.
fn write(folder: &Path) -> Result<usize> {
    let mut written = 0;
    for profile in PROFILES {
        let name: String =
            profile.name.split(|c: char| !c.is_alphanumeric()).collect::<Vec<_>>().join("-");
        let stored = folder.join(name.replace("--", "-"));
        let traces = (1..=1000).map(|seed| trace(profile, seed));
        let both = traces.map(|trace| (independent::trace::run(&trace), trace));
        let short = |(output, trace): &(Vec<u8>, Vec<u8>)| output.len().max(trace.len()) <= LONGEST;
        if let Some((output, trace)) = both.into_iter().find(short) {
            fs::write(stored.with_extension("trace"), trace)?;
            fs::write(stored.with_extension("output"), output)?;
            written += 1;
        }
    }
    Ok(written)
}

/// Does something with every stored trace, by its file and its output; gives how many there are.
fn each(folder: &Path, act: impl Fn(PathBuf, Vec<u8>) -> Result<()>) -> Result<usize> {
    let mut many = 0;
    for entry in fs::read_dir(folder)? {
        let stored = entry?.path();
        if stored.extension().map_or(false, |kind| kind == "trace") {
            let output = independent::trace::run(&fs::read(&stored)?);
            act(stored, output)?;
            many += 1;
        }
    }
    Ok(many)
}

/// Writes the output of every stored trace.
fn answer(folder: &Path) -> Result<usize> {
    each(folder, |stored, output| fs::write(stored.with_extension("output"), output))
}

/// How many stored outputs are right; an error names the first that is not.
fn check(folder: &Path) -> Result<usize> {
    each(folder, |stored, output| match fs::read(stored.with_extension("output"))? == output {
        true => Ok(()),
        false => Err(Error::other(format!("{}: another output is stored", stored.display()))),
    })
}

fn main() -> ExitCode {
    let words: Vec<String> = std::env::args().skip(1).collect();
    let done = match words.iter().map(String::as_str).collect::<Vec<_>>()[..] {
        ["write", folder] => write(Path::new(folder)).map(|many| println!("{many} traces written")),
        ["answer", folder] => {
            answer(Path::new(folder)).map(|many| println!("{many} outputs written"))
        }
        ["check", folder] => {
            check(Path::new(folder)).map(|many| println!("{many} stored traces have their outputs"))
        }
        _ => {
            eprintln!("{USAGE}");
            return ExitCode::from(2);
        }
    };
    match done {
        Ok(()) => ExitCode::SUCCESS,
        Err(error) => {
            eprintln!("{error}");
            ExitCode::FAILURE
        }
    }
}

//! Figures of the traces compared, and an account of the first difference.

use independent::trace::lines;
use std::fmt;

/// The refusals that a trace can give, in the rulebook's order.
pub const REFUSALS: [usize; 13] = [12, 3, 15, 16, 4, 17, 5, 6, 14, 7, 13, 8, 9];

/// What the lines of some traces came to.
#[derive(Clone, Default)]
pub struct Figures {
    pub traces: usize,
    pub lines: usize,
    pub bad: usize,
    /// Lines refused, by refusal number.
    pub refused: [usize; 18],
    /// Pieces freed, and the most by one line.
    pub freed: usize,
    pub most: usize,
}

impl Figures {
    /// Adds a trace with its output.
    pub fn add(&mut self, trace: &[u8], output: &[u8]) {
        self.traces += 1;
        for (line, told) in lines(trace).zip(lines(output)) {
            self.lines += 1;
            let numbers: Vec<usize> = std::str::from_utf8(told)
                .map(|told| told.split(' ').filter_map(|word| word.parse().ok()).collect())
                .unwrap_or_default();
            match numbers[..] {
                [] => self.bad += 1,
                [0, freed, ..] if !line.starts_with(b"l") && !line.starts_with(b"n") => {
                    self.freed += freed;
                    self.most = self.most.max(freed);
                }
                [refusal, ..] => self.refused[refusal.min(17)] += usize::from(refusal > 0),
            }
        }
    }

    /// Adds the figures of other traces.
    pub fn join(&mut self, other: &Figures) {
        self.traces += other.traces;
        self.lines += other.lines;
        self.bad += other.bad;
        self.freed += other.freed;
        self.most = self.most.max(other.most);
        (0..18).for_each(|r| self.refused[r] += other.refused[r]);
    }
}

impl fmt::Display for Figures {
    fn fmt(&self, f: &mut fmt::Formatter) -> fmt::Result {
        let Figures { traces, lines, bad, refused, freed, most } = self;
        let refused: Vec<String> =
            REFUSALS.iter().map(|&r| format!("{r}:{}", refused[r])).collect();
        let refused = refused.join(" ");
        write!(f, "{traces:4} traces {lines:7} lines, bad {bad}, refused {refused}, freed {freed} (most {most})")
    }
}

/// Bytes as text that can be printed, cut off if long.
fn printed(bytes: Option<&[u8]>) -> String {
    match bytes {
        None => "(nothing)".to_string(),
        Some(bytes) if bytes.len() > 200 => {
            format!("{}... ({} bytes)", bytes[..200].escape_ascii(), bytes.len())
        }
        Some(bytes) => bytes.escape_ascii().to_string(),
    }
}

/// The first difference of two outputs: the number of its line, and an account.
pub fn difference(trace: &[u8], wanted: &[u8], got: &[u8]) -> Option<(usize, String)> {
    if wanted == got {
        return None;
    }
    let split = |bytes: &'_ [u8]| -> Vec<Vec<u8>> {
        bytes.split_inclusive(|&byte| byte == b'\n').map(<[u8]>::to_vec).collect()
    };
    let (wanted, got) = (split(wanted), split(got));
    let i = (0..).find(|&i| wanted.get(i) != got.get(i))?;
    let line = lines(trace).nth(i).map_or("(end)".to_string(), |line| printed(Some(line)));
    let [wanted, got] = [wanted, got].map(|lines| printed(lines.get(i).map(|line| &line[..])));
    Some((i, format!("line {}: {line}\n  independent: {wanted}\n  program:     {got}", i + 1)))
}

//! Answers in one u64, and back in words.

use crate::call::Call;
use independent::calls::{Answer, Check, Look};

/// An answer in one u64.
pub fn packed(Answer { refusal, value, freed }: Answer) -> u64 {
    u64::from(refusal) + (u64::from(value) << 16) + (u64::from(freed) << 32)
}

/// The answer of look in one u64.
pub fn packed_look(Look { refusal, seen }: Look) -> u64 {
    u64::from(refusal)
        + (u64::from(seen.state) << 8)
        + (u64::from(seen.leader) << 16)
        + (u64::from(seen.count) << 32)
        + (u64::from(seen.holds) << 52)
}

/// The answer of check in one u64.
pub fn packed_check(Check { refusal, yes }: Check) -> u64 {
    u64::from(refusal) + (u64::from(yes) << 16)
}

/// The parts of a packed answer, in words.
pub fn told(call: Call, answer: u64) -> String {
    let bits = |from: u32, many: u32| (answer >> from) & ((1 << many) - 1);
    let refusal = bits(0, 8);
    match call {
        Call::Look(_) => {
            let (state, leader, count, holds) =
                (bits(8, 8), bits(16, 16), bits(32, 20), bits(52, 12));
            format!(
                "refusal {refusal}, state {state}, leader {leader}, count {count}, holds {holds}"
            )
        }
        Call::Check => format!("refusal {refusal}, yes {} ({answer:#x})", bits(16, 48)),
        _ => format!(
            "refusal {refusal}, value {}, freed {} ({answer:#x})",
            bits(16, 16),
            bits(32, 32)
        ),
    }
}

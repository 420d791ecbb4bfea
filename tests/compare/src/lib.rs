//! Random traces by profile, and what a trace program makes of them.

pub mod account;
pub mod author;
pub mod growth;
pub mod profiles;
pub mod program;
pub mod random;

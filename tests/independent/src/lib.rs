//! The rulebook done by brute force.
//!
//! Only states, links and the register are believed. Holds, groups, leaders, counts, the links
//! into drafts and what is kept are worked out from their definitions each time they are asked for.

pub mod calls;
pub mod commands;
pub mod line;
pub mod pieces;
pub mod register;
pub mod sound;
pub mod tables;
pub mod trace;

//! The rules of docs/RULES.md once more, in plain Rust and by brute force. Nothing here is proved: it is the yardstick
//! that stored answers and random jobs are held against. One module for each matter of the rules.

pub mod gate;
pub mod ground;
pub mod hall;
pub mod judge;
pub mod play;
pub mod recall;
pub mod refusal;
pub mod settings;
pub mod sheet;
pub mod swift;
pub mod verdict;

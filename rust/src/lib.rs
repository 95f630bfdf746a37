//! The variable store twice, behind the same calls: `paper` is document 01 in Rust, written from the paper without a look at the engine; `engine` is the proved
//! library. Tests compare the two call by call. `once` is the program beside which 02 (g)'s call is measured.

pub mod calls;
pub mod engine;
pub mod interface;
pub mod once;
pub mod paper;
pub mod plan;

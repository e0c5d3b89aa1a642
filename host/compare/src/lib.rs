//! Holds the parts of the comparison: the library's C edge, random input, and the calls that are
//! made to the library and to the model and compared.

pub mod ages;
pub mod answer;
pub mod demonstration;
pub mod faults;
pub mod ffi;
pub mod generate;
pub mod guarded;
pub mod joining;
pub mod layout;
pub mod lines;
pub mod lost;
#[cfg(test)]
mod planted;
pub mod random;
pub mod setup;
pub mod small;
pub mod tally;
pub mod times;
pub mod tool;
pub mod world;
pub mod writes;

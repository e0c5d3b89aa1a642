//! Holds the parts of the benchmark: boards that are lent to both sides, the frames they are fed
//! with, a text that both split into lines, and the measuring.

pub mod boards;
pub mod measure;
pub mod scenes;
pub mod splitting;

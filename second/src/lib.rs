//! The gas keys a second time, from document 01 and requests 1 to 4 of document 02 alone, and for reading beside them.
//!
//! It shares nothing with the proved crates but the scanned figures. Numbers are as wide as they
//! need to be; temperatures are found by their definition. It makes what the proved programs are
//! asked, and what they have to answer.

pub mod air;
pub mod answer;
pub mod dice;
pub mod gas;
pub mod inverse;
pub mod marking;
pub mod pieces;
pub mod program;
pub mod refusal;
pub mod sheet;
pub mod stored;
pub mod table;
pub mod trials;
pub mod walk;

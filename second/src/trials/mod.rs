//! What the programs and the calls for C are asked: the stored requests of `trial_ask`, and runs and sheets made from a seed.

pub mod ask;
pub mod gas;
pub mod halves;
pub mod limits;
pub mod marks;
pub mod misfits;
pub mod pieces;
pub mod rows;
pub mod runs;
pub mod sheets;
pub mod walks;

/// Numbers that no entry may stumble over.
pub const EXTREMES: [i64; 5] = [0, -1, 1, i64::MIN, i64::MAX];

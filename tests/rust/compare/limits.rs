//! Document 01's limits, and that of aggregate numbers.

pub const FILES: usize = 4096;
pub const AGGREGATE: u64 = 4096;
pub const WANTS: usize = 64;
pub const READS: u64 = 1024;
pub const POSITION: u64 = 1 << 40;
pub const TURN: u64 = 1 << 32;

//! What the tests are made of: an assembler, the bench sheet's cases, the lessons' batches, the guarded
//! heater, bad instructions, sheets at a limit, and random programs.

pub mod assembler;
pub mod bad;
pub mod bench_sheet;
pub mod case;
pub mod heater;
pub mod lessons;
pub mod random;
pub mod sheets;

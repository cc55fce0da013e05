//! The independent implementation's own tests: the bench sheet, every row of the refusals, which
//! instruction is bad, sheets that can be typed, guarded cells, why a program was carried, and how the
//! program `why` says it.

mod bad;
mod bench_sheet;
mod explain;
mod guards;
mod refusals;
mod sheet;
mod why;

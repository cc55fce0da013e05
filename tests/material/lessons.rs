//! The lessons' batches: each as instructions, with what comes of it.
//!
//! Lesson 1 is about a store in the wrong place. Outside the table it is a fault, and nothing is
//! stored. Within the table it is a store like any other: nobody else can know that it was not meant.

use crate::assembler::{add, load, set, store, R0, R1, R2};
use crate::case::{case, outcome, Case, Program};
use plain::area::{COMMITTED, FAULTED};
use plain::machine::FAULT_AT_STORE;

/// The beacon's cells: four of the callsign, the seconds from one transmission to the next, and how
/// many passes there were.
const CALLSIGN: u16 = 0;
const INTERVAL: u16 = 4;
const PASSES: u16 = 5;
const CELLS: u16 = 6;

/// All lessons' batches, each by the name of its example.
pub fn lessons() -> Vec<Case> {
    vec![outside(), too_far()]
}

/// The terminator of a callsign is stored in cell 6 of 6: it faults at instruction 2, and only the
/// pass is counted.
fn outside() -> Case {
    let programs = [store_number(CELLS, 0), count_pass()];
    let slots = [(FAULTED, 256 * FAULT_AT_STORE + 2), (COMMITTED, 0)];
    let end = outcome(&slots, &[1], &table(*b"N0CALL\0\0", 60, 8));
    case("lesson-1-outside", &opening_table(), 1, &programs, end)
}

/// A callsign that fills its four cells, and then its terminator one cell too far: it commits, and
/// the interval is 0.
fn too_far() -> Case {
    let mut programs = [Program::new(), count_pass()];
    for (cell, characters) in (CALLSIGN..).zip(callsign_cells(*b"HB9SHEET")) {
        programs[0].extend(store_number(cell, characters));
    }
    programs[0].extend(store_number(INTERVAL, 0));
    let end = outcome(&[(COMMITTED, 0); 2], &[0, 1], &table(*b"HB9SHEET", 0, 8));
    case("lesson-1-too-far", &opening_table(), 1, &programs, end)
}

fn opening_table() -> Vec<u32> {
    table(*b"N0CALL\0\0", 60, 7)
}

fn table(callsign: [u8; 8], interval: u32, passes: u32) -> Vec<u32> {
    let mut table = callsign_cells(callsign).map(u32::from).to_vec();
    table.extend([interval, passes]);
    table
}

/// A callsign in its cells, two characters a cell: first × 256 + second.
fn callsign_cells(callsign: [u8; 8]) -> [u16; 4] {
    std::array::from_fn(|cell| u16::from_be_bytes([callsign[2 * cell], callsign[2 * cell + 1]]))
}

/// Cell = number.
fn store_number(cell: u16, number: u16) -> Program {
    vec![set(R0, cell), set(R1, number), store(R0, R1)]
}

/// Passes = passes + 1.
fn count_pass() -> Program {
    vec![set(R0, PASSES), load(R1, R0), set(R2, 1), add(R1, R1, R2), store(R0, R1)]
}

//! The heater's batch: a set point that is signed and stays between two ends, with what comes of it.
//! Document 02, request 5: "The heater set point is signed and must stay between two ends."

use crate::assembler::{guards, load, set, store, sub, R0, R1, R2};
use crate::case::{case, outcome, Case, Program};
use plain::area::{COMMITTED, FAULTED};
use plain::guards::Guard;
use plain::machine::FAULT_AT_GUARD;

/// The heater's cells: the set point, a reading, a permit that no program may change, and one without
/// bounds.
const SET_POINT: u16 = 0;
const PERMIT: u16 = 2;
const UNBOUNDED: u16 = 3;

/// Low above high: closed.
const CLOSED: (i32, i32) = (1, 0);
const ALL: (i32, i32) = (Guard::FULL_RANGE.low, Guard::FULL_RANGE.high);

/// The set point, 5, is guarded from -20 to 45. Programs 0 and 2 fault at their guards, at instructions 4
/// and 2, and leave no mark; so 1 and 3 commit.
pub fn heater() -> Case {
    let programs = [lower_by_30(), set_to(SET_POINT, 45), set_to(PERMIT, 0), set_to_minus_1(UNBOUNDED)];
    let faulted_at = |instruction: u32| (FAULTED, 256 * FAULT_AT_GUARD + instruction);
    let slots = [faulted_at(4), (COMMITTED, 0), faulted_at(2), (COMMITTED, 0)];
    let end = outcome(&slots, &[1, 3], &[45, 17, 1, 4294967295]);
    Case {
        guards: guards(&[(-20, 45), ALL, CLOSED, ALL]),
        ..case("heater", &[5, 17, 1, 0], 1, &programs, end)
    }
}

/// Set point = set point − 30, which is -25: 5 below its low end.
fn lower_by_30() -> Program {
    vec![set(R0, SET_POINT), load(R1, R0), set(R2, 30), sub(R1, R1, R2), store(R0, R1)]
}

/// Cell = number.
fn set_to(cell: u16, number: u16) -> Program {
    vec![set(R0, cell), set(R1, number), store(R0, R1)]
}

/// Cell = 0 − 1, which is 4294967295, or -1 with its sign.
fn set_to_minus_1(cell: u16) -> Program {
    vec![set(R0, cell), set(R1, 1), sub(R2, R2, R1), store(R0, R2)]
}

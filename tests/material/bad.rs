//! Bad instructions, in every way, and the places where one can stand.
//! Document 02, request 2.

use crate::assembler::{end, Instruction};
use crate::case::Program;
use plain::image::INSTRUCTIONS;
use plain::machine::{ADD, END, LOAD, REJECT, SET, SKIPEQUAL, SKIPLESS, STORE, SUB};
use plain::refusal::{OPERATION, REGISTER, SKIP, UNUSED};
use plain::Refusal;

/// The ways to be bad, in the order of the list. 41 cannot be typed: a sheet has names.
pub const WAYS: [Refusal; 4] = [OPERATION, REGISTER, UNUSED, SKIP];
pub const TYPED_WAYS: [Refusal; 3] = [REGISTER, UNUSED, SKIP];

/// Instructions that are bad in this way, where so many follow in their program. Some are bad in a way
/// behind it in the list as well; none is in one before it.
pub fn instructions(way: Refusal, following: usize) -> Vec<Instruction> {
    let past = following as u8 + 1;
    match way {
        OPERATION => unknown_operations(),
        REGISTER => registers_over_7(past),
        UNUSED => unused_bytes(),
        SKIP => vec![
            [SKIPLESS, 0, 0, past],
            [SKIPEQUAL, 0, 1, past],
            [SKIPLESS, 0, 1, 255],
            [SKIPEQUAL, 7, 7, 255],
        ],
        _ => unreachable!("no instruction is bad in another way"),
    }
}

/// "Operations 9 to 255 are bad": of nothing else can be said what their bytes are.
fn unknown_operations() -> Vec<Instruction> {
    vec![[9, 0, 0, 0], [10, 0, 0, 0], [128, 0, 0, 0], [255, 0, 0, 0], [9, 8, 8, 8], [17, 255, 255, 255]]
}

/// One register over 7, then several; then an unused byte or a skip past the end beside it.
#[rustfmt::skip]
fn registers_over_7(past: u8) -> Vec<Instruction> {
    vec![
        [SET, 8, 0, 0], [SET, 255, 0, 0],
        [LOAD, 8, 0, 0], [LOAD, 0, 8, 0], [STORE, 8, 0, 0], [STORE, 0, 8, 0], [STORE, 0, 255, 0],
        [ADD, 8, 0, 0], [ADD, 0, 8, 0], [ADD, 0, 0, 8], [SUB, 8, 0, 0], [SUB, 0, 8, 0], [SUB, 0, 0, 8],
        [SKIPLESS, 8, 0, 0], [SKIPLESS, 0, 8, 0], [SKIPEQUAL, 8, 0, 0], [SKIPEQUAL, 0, 8, 0],
        [SET, 9, 255, 255], [LOAD, 9, 8, 0], [ADD, 10, 9, 8], [SUB, 7, 9, 8],
        [LOAD, 8, 0, 1], [LOAD, 0, 8, 255], [STORE, 9, 8, 1],
        [SKIPLESS, 8, 0, past], [SKIPEQUAL, 0, 8, past], [SKIPEQUAL, 9, 8, 255],
    ]
}

/// Each byte that is to be 0, alone and with another. A reject's code is used.
#[rustfmt::skip]
fn unused_bytes() -> Vec<Instruction> {
    vec![
        [END, 1, 0, 0], [END, 0, 1, 0], [END, 0, 0, 1], [END, 0, 0, 255], [END, 4, 5, 6],
        [LOAD, 0, 0, 1], [LOAD, 7, 7, 255], [STORE, 0, 0, 1], [STORE, 7, 7, 255],
        [REJECT, 0, 1, 0], [REJECT, 0, 0, 1], [REJECT, 255, 255, 255],
    ]
}

/// A place in programs: program and instruction.
pub type Place = (usize, usize);

/// Good programs with room for a bad instruction at every kind of place. Empty ones have a number too.
pub fn good_programs() -> [Program; 5] {
    [vec![end(); 3], vec![], vec![end(); 5], vec![], vec![end(); INSTRUCTIONS]]
}

/// The first, a middle and the last instruction of the first, a middle and the last program. Each of these
/// three programs has three instructions or more.
pub fn places(programs: &[Program]) -> Vec<Place> {
    let first_middle_last = |count: usize| [0, count / 2, count - 1];
    let places = first_middle_last(programs.len())
        .map(|program| first_middle_last(programs[program].len()).map(|instruction| (program, instruction)));
    places.concat()
}

/// How many instructions follow a place in its program.
pub fn following(programs: &[Program], (program, instruction): Place) -> usize {
    programs[program].len() - instruction - 1
}

/// The same programs with another instruction at a place.
pub fn replaced(programs: &[Program], (program, instruction): Place, by: Instruction) -> Vec<Program> {
    let mut programs = programs.to_vec();
    programs[program][instruction] = by;
    programs
}

//! A tiny assembler: a program is written as its instructions, an image or a sheet as its programs.
//! Document 01, "Instructions" and "The image: counts and offsets"; document 02, requests 1 and 5.

use plain::guards::Guard;
use plain::image::{first_offset, INSTRUCTION_BYTES};
use plain::machine::{ADD, END, LOAD, REJECT, SET, SKIPEQUAL, SKIPLESS, STORE, SUB};
use plain::sheet;

/// Operation, a, b, c.
pub type Instruction = [u8; INSTRUCTION_BYTES];

pub const R0: u8 = 0;
pub const R1: u8 = 1;
pub const R2: u8 = 2;
pub const R3: u8 = 3;
pub const R4: u8 = 4;
pub const R5: u8 = 5;
pub const R6: u8 = 6;
pub const R7: u8 = 7;

/// Stops.
pub const fn end() -> Instruction {
    [END, 0, 0, 0]
}

/// r[a] = value.
pub const fn set(a: u8, value: u16) -> Instruction {
    let [b, c] = value.to_be_bytes();
    [SET, a, b, c]
}

/// r[a] = cell number r[b].
pub const fn load(a: u8, b: u8) -> Instruction {
    [LOAD, a, b, 0]
}

/// Cell number r[a] = r[b].
pub const fn store(a: u8, b: u8) -> Instruction {
    [STORE, a, b, 0]
}

/// r[a] = r[b] + r[c].
pub const fn add(a: u8, b: u8, c: u8) -> Instruction {
    [ADD, a, b, c]
}

/// r[a] = r[b] − r[c].
pub const fn sub(a: u8, b: u8, c: u8) -> Instruction {
    [SUB, a, b, c]
}

/// If r[a] < r[b], leaves out the next c instructions.
pub const fn skipless(a: u8, b: u8, c: u8) -> Instruction {
    [SKIPLESS, a, b, c]
}

/// If r[a] = r[b], leaves out the next c instructions.
pub const fn skipequal(a: u8, b: u8, c: u8) -> Instruction {
    [SKIPEQUAL, a, b, c]
}

/// Stops, code a.
pub const fn reject(a: u8) -> Instruction {
    [REJECT, a, 0, 0]
}

/// The image of these programs under a rule byte.
pub fn image(rule: u8, programs: &[Vec<Instruction>]) -> Vec<u8> {
    let mut offset = first_offset(programs.len());
    let mut image = two_bytes(programs.len()).to_vec();
    image.extend([rule, 0]);
    image.extend(two_bytes(offset));
    for program in programs {
        offset += INSTRUCTION_BYTES * program.len();
        image.extend(two_bytes(offset));
    }
    image.extend(programs.iter().flatten().flatten());
    image
}

/// The sheet of these programs under a rule byte. They may be too many, too long or bad: a sheet is text.
pub fn sheet(rule: u8, programs: &[Vec<Instruction>]) -> Vec<u8> {
    let mut sheet = Vec::new();
    sheet::say(rule, programs.iter().map(|program| program.as_flattened()), |text| sheet.extend(text));
    sheet
}

/// What `batch` and `why` read: T, the cells, the image.
pub fn input(table: &[u32], image: &[u8]) -> Vec<u8> {
    guarded_input(table, &[], image)
}

/// What `guarded` and `guarded_why` read: T, the cells, the pairs of the guard list, the image.
pub fn guarded_input(table: &[u32], guards: &[u32], image: &[u8]) -> Vec<u8> {
    let mut input = two_bytes(table.len()).to_vec();
    input.extend(table.iter().chain(guards).flat_map(|word| word.to_le_bytes()));
    input.extend(image);
    input
}

/// The guard list of these pairs, low then high, cell by cell.
pub fn guards(pairs: &[(i32, i32)]) -> Vec<u32> {
    pairs.iter().flat_map(|&(low, high)| Guard { low, high }.pair()).collect()
}

/// "All numbers are 16 bits, low byte first."
pub fn two_bytes(number: usize) -> [u8; 2] {
    u16::try_from(number).expect("a number of an image has 16 bits").to_le_bytes()
}

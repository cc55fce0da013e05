//! The machine: which instructions are good, and what a program does when it runs.
//! Document 01, "Instructions"; the fault at a guard is of document 02's request 5.

use crate::area::{Slot, SLOT_WORDS};
use crate::guards::Guard;
use crate::image::INSTRUCTION_BYTES;

/// "8 registers." "Every byte that names a register is 0 to 7."
pub const REGISTERS: usize = 8;

/// Fault kinds: "kind 1 at a load, 2 at a store", "a fault of kind 3" at a guard.
pub const FAULT_AT_LOAD: u32 = 1;
pub const FAULT_AT_STORE: u32 = 2;
pub const FAULT_AT_GUARD: u32 = 3;

/// The operations, by their byte.
pub const END: u8 = 0;
pub const SET: u8 = 1;
pub const LOAD: u8 = 2;
pub const STORE: u8 = 3;
pub const ADD: u8 = 4;
pub const SUB: u8 = 5;
pub const SKIPLESS: u8 = 6;
pub const SKIPEQUAL: u8 = 7;
pub const REJECT: u8 = 8;

/// The operations' names, by number.
pub const NAMES: [&str; 9] = ["end", "set", "load", "store", "add", "sub", "skipless", "skipequal", "reject"];

/// How a run came to its end.
pub enum End {
    Finished,
    Rejected { code: u32 },
    Faulted { fault: Fault, instruction: u32 },
}

/// What a faulted run came upon.
#[derive(Clone, Copy, Debug, PartialEq, Eq)]
pub enum Fault {
    /// A load of a cell outside the table.
    AtLoad,
    /// A store to a cell outside the table.
    AtStore,
    /// A store of a value that its cell's guard does not allow.
    AtGuard { cell: u32, value: u32 },
}

impl Fault {
    pub fn kind(self) -> u32 {
        match self {
            Fault::AtLoad => FAULT_AT_LOAD,
            Fault::AtStore => FAULT_AT_STORE,
            Fault::AtGuard { .. } => FAULT_AT_GUARD,
        }
    }
}

/// What is wrong with a bad instruction, and the byte that shows it.
#[derive(Clone, Copy, Debug, PartialEq, Eq)]
pub enum Flaw {
    Operation(u8),
    Register(u8),
    Unused(u8),
    Skip(u8),
}

/// The first bad instruction of a program, reached or not: its number, and what is wrong with it.
pub fn first_flaw(program: &[u8]) -> Option<(usize, Flaw)> {
    let length = program.len() / INSTRUCTION_BYTES;
    let mut instructions = program.chunks_exact(INSTRUCTION_BYTES).enumerate();
    instructions.find_map(|(place, instruction)| {
        let flaw = flaw(instruction, length - place - 1)?;
        Some((place, flaw))
    })
}

/// What is wrong with an instruction behind which so many follow in its program, if anything is. Where it
/// is bad in several ways, the first of document 02's list: in every operation the bytes that name a
/// register stand before the unused ones and the skip's.
fn flaw(instruction: &[u8], following: usize) -> Option<Flaw> {
    let [operation, a, b, c] = bytes_of(instruction);
    match operation {
        END => unused(a).or(unused(b)).or(unused(c)),
        SET => register(a),
        LOAD | STORE => register(a).or(register(b)).or(unused(c)),
        ADD | SUB => register(a).or(register(b)).or(register(c)),
        SKIPLESS | SKIPEQUAL => register(a).or(register(b)).or(skip(c, following)),
        REJECT => unused(b).or(unused(c)),
        _ => Some(Flaw::Operation(operation)),
    }
}

/// "Every byte that names a register is 0 to 7."
fn register(byte: u8) -> Option<Flaw> {
    (usize::from(byte) >= REGISTERS).then_some(Flaw::Register(byte))
}

fn unused(byte: u8) -> Option<Flaw> {
    (byte != 0).then_some(Flaw::Unused(byte))
}

/// "A skip at instruction i of m needs i+1+c ≤ m, taken or not": it leaves out no more than follow.
fn skip(byte: u8, following: usize) -> Option<Flaw> {
    (usize::from(byte) > following).then_some(Flaw::Skip(byte))
}

fn bytes_of(instruction: &[u8]) -> [u8; INSTRUCTION_BYTES] {
    [instruction[0], instruction[1], instruction[2], instruction[3]]
}

/// A run that no area keeps: how it ended, and a slot that has its reads and stores and nothing else.
pub fn run_apart(program: &[u8], table: &[u32], guards: &[u32]) -> (End, [u32; SLOT_WORDS]) {
    let mut slot = [0; SLOT_WORDS];
    let end = run(program, table, guards, &mut Slot::of(&mut slot));
    (end, slot)
}

/// Runs a good program on a guarded table. Its reads and stores go into a slot that holds none yet.
pub fn run(program: &[u8], table: &[u32], guards: &[u32], slot: &mut Slot) -> End {
    let mut r = [0u32; REGISTERS];
    let mut place = 0;
    // "Arriving at m is an end."
    while let Some(instruction) = program.get(INSTRUCTION_BYTES * place..INSTRUCTION_BYTES * (place + 1)) {
        let [operation, byte_a, b, c] = bytes_of(instruction);
        let (a, b, c) = (usize::from(byte_a), usize::from(b), usize::from(c));
        place += 1;
        match operation {
            SET => r[a] = (256 * b + c) as u32,
            LOAD => match load(r[b], table, slot) {
                Some(value) => r[a] = value,
                None => return faulted(Fault::AtLoad, place - 1),
            },
            STORE => match store_fault(r[a], r[b], table.len(), guards) {
                Some(fault) => return faulted(fault, place - 1),
                None => slot.store(r[a], r[b]),
            },
            ADD => r[a] = r[b].wrapping_add(r[c]),
            SUB => r[a] = r[b].wrapping_sub(r[c]),
            SKIPLESS if r[a] < r[b] => place += c,
            SKIPEQUAL if r[a] == r[b] => place += c,
            SKIPLESS | SKIPEQUAL => {}
            REJECT => return End::Rejected { code: u32::from(byte_a) },
            END => return End::Finished,
            9.. => unreachable!("a good program has no such operation"),
        }
    }
    End::Finished
}

/// "A load of a cell that the same program has stored gives the stored value and adds nothing to
/// the reads. Any other load gives the opening table's value and adds the cell to the reads, once."
/// A cell number of T or more gives nothing.
fn load(cell: u32, table: &[u32], slot: &mut Slot) -> Option<u32> {
    let value = *table.get(cell as usize)?;
    Some(slot.stored_value(cell).unwrap_or_else(|| {
        slot.add_read(cell);
        value
    }))
}

/// What is wrong with a store of a value to a cell, if anything is. "Kind 2 comes before kind 3."
fn store_fault(cell: u32, value: u32, cells: usize, guards: &[u32]) -> Option<Fault> {
    if cell as usize >= cells {
        Some(Fault::AtStore)
    } else if !Guard::of(guards, cell).allows(value) {
        Some(Fault::AtGuard { cell, value })
    } else {
        None
    }
}

fn faulted(fault: Fault, place: usize) -> End {
    End::Faulted { fault, instruction: place as u32 }
}

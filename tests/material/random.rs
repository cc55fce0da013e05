//! Random numbers, random good programs that meet each other in the table, and random guards that they
//! meet there. A seed gives the same ones on every machine.

use crate::assembler::{add, end, load, reject, set, skipequal, skipless, store, sub, Instruction};
use plain::guards::Guard;

/// SplitMix64: small, and good enough to pick test cases.
pub struct Random(u64);

impl Random {
    pub fn new(seed: u64) -> Random {
        Random(seed)
    }

    fn next(&mut self) -> u64 {
        self.0 = self.0.wrapping_add(0x9E37_79B9_7F4A_7C15);
        let mut word = self.0;
        word = (word ^ (word >> 30)).wrapping_mul(0xBF58_476D_1CE4_E5B9);
        word = (word ^ (word >> 27)).wrapping_mul(0x94D0_49BB_1331_11EB);
        word ^ (word >> 31)
    }

    /// A number below the bound, which is not 0.
    pub fn below(&mut self, bound: usize) -> usize {
        (self.next() % bound as u64) as usize
    }

    /// A number from low to high, both included.
    pub fn between(&mut self, low: usize, high: usize) -> usize {
        low + self.below(high - low + 1)
    }

    /// True this many times out of 100.
    pub fn percent(&mut self, times: usize) -> bool {
        self.below(100) < times
    }

    /// One of these.
    pub fn pick<T: Copy>(&mut self, choices: &[T]) -> T {
        choices[self.below(choices.len())]
    }

    pub fn byte(&mut self) -> u8 {
        self.next() as u8
    }

    /// A word: small, at an end of the range, or anything.
    pub fn word(&mut self) -> u32 {
        match self.below(4) {
            0 => self.below(4) as u32,
            1 => self.below(300) as u32,
            2 => u32::MAX - self.below(3) as u32,
            _ => self.next() as u32,
        }
    }
}

/// What random programs look like.
#[derive(Clone, Copy)]
pub struct Shape {
    /// T.
    pub cells: usize,
    /// Most accesses go to cells below this number, so that programs meet.
    pub busy_cells: usize,
    pub programs: usize,
    /// The most instructions of a program.
    pub instructions: usize,
}

/// Registers 0 to 3 hold cell numbers, 4 to 7 values.
const POINTERS: [u8; 4] = [0, 1, 2, 3];
const VALUES: [u8; 4] = [4, 5, 6, 7];

/// A table of so many cells. Half its values are cell numbers, so that programs can follow them.
pub fn table(random: &mut Random, cells: usize) -> Vec<u32> {
    let mut cell = || if random.percent(50) { random.below(cells) as u32 } else { random.word() };
    (0..cells).map(|_| cell()).collect()
}

/// A guard list for this table. Most guards allow every value, or most of them.
pub fn guards(random: &mut Random, table: &[u32]) -> Vec<u32> {
    table.iter().flat_map(|_| guard(random, table).pair()).collect()
}

/// A guard: the full range, a wide one, one whose ends lie at a value that programs often store or next to
/// it, one of a single value, or a closed one.
fn guard(random: &mut Random, table: &[u32]) -> Guard {
    let (low, high) = (guard_end(random, table), guard_end(random, table));
    match random.below(20) {
        0..=9 => Guard::FULL_RANGE,
        10..=12 => Guard { low: i32::MIN / 2, high: i32::MAX / 2 },
        13..=14 => Guard { low, high: i32::MAX },
        15 => Guard { low: i32::MIN, high },
        16 => Guard { low, high: low },
        17 => Guard { low, high: low.wrapping_sub(1) },
        _ => Guard { low: low.min(high), high: low.max(high) },
    }
}

/// A value that programs often store, or one next to it: 0, which every register holds first, what the
/// table holds, or the smallest or the largest number.
fn guard_end(random: &mut Random, table: &[u32]) -> i32 {
    let value = match random.below(8) {
        0..=3 => 0,
        4..=6 => random.pick(table),
        _ => random.pick(&Guard::FULL_RANGE.pair()),
    };
    (value as i32).wrapping_add(random.pick(&[-1, 0, 0, 1]))
}

/// Good programs of a shape.
pub fn programs(random: &mut Random, shape: Shape) -> Vec<Vec<Instruction>> {
    (0..shape.programs).map(|_| program(random, shape)).collect()
}

/// A good program of a shape. One in sixteen is made empty or as long as can be.
pub fn program(random: &mut Random, shape: Shape) -> Vec<Instruction> {
    let length = match random.below(32) {
        0 => 0,
        1 => shape.instructions,
        _ => random.below(shape.instructions + 1),
    };
    program_of_length(random, shape, length)
}

/// A good program of so many instructions.
pub fn program_of_length(random: &mut Random, shape: Shape, length: usize) -> Vec<Instruction> {
    let mut program = Vec::new();
    while program.len() < length {
        let left = length - program.len() - 1;
        program.extend(phrase(random, shape, left));
    }
    program.truncate(length);
    program
}

/// A few instructions that belong together; so many are left behind the first.
fn phrase(random: &mut Random, shape: Shape, left: usize) -> Vec<Instruction> {
    let (pointer, value, other) = (random.pick(&POINTERS), random.pick(&VALUES), random.pick(&VALUES));
    let skipped = random.below(left.min(4) + 1) as u8;
    match random.below(100) {
        0..=29 => vec![set(pointer, cell(random, shape)), load(value, pointer)],
        30..=49 => vec![set(pointer, cell(random, shape)), store(pointer, value)],
        50..=56 => vec![load(value, pointer)],
        57..=62 => vec![store(pointer, value)],
        63..=69 => vec![set(value, random.word() as u16)],
        70..=76 => vec![add(value, value, other)],
        77..=83 => vec![sub(value, other, value)],
        84..=88 => vec![skipless(value, other, skipped)],
        89..=92 => vec![skipequal(value, other, skipped)],
        // Values of the table as cell numbers: these reach cells that the bytes do not name, and fault.
        93..=94 => vec![load(pointer, pointer), load(value, pointer)],
        95 => vec![load(pointer, pointer), store(pointer, value)],
        96 => vec![set(pointer, (shape.cells + random.below(2)) as u16), load(value, pointer)],
        97 => vec![reject(random.byte())],
        98 => vec![skipequal(value, other, left.min(1) as u8), reject(random.byte())],
        _ => vec![end()],
    }
}

/// A cell number, mostly of a busy cell.
fn cell(random: &mut Random, shape: Shape) -> u16 {
    let bound = if random.percent(85) { shape.busy_cells } else { shape.cells };
    random.below(bound) as u16
}

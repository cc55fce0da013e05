//! Made-up memory: tables, guards and images of many sizes, and areas that no call made but that pass
//! check 7, knots among them.

use material::assembler::{self, load, set, store, R0};
use material::case::Program;
use material::random::{self, Random, Shape};
use plain::area::{self, CARRIED, CELLS, COMMITTED, GATHERED, REJECTED, WAITING};
use plain::area::{DETAIL, READS, READ_COUNT, SLOT_WORDS, STATE, STORES, STORE_COUNT};
use plain::guards::full_range;
use plain::image::{INSTRUCTIONS, PROGRAMS};
use plain::steps::RAW_WITH_WAR;
use std::ops::Range;

/// A number of cells: mostly few, so that programs meet.
pub fn cells(random: &mut Random) -> usize {
    match random.below(20) {
        0 => 1,
        1 => CELLS,
        2 => CELLS - 1,
        3..=5 => random.between(17, 100),
        _ => random.between(2, 16),
    }
}

/// A number of programs.
pub fn programs(random: &mut Random) -> usize {
    match random.below(30) {
        0 => 0,
        1 => PROGRAMS,
        2..=4 => random.between(13, PROGRAMS),
        _ => random.between(1, 12),
    }
}

/// A table of so many cells. One in five holds a number at which the sign turns, or the one next to it.
pub fn table(random: &mut Random, cells: usize) -> Vec<u32> {
    let mut table = random::table(random, cells);
    for cell in &mut table {
        if random.percent(20) {
            *cell = random.pick(&[i32::MIN, i32::MIN + 1, -1, 0, i32::MAX - 1, i32::MAX]) as u32;
        }
    }
    table
}

/// A guard list for this table. One in three is of the full range alone, as most callers will have it.
pub fn guards(random: &mut Random, table: &[u32]) -> Vec<u32> {
    if random.percent(33) {
        full_range(table.len())
    } else {
        random::guards(random, table)
    }
}

/// A good image of so many programs, for a table of so many cells.
pub fn image(random: &mut Random, cells: usize, programs: usize) -> Vec<u8> {
    let rule = random.below(3) as u8;
    if random.percent(10) {
        let programs: Vec<Program> = (0..programs).map(|_| many_stores(random, cells)).collect();
        return assembler::image(rule, &programs);
    }
    let instructions = if random.percent(10) { INSTRUCTIONS } else { random.between(1, 12) };
    let shape = Shape { cells, busy_cells: random.between(1, cells), programs, instructions };
    assembler::image(rule, &random::programs(random, shape))
}

/// A program that goes 16 times to one of a few cells, mostly to store it: so it comes back to what it
/// has stored just now, and to what it has stored long ago.
fn many_stores(random: &mut Random, cells: usize) -> Program {
    let turn = |_| {
        let (cell, value) = (random.below(cells.min(16)) as u16, random.between(1, 7) as u8);
        [set(R0, cell), if random.percent(70) { store(R0, value) } else { load(value, R0) }]
    };
    (0..INSTRUCTIONS / 2).flat_map(turn).collect()
}

/// Words that say nothing.
pub fn junk(random: &mut Random, words: usize) -> Vec<u32> {
    (0..words).map(|_| random.word()).collect()
}

/// An area that passes check 7: marks up to n, states up to 5, counts up to 32, cells below T among
/// the counted ones; everything else is junk, but most details are a reason, right or wrong, or 0.
pub fn area(random: &mut Random, cells: usize, programs: usize) -> Vec<u32> {
    let mut area = junk(random, area::words(cells, programs));
    let (marks, slots) = area.split_at_mut(2 * cells);
    let (read_cells, stored_cells) = reads_and_stores(random, cells);
    marks.fill(0);
    fill_marks(random, &mut marks[read_cells.clone()], programs);
    fill_marks(random, &mut marks[cells..][stored_cells.clone()], programs);
    let (first_state, last_state) = random.pick(&[
        (WAITING, CARRIED),
        (WAITING, GATHERED),
        (GATHERED, GATHERED),
        (GATHERED, CARRIED),
        (REJECTED, CARRIED),
        (REJECTED, CARRIED),
        (COMMITTED, COMMITTED),
        (CARRIED, CARRIED),
    ]);
    let most = random.pick(&[0, 1, 1, 2, 3, INSTRUCTIONS]);
    for slot in slots.chunks_exact_mut(SLOT_WORDS) {
        slot[STATE] = random.between(first_state as usize, last_state as usize) as u32;
        if random.percent(80) {
            slot[DETAIL] = random.between(0, RAW_WITH_WAR as usize) as u32;
        }
        fill_log(random, slot, READ_COUNT, READS, most, read_cells.clone());
        fill_log(random, slot, STORE_COUNT, STORES, most, stored_cells.clone());
    }
    area
}

/// The cells that are read, which have the write marks, and those that are stored, which have the read
/// marks. Mostly all cells are both; otherwise they are two halves, where nothing but RAW and WAR shows.
fn reads_and_stores(random: &mut Random, cells: usize) -> (Range<usize>, Range<usize>) {
    if cells > 1 && random.percent(30) {
        (0..cells / 2, cells / 2..cells)
    } else {
        (0..cells, 0..cells)
    }
}

/// Marks up to n, on few cells or on many.
fn fill_marks(random: &mut Random, marks: &mut [u32], programs: usize) {
    let marked = random.between(0, 100);
    for mark in marks {
        *mark = if random.percent(marked) { random.between(0, programs) as u32 } else { 0 };
    }
}

/// A count, and so many of these cells. A cell may come twice.
fn fill_log(
    random: &mut Random,
    slot: &mut [u32],
    count: usize,
    first: usize,
    most: usize,
    cells: Range<usize>,
) {
    let counted = random.between(0, most);
    slot[count] = counted as u32;
    for cell in &mut slot[first..first + counted] {
        *cell = random.between(cells.start, cells.end - 1) as u32;
    }
}

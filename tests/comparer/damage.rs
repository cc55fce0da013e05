//! Damage to what is lent: every way to earn a refusal, and changes that no check may look at.

use crate::lent::Lent;
use crate::made_up;
use archive::{bytes, words};
use material::assembler::{self, end, Instruction};
use material::bad::{self, WAYS};
use material::random::Random;
use plain::area::{self, CARRIED, DETAIL, READS, READ_COUNT, SLOT_WORDS, STATE, STORES, STORE_COUNT, VALUES};
use plain::guards;
use plain::image::{INSTRUCTIONS, INSTRUCTION_BYTES, LONGEST};

/// Damages one or two of the things lent, which are those of a good image of so many programs.
pub fn damage(random: &mut Random, lent: &mut Lent, programs: usize) {
    for _ in 0..random.pick(&[1, 1, 1, 2]) {
        match random.below(9) {
            0 | 1 => lent.image = bytes(&damaged_image(random, lent.image.lent())),
            2 => resize_table(random, lent, programs),
            3 => resize_area(random, lent),
            4 | 5 => damage_area(random, lent),
            6 => resize_list(random, lent, programs),
            7 => resize_guards(random, lent),
            _ => lent.fresh = bytes(&damaged_image(random, lent.fresh.lent())),
        }
    }
}

/// A list of no entries, one too few, as many as it needs, or more.
fn resize_list(random: &mut Random, lent: &mut Lent, programs: usize) {
    let entries = random.pick(&[0, programs.saturating_sub(1), programs, programs + 1, programs + 5]);
    lent.list = words(&made_up::junk(random, entries));
}

/// An image that is too short or too long, has a bad header, offset or length, has bad instructions, or
/// any byte changed.
pub fn damaged_image(random: &mut Random, good: &[u8]) -> Vec<u8> {
    let mut image = good.to_vec();
    let length = image.len();
    match random.below(9) {
        0 => image.truncate(random.below(length + 1)),
        1 => image.truncate(random.below(7)),
        2 => image.resize(length + random.between(1, 8), 0),
        3 => image.resize(LONGEST + random.between(0, 2), 0),
        4 => image = assembler::image(0, &[vec![], vec![end(); INSTRUCTIONS + random.below(3)]]),
        _ if length < 6 => image.push(0),
        5 => image[random.below(4)] = random.pick(&[0, 1, 2, 3, 64, 65, 255]),
        6 => damage_offset(random, &mut image),
        7 => damage_instructions(random, &mut image),
        _ => image[random.below(length)] = random.byte(),
    }
    image
}

/// Moves one offset a little, or anywhere.
fn damage_offset(random: &mut Random, image: &mut [u8]) {
    let offsets = (usize::from(image[0]) + 1).min((image.len() - 4) / 2);
    let place = 4 + 2 * random.below(offsets);
    if random.percent(50) {
        image[place] = image[place].wrapping_add(random.pick(&[1, 2, 4, 128, 252, 254, 255]));
    } else {
        image[place + random.below(2)] = random.byte();
    }
}

/// Puts other instructions somewhere: mostly one, sometimes two or three, of which the first in image
/// order is told.
fn damage_instructions(random: &mut Random, image: &mut [u8]) {
    let first = (2 * usize::from(image[0]) + 6).min(image.len());
    let instructions = (image.len() - first) / INSTRUCTION_BYTES;
    if instructions > 0 {
        for _ in 0..random.pick(&[1, 1, 2, 3]) {
            let start = first + INSTRUCTION_BYTES * random.below(instructions);
            image[start..start + INSTRUCTION_BYTES].copy_from_slice(&odd_instruction(random));
        }
    }
}

/// An instruction that is bad wherever it stands; or any operation, zeros behind it, and then one of the
/// four bytes at or past its limit.
fn odd_instruction(random: &mut Random) -> Instruction {
    if random.percent(50) {
        let way = random.pick(&WAYS);
        return random.pick(&bad::instructions(way, INSTRUCTIONS - 1));
    }
    let mut instruction = [random.below(10) as u8, 0, 0, 0];
    instruction[random.below(INSTRUCTION_BYTES)] = random.pick(&[1, 2, 7, 8, 9, 31, 32, 255]);
    instruction
}

/// A table of another size; sometimes with the guards that belong to it, and with the area.
fn resize_table(random: &mut Random, lent: &mut Lent, programs: usize) {
    let cells = lent.table.lent().len();
    let resized = random.pick(&[0, 257, 300, cells + 1, cells.saturating_sub(1)]);
    lent.table = words(&made_up::junk(random, resized));
    if random.percent(60) {
        lent.guards = words(&made_up::junk(random, guards::words(resized)));
    }
    if random.percent(60) {
        lent.area = words(&made_up::junk(random, area::words(resized, programs)));
    }
}

/// Guards of another size: a word or a pair too few or too many, one word a cell, or none; with what they
/// held as far as it goes.
fn resize_guards(random: &mut Random, lent: &mut Lent) {
    let cells = lent.table.lent().len();
    let whole = guards::words(cells);
    let sizes = [whole.saturating_sub(1), whole + 1, whole.saturating_sub(2), whole + 2, cells, 0];
    let mut guards = lent.guards.lent().to_vec();
    guards.resize(random.pick(&sizes), random.word());
    lent.guards = words(&guards);
}

/// An area of another size, with what it held as far as it goes.
fn resize_area(random: &mut Random, lent: &mut Lent) {
    let mut area = lent.area.lent().to_vec();
    let length = area.len();
    area.resize(random.pick(&[0, length + 1, length.saturating_sub(1), length + SLOT_WORDS, length / 2]), 0);
    lent.area = words(&area);
}

/// Changes one word of the area: a mark, a state, a count, a counted cell, or one that no check
/// looks at.
fn damage_area(random: &mut Random, lent: &mut Lent) {
    let cells = lent.table.lent().len();
    let area = lent.area.lent_mut();
    let programs = area.len().saturating_sub(2 * cells) / SLOT_WORDS;
    if programs == 0 || random.percent(25) {
        let marks = area.len().min(2 * cells);
        if marks > 0 {
            area[random.below(marks)] = past(random, programs);
        }
        return;
    }
    let start = area::words(cells, random.below(programs));
    let slot = &mut area[start..start + SLOT_WORDS];
    match random.below(6) {
        0 => slot[STATE] = past(random, CARRIED as usize),
        1 => slot[random.pick(&[READ_COUNT, STORE_COUNT])] = past(random, INSTRUCTIONS),
        2 => damage_counted_cell(random, slot, READ_COUNT, READS, cells),
        3 => damage_counted_cell(random, slot, STORE_COUNT, STORES, cells),
        4 => slot[random.pick(&[DETAIL, VALUES, VALUES + INSTRUCTIONS - 1])] = random.word(),
        _ => slot[random.pick(&[STATE, READ_COUNT, STORE_COUNT, READS, STORES])] = random.below(7) as u32,
    }
}

/// Changes the last counted cell, or the first that is not counted.
fn damage_counted_cell(random: &mut Random, slot: &mut [u32], count: usize, first: usize, cells: usize) {
    let counted = (slot[count] as usize).min(INSTRUCTIONS);
    let place = counted.saturating_sub(random.below(2)).min(INSTRUCTIONS - 1);
    slot[first + place] = past(random, cells.saturating_sub(1));
}

/// The last number that is good, the first that is not, or one far past it.
fn past(random: &mut Random, last_good: usize) -> u32 {
    random.pick(&[last_good as u32, last_good as u32 + 1, last_good as u32 + 1, u32::MAX, 1 << 31])
}

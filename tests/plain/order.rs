//! The listed order.
//! Document 01, "The steps"; checks 9, 10 and 12 of the order.

use crate::area::{self, CELLS, COMMITTED};
use crate::image::PROGRAMS;
use crate::refusal::{self, Refusal};
use crate::Count;

/// "Repeatedly take the smallest-numbered committed program not yet taken, none of whose stored
/// cells is read by another committed program not yet taken." The list beyond the committed count
/// is untouched.
pub fn order(image: &[u8], table: &[u32], guards: &[u32], area: &[u32], list: &mut [u32]) -> Count {
    Count::of(order_checked(image, table, guards, area, list))
}

fn order_checked(
    image: &[u8],
    table: &[u32],
    guards: &[u32],
    area: &[u32],
    list: &mut [u32],
) -> Result<usize, Refusal> {
    let image = area::check(image, table, guards, area)?;
    area::check_settled(area, table.len())?;
    if list.len() < image.count() {
        return Err(refusal::TOO_SHORT);
    }
    let mut order = [0u32; PROGRAMS];
    let count = take_in_turn(area, table.len(), &mut order).ok_or(refusal::NO_ORDER)?;
    list[..count].copy_from_slice(&order[..count]);
    Ok(count)
}

/// Writes the listed order and returns its count; nothing where no order exists.
/// A set of programs is 64 bits, bit i for program i.
fn take_in_turn(area: &[u32], cells: usize, order: &mut [u32; PROGRAMS]) -> Option<usize> {
    let committed = committed_programs(area, cells);
    let readers = readers_of_cells(area, cells, committed);
    let mut waits_for = [0u64; PROGRAMS];
    for number in members(committed) {
        waits_for[number] = other_readers(&readers, area::stores(area::slot(area, cells, number)), number);
    }
    let mut left = committed;
    let mut count = 0;
    while left != 0 {
        let number = members(left).find(|&number| waits_for[number] & left == 0)?;
        order[count] = number as u32;
        count += 1;
        left &= !(1 << number);
    }
    Some(count)
}

fn committed_programs(area: &[u32], cells: usize) -> u64 {
    let states = area::states(area, cells).enumerate();
    states.filter(|&(_, state)| state == COMMITTED).fold(0, |set, (number, _)| set | 1 << number)
}

/// For each cell, the programs of a set that read it.
fn readers_of_cells(area: &[u32], cells: usize, programs: u64) -> [u64; CELLS] {
    let mut readers = [0u64; CELLS];
    for number in members(programs) {
        for &cell in area::reads(area::slot(area, cells, number)) {
            readers[cell as usize] |= 1 << number;
        }
    }
    readers
}

/// The readers, other than this program, of the cells that it stores. Its own reads never hold a
/// program up.
fn other_readers(readers: &[u64; CELLS], stores: &[u32], number: usize) -> u64 {
    let all = stores.iter().fold(0, |set, &cell| set | readers[cell as usize]);
    all & !(1 << number)
}

/// The programs of a set, in rising order.
fn members(set: u64) -> impl Iterator<Item = usize> {
    let mut left = set;
    std::iter::from_fn(move || {
        let number = left.trailing_zeros() as usize;
        left &= left.wrapping_sub(1);
        (number < PROGRAMS).then_some(number)
    })
}

//! Opening, gathering and settling.
//! Document 01, "The steps"; checks 8 and 9 of gathering and settling.

use crate::area::{self, mark_of, Place};
use crate::area::{CARRIED, COMMITTED, FAULTED, GATHERED, REJECTED, STATE, WAITING};
use crate::dependencies::Dependencies;
use crate::machine::{self, End};
use crate::refusal::{self, Refusal, DONE};
use crate::Step;

/// "Carried for one reason out of three: 1 WAW, looked at first; 2 RAW (Rule 1); 3 RAW with WAR
/// (Rule 2)."
pub const WAW: u32 = 1;
pub const RAW: u32 = 2;
pub const RAW_WITH_WAR: u32 = 3;

/// "Opening sets the whole area to 0."
pub fn open(image: &[u8], table: &[u32], guards: &[u32], area: &mut [u32]) -> Refusal {
    match area::check_sizes(image, table, guards, area) {
        Ok(_) => {
            area.fill(0);
            DONE
        }
        Err(refusal) => refusal,
    }
}

/// "Gathering runs one waiting program on the table lent to it, rewrites that whole slot and makes
/// all its reservations."
pub fn gather(image: &[u8], table: &[u32], guards: &[u32], area: &mut [u32], number: usize) -> Step {
    Step::of(gather_checked(image, table, guards, area, number))
}

fn gather_checked(
    image: &[u8],
    table: &[u32],
    guards: &[u32],
    area: &mut [u32],
    number: usize,
) -> Result<(u32, u32), Refusal> {
    let image = area::check(image, table, guards, area)?;
    image.check_number(number)?;
    let Place { write_marks, read_marks, mut slot } = Place::of(area, table.len(), number);
    if slot.state() != WAITING {
        return Err(refusal::STATE);
    }
    slot.clear();
    Ok(match machine::run(image.program(number), table, guards, &mut slot) {
        End::Finished => {
            reserve(write_marks, slot.stores(), number);
            reserve(read_marks, slot.reads(), number);
            slot.decide(GATHERED, 0)
        }
        // "A rejected or faulted slot has only state and detail."
        End::Rejected { code } => {
            slot.clear();
            slot.decide(REJECTED, code)
        }
        End::Faulted { fault, instruction } => {
            slot.clear();
            slot.decide(FAULTED, 256 * fault.kind() + instruction)
        }
    })
}

/// All reservations of a program: "a mark that is 0 or larger becomes this program's".
fn reserve(marks: &mut [u32], cells: &[u32], number: usize) {
    let own = mark_of(number);
    for &cell in cells {
        let mark = &mut marks[cell as usize];
        if *mark == 0 || *mark > own {
            *mark = own;
        }
    }
}

/// "Settling decides one gathered program and changes only its state and detail and, on a commit,
/// the table."
pub fn settle(image: &[u8], table: &mut [u32], guards: &[u32], area: &mut [u32], number: usize) -> Step {
    Step::of(settle_checked(image, table, guards, area, number))
}

fn settle_checked(
    image: &[u8],
    table: &mut [u32],
    guards: &[u32],
    area: &mut [u32],
    number: usize,
) -> Result<(u32, u32), Refusal> {
    let image = area::check(image, table, guards, area)?;
    image.check_number(number)?;
    let cells = table.len();
    let some_state_is_waiting = area::states(area, cells).any(|state| state == WAITING);
    if some_state_is_waiting || area::slot(area, cells, number)[STATE] != GATHERED {
        return Err(refusal::STATE);
    }
    let reason = reason_to_carry(&Dependencies::of(area, cells, number), image.rule());
    let Place { mut slot, .. } = Place::of(area, cells, number);
    Ok(match reason {
        Some(reason) => slot.decide(CARRIED, reason),
        None => {
            // "A committed program's stores go into the table at its settling, in the slot's order."
            for (&cell, &value) in slot.stores().iter().zip(slot.values()) {
                table[cell as usize] = value;
            }
            slot.decide(COMMITTED, 0)
        }
    })
}

/// "Rule 1 commits without WAW and without RAW. Rule 2 commits without WAW and not with both RAW
/// and WAR."
pub fn reason_to_carry(dependencies: &Dependencies, rule: u8) -> Option<u32> {
    if dependencies.waw().next().is_some() {
        return Some(WAW);
    }
    if dependencies.raw().next().is_none() {
        return None;
    }
    if rule == 1 {
        return Some(RAW);
    }
    dependencies.war().next().map(|_| RAW_WITH_WAR)
}

//! Why a program was carried: the reason, with its cause.
//! Document 02, request 3; its checks go 1 to 3, 41 to 44, 5, 14, 6 to 9, 13, 15.

use crate::area::{self, CARRIED, DETAIL, STATE};
use crate::dependencies::{Dependencies, Pair};
use crate::refusal::{self, Refusal, DONE};
use crate::steps::{reason_to_carry, RAW_WITH_WAR, WAW};

/// What why returns: the reason and its cause, or a refusal and zeros.
#[derive(Clone, Copy, Debug, Default, PartialEq, Eq)]
pub struct Cause {
    pub refusal: Refusal,
    pub reason: u32,
    /// The pair of WAW for reason 1, of RAW for reasons 2 and 3.
    pub cell: u32,
    pub program: u32,
    /// The pair of WAR for reason 3; 0 and 0 for the others.
    pub war_cell: u32,
    pub war_program: u32,
}

/// "For a settled batch and a program number, say the reason with its cause: the lowest cell that
/// shows the dependency and the smallest earlier program its marks name; for reason 3 one such pair
/// for RAW and one for WAR."
pub fn why(image: &[u8], table: &[u32], guards: &[u32], area: &[u32], number: usize) -> Cause {
    match why_checked(image, table, guards, area, number) {
        Ok(cause) => cause,
        Err(refusal) => Cause { refusal, ..Cause::default() },
    }
}

fn why_checked(
    image: &[u8],
    table: &[u32],
    guards: &[u32],
    area: &[u32],
    number: usize,
) -> Result<Cause, Refusal> {
    let image = area::check(image, table, guards, area)?;
    image.check_number(number)?;
    area::check_settled(area, table.len())?;
    let slot = area::slot(area, table.len(), number);
    if slot[STATE] != CARRIED {
        return Err(refusal::NOT_CARRIED);
    }
    let dependencies = Dependencies::of(area, table.len(), number);
    match reason_to_carry(&dependencies, image.rule()) {
        Some(reason) if reason == slot[DETAIL] => Ok(cause(reason, &dependencies)),
        _ => Err(refusal::REASON),
    }
}

/// The cause of a reason that these dependencies give. The lowest cell is that of the smallest
/// number, wherever it stands in the slot.
fn cause(reason: u32, dependencies: &Dependencies) -> Cause {
    let pair = if reason == WAW { dependencies.waw().min() } else { dependencies.raw().min() };
    let war_pair = if reason == RAW_WITH_WAR { dependencies.war().min() } else { None };
    let Pair { cell, program } = pair.expect("some cell shows the reason");
    let (war_cell, war_program) = war_pair.map_or((0, 0), |pair| (pair.cell, pair.program));
    Cause { refusal: DONE, reason, cell, program, war_cell, war_program }
}

//! The guard list: the two ends that a cell's stores must stay between.
//! Document 02, request 5: "a guard list of T pairs, low then high, cell by cell"; check 14.

use crate::refusal::{self, Refusal};

/// The words of a pair: low, then high, each a signed number of 32 bits in two's complement.
const PAIR_WORDS: usize = 2;

/// The words of a guard list for so many cells.
pub const fn words(cells: usize) -> usize {
    PAIR_WORDS * cells
}

/// Check 14: "guard list not T pairs".
pub fn check(guards: &[u32], cells: usize) -> Result<(), Refusal> {
    if guards.len() == words(cells) {
        Ok(())
    } else {
        Err(refusal::GUARDS)
    }
}

/// The guard of one cell: both ends are allowed, and what lies between them.
#[derive(Clone, Copy, Debug, PartialEq, Eq)]
pub struct Guard {
    pub low: i32,
    pub high: i32,
}

impl Guard {
    /// Every value is allowed.
    pub const FULL_RANGE: Guard = Guard { low: i32::MIN, high: i32::MAX };

    /// A cell's, in a list that has a pair for it.
    pub fn of(guards: &[u32], cell: u32) -> Guard {
        let low = words(cell as usize);
        Guard { low: guards[low] as i32, high: guards[low + 1] as i32 }
    }

    /// "A store whose value, read as a signed 32-bit number, lies below low or above high is now a fault
    /// of kind 3 at its place; low above high closes the cell": then every value lies outside.
    pub fn allows(self, value: u32) -> bool {
        let value = value as i32;
        self.low <= value && value <= self.high
    }

    /// The pair as a list has it.
    pub const fn pair(self) -> [u32; PAIR_WORDS] {
        [self.low as u32, self.high as u32]
    }
}

/// "The batch program lends the full range."
pub fn full_range(cells: usize) -> Vec<u32> {
    Guard::FULL_RANGE.pair().repeat(cells)
}

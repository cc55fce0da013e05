//! The refusals.
//! Document 01, "What each refusal says": each constant is a row of that table, but for 4, which
//! document 02's request 2 replaces by 41 to 44, as it does 24 by 61 to 64. 13 and 15 are of its
//! request 3, 14 of request 5; 51 is of request 1, which also says what 2, 3 and 10 mean for a sheet.

/// What a call refuses: a number, and "program and instruction too" where it is of an instruction, both
/// from 0. For every other number, 0 among them, these two are 0.
#[derive(Clone, Copy, Debug, Default, PartialEq, Eq)]
pub struct Refusal {
    pub number: u32,
    pub program: u32,
    pub instruction: u32,
}

impl Refusal {
    const fn numbered(number: u32) -> Refusal {
        Refusal { number, program: 0, instruction: 0 }
    }

    /// The same refusal, of the instruction at this place.
    pub const fn at(self, program: usize, instruction: usize) -> Refusal {
        Refusal { number: self.number, program: program as u32, instruction: instruction as u32 }
    }

    /// "21–24: as 1–4, for the fresh image"; "for the fresh image 24 by 61 to 64".
    pub const fn of_fresh(self) -> Refusal {
        Refusal { number: 20 + self.number, ..self }
    }
}

/// Done.
pub const DONE: Refusal = Refusal::numbered(0);
/// Image under 6 or over 8326 bytes.
pub const IMAGE_SIZE: Refusal = Refusal::numbered(1);
/// Count over 64, rule over 2, or byte 3 not 0. A sheet: over 64 programs.
pub const HEADER: Refusal = Refusal::numbered(2);
/// Image under 2n+6 bytes, or an offset rule broken. A sheet: a program over 32 instructions.
pub const OFFSETS: Refusal = Refusal::numbered(3);
/// Unknown operation.
pub const OPERATION: Refusal = Refusal::numbered(41);
/// Register over 7.
pub const REGISTER: Refusal = Refusal::numbered(42);
/// An unused byte not 0.
pub const UNUSED: Refusal = Refusal::numbered(43);
/// Skip past the end.
pub const SKIP: Refusal = Refusal::numbered(44);
/// Table of 0 or over 256 cells.
pub const TABLE_SIZE: Refusal = Refusal::numbered(5);
/// Guard list not T pairs.
pub const GUARDS: Refusal = Refusal::numbered(14);
/// Area is not 2T + 100n words.
pub const AREA_SIZE: Refusal = Refusal::numbered(6);
/// A mark over n, a state over 5, a count over 32, or a cell of T or more among the counted ones.
pub const AREA: Refusal = Refusal::numbered(7);
/// Program number n or more.
pub const NUMBER: Refusal = Refusal::numbered(8);
/// Gathering: state not 0. Settling: some state 0, or this one's not 1. Order, next image, why: some state 0
/// or 1.
pub const STATE: Refusal = Refusal::numbered(9);
/// Order list under n entries; output shorter than the next image, than a sheet's image, or than an
/// image's sheet.
pub const TOO_SHORT: Refusal = Refusal::numbered(10);
/// Carried plus fresh over 64.
pub const TOO_MANY: Refusal = Refusal::numbered(11);
/// No order exists.
pub const NO_ORDER: Refusal = Refusal::numbered(12);
/// This program is not carried.
pub const NOT_CARRIED: Refusal = Refusal::numbered(13);
/// Its detail is not the reason that its slot, the marks and the rule give.
pub const REASON: Refusal = Refusal::numbered(15);
/// A line of a sheet that its place does not allow.
pub const LINE: Refusal = Refusal::numbered(51);

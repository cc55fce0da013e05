//! Where a refusal names a bad instruction: the first, a middle or the last one of its program, which is
//! the first, a middle or the last one itself.

use crate::calls::Call;
use crate::lent::Lent;
use plain::image::{Image, INSTRUCTION_BYTES};
use plain::sheet::Sheet;
use plain::Refusal;
use std::fmt;

#[derive(Clone, Copy, PartialEq, Eq, PartialOrd, Ord)]
enum Part {
    First,
    Middle,
    Last,
}

use Part::{First, Last, Middle};

#[derive(Clone, Copy, PartialEq, Eq, PartialOrd, Ord)]
pub struct Place {
    program: Part,
    instruction: Part,
}

/// Whether a refusal of this number is of an instruction: 41 to 44, and 61 to 64 for the fresh image.
pub fn names_an_instruction(number: u32) -> bool {
    matches!(number, 41..=44 | 61..=64)
}

impl Place {
    /// All nine.
    pub fn all() -> impl Iterator<Item = Place> {
        let parts = [First, Middle, Last];
        let of_program = move |program| parts.map(|instruction| Place { program, instruction });
        parts.into_iter().flat_map(of_program)
    }

    /// The place that a call's refusal names, if it names one.
    pub fn named(call: Call, refusal: Refusal, lent: &Lent) -> Option<Place> {
        let lengths = match (call, refusal.number) {
            (_, number) if !names_an_instruction(number) => return None,
            (Call::ImageOf, _) => lengths_in_sheet(lent.sheet.lent()),
            (_, 61..) => lengths_in_image(lent.fresh.lent()),
            _ => lengths_in_image(lent.image.lent()),
        };
        let (program, instruction) = (refusal.program as usize, refusal.instruction as usize);
        Some(Place {
            program: part(program, lengths.len()),
            instruction: part(instruction, lengths[program]),
        })
    }
}

/// The first of one is the first.
fn part(number: usize, count: usize) -> Part {
    match number {
        0 => First,
        _ if number + 1 == count => Last,
        _ => Middle,
    }
}

/// How many instructions each program has, of an image that is refused for one of them.
fn lengths_in_image(image: &[u8]) -> Vec<usize> {
    lengths(Image::check_layout(image).expect("programs that can be found").programs())
}

/// The same of a sheet.
fn lengths_in_sheet(sheet: &[u8]) -> Vec<usize> {
    lengths(Sheet::read(sheet).expect("lines that are allowed").programs())
}

fn lengths<'a>(programs: impl Iterator<Item = &'a [u8]>) -> Vec<usize> {
    programs.map(|program| program.len() / INSTRUCTION_BYTES).collect()
}

impl fmt::Display for Part {
    fn fmt(&self, text: &mut fmt::Formatter) -> fmt::Result {
        text.write_str(match self {
            First => "first",
            Middle => "middle",
            Last => "last",
        })
    }
}

impl fmt::Display for Place {
    fn fmt(&self, text: &mut fmt::Formatter) -> fmt::Result {
        write!(text, "{} instruction of {} program", self.instruction, self.program)
    }
}

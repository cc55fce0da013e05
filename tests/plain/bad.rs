//! The first bad instruction of an image or of a sheet, and what the programs say of it in words.
//! Document 02, request 2: "Split the number, and return program and instruction too: the first in
//! image order, then in the list below."

use crate::image::{Image, INSTRUCTION_BYTES};
use crate::input::Input;
use crate::machine::{self, Flaw};
use crate::refusal::{self, Refusal};
use crate::sheet::Sheet;
use std::fmt;

/// Where it stands, both numbers from 0, and what is wrong with it.
pub struct BadInstruction {
    program: usize,
    instruction: usize,
    flaw: Flaw,
}

impl BadInstruction {
    /// "The check stops at the first bad instruction of the first bad program."
    pub fn first<'a>(programs: impl Iterator<Item = &'a [u8]>) -> Option<BadInstruction> {
        programs.enumerate().find_map(|(program, code)| {
            let (instruction, flaw) = machine::first_flaw(code)?;
            Some(BadInstruction { program, instruction, flaw })
        })
    }

    /// "41 unknown operation, 42 register over 7, 43 an unused byte not 0, 44 skip past the end."
    pub fn refusal(&self) -> Refusal {
        let refusal = match self.flaw {
            Flaw::Operation(_) => refusal::OPERATION,
            Flaw::Register(_) => refusal::REGISTER,
            Flaw::Unused(_) => refusal::UNUSED,
            Flaw::Skip(_) => refusal::SKIP,
        };
        refusal.at(self.program, self.instruction)
    }

    /// The number, from 1, of its line in the sheet of these programs: behind the rule's line, a line
    /// for each program up to its own and one for each instruction before it.
    fn line<'a>(&self, programs: impl Iterator<Item = &'a [u8]>) -> usize {
        let earlier = programs.take(self.program).map(|code| code.len() / INSTRUCTION_BYTES);
        1 + (self.program + 1) + earlier.sum::<usize>() + self.instruction + 1
    }
}

impl fmt::Display for BadInstruction {
    fn fmt(&self, text: &mut fmt::Formatter) -> fmt::Result {
        write!(text, "program {}, instruction {}: ", self.program, self.instruction)?;
        match self.flaw {
            Flaw::Operation(byte) => write!(text, "unknown operation {byte}"),
            Flaw::Register(byte) => write!(text, "register {byte} is over 7"),
            Flaw::Unused(byte) => write!(text, "an unused byte is {byte}, not 0"),
            Flaw::Skip(byte) => write!(text, "a skip by {byte} lands past the end"),
        }
    }
}

/// What `batch` and `why` say on standard error of what they read: a line where an instruction of the
/// image behind the table is bad, otherwise nothing.
pub fn said_of_input(input: &[u8]) -> String {
    Input::unguarded(input).map_or(String::new(), |input| said_of_image(input.image))
}

/// The same of `guarded` and `guarded_why`.
pub fn said_of_guarded_input(input: &[u8]) -> String {
    Input::guarded(input).map_or(String::new(), |input| said_of_image(input.image))
}

/// What `to_sheet` says of an image.
pub fn said_of_image(image: &[u8]) -> String {
    let laid_out = Image::check_layout(image).ok();
    let bad = laid_out.and_then(|image| BadInstruction::first(image.programs()));
    bad.map_or(String::new(), |bad| format!("{bad}\n"))
}

/// What `to_image` says of a sheet: its line too, since a sheet is read by lines.
pub fn said_of_sheet(sheet: &[u8]) -> String {
    let read = Sheet::read(sheet).ok().filter(|sheet| sheet.check_sizes().is_ok());
    let said = read.and_then(|sheet| {
        let bad = BadInstruction::first(sheet.programs())?;
        Some(format!("line {}, {bad}\n", bad.line(sheet.programs())))
    });
    said.unwrap_or_default()
}

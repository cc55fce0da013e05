//! A worked case: a batch to run, with what is to come of it.

use crate::assembler::{image, sheet, Instruction};
use plain::guards::full_range;
use plain::Refusal;

pub type Program = Vec<Instruction>;

/// A batch to run, and what comes of it: a refusal or an outcome.
pub struct Case {
    pub name: &'static str,
    pub table: Vec<u32>,
    pub guards: Vec<u32>,
    pub image: Vec<u8>,
    /// The image as text, also where an instruction is bad.
    pub sheet: Vec<u8>,
    pub expected: Result<Outcome, Refusal>,
}

/// State and detail of each program, the listed order and the table at the end.
pub struct Outcome {
    pub slots: Vec<(u32, u32)>,
    pub order: Vec<u32>,
    pub table: Vec<u32>,
}

/// A case of these programs under a rule byte, lent the full range.
pub fn case(
    name: &'static str,
    table: &[u32],
    rule: u8,
    programs: &[Program],
    expected: Result<Outcome, Refusal>,
) -> Case {
    Case {
        name,
        table: table.to_vec(),
        guards: full_range(table.len()),
        image: image(rule, programs),
        sheet: sheet(rule, programs),
        expected,
    }
}

pub fn outcome(slots: &[(u32, u32)], order: &[u32], table: &[u32]) -> Result<Outcome, Refusal> {
    Ok(Outcome { slots: slots.to_vec(), order: order.to_vec(), table: table.to_vec() })
}

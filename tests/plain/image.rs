//! The image: its limits, its counts and offsets, and a program as a part of it.
//! Document 01, "Sizes" and "The image: counts and offsets"; checks 1 to 3, 41 to 44 and 8.

use crate::bad::BadInstruction;
use crate::refusal::{self, Refusal, DONE};

/// "0 to 64 programs, 0 to 32 instructions each."
pub const PROGRAMS: usize = 64;
pub const INSTRUCTIONS: usize = 32;
/// "An image has 6 to 8326 bytes."
pub const SHORTEST: usize = first_offset(0);
pub const LONGEST: usize = first_offset(PROGRAMS) + PROGRAMS * PROGRAM_BYTES;
/// "Each length is a multiple of 4 and at most 128."
pub const PROGRAM_BYTES: usize = INSTRUCTIONS * INSTRUCTION_BYTES;
pub const INSTRUCTION_BYTES: usize = 4;
/// "Rule, 0 (default, means Rule 1), 1 or 2."
pub const LAST_RULE: u8 = 2;

/// Bytes 0–1 count, byte 2 rule, byte 3 zero; the offsets begin behind them.
const RULE: usize = 2;
const ZERO: usize = 3;
const OFFSETS: usize = 4;

/// An image that has passed checks 1 to 3, so that each program can be found.
#[derive(Clone, Copy)]
pub struct Image<'a> {
    bytes: &'a [u8],
    count: usize,
}

/// A program asked for by number, as that very part of the image; empty on a refusal.
pub fn program(image: &[u8], number: usize) -> &[u8] {
    match numbered_program(image, number) {
        Ok(part) => part,
        Err(_) => &image[..0],
    }
}

/// The refusal of the same question.
pub fn program_refusal(image: &[u8], number: usize) -> Refusal {
    match numbered_program(image, number) {
        Ok(_) => DONE,
        Err(refusal) => refusal,
    }
}

fn numbered_program(image: &[u8], number: usize) -> Result<&[u8], Refusal> {
    let image = Image::check(image)?;
    image.check_number(number)?;
    Ok(image.program(number))
}

impl<'a> Image<'a> {
    /// Checks 1 to 3, then 41 to 44.
    pub fn check(bytes: &'a [u8]) -> Result<Image<'a>, Refusal> {
        let image = Image::check_layout(bytes)?;
        match BadInstruction::first(image.programs()) {
            None => Ok(image),
            Some(bad) => Err(bad.refusal()),
        }
    }

    /// Checks 1 to 3, in this order: then every program lies where its offsets say.
    pub fn check_layout(bytes: &'a [u8]) -> Result<Image<'a>, Refusal> {
        if bytes.len() < SHORTEST || bytes.len() > LONGEST {
            return Err(refusal::IMAGE_SIZE);
        }
        let image = Image { bytes, count: number_at(bytes, 0) };
        if image.count > PROGRAMS || bytes[RULE] > LAST_RULE || bytes[ZERO] != 0 {
            return Err(refusal::HEADER);
        }
        if bytes.len() < first_offset(image.count) || !image.offsets_are_good() {
            return Err(refusal::OFFSETS);
        }
        Ok(image)
    }

    /// Check 8.
    pub fn check_number(&self, number: usize) -> Result<(), Refusal> {
        if number < self.count {
            Ok(())
        } else {
            Err(refusal::NUMBER)
        }
    }

    /// The program count n.
    pub fn count(&self) -> usize {
        self.count
    }

    /// The rule byte, as it stands in the image.
    pub fn rule_byte(&self) -> u8 {
        self.bytes[RULE]
    }

    /// The rule in force: byte 0 means Rule 1.
    pub fn rule(&self) -> u8 {
        match self.rule_byte() {
            0 => 1,
            rule => rule,
        }
    }

    /// "Program i is the bytes from offset i up to, not including, offset i+1."
    pub fn program(&self, number: usize) -> &'a [u8] {
        &self.bytes[self.offset(number)..self.offset(number + 1)]
    }

    /// All programs, by number.
    pub fn programs(&self) -> impl Iterator<Item = &'a [u8]> + '_ {
        (0..self.count).map(|number| self.program(number))
    }

    fn offset(&self, place: usize) -> usize {
        number_at(self.bytes, OFFSETS + 2 * place)
    }

    /// "The first offset is 2n+6, offsets never fall, each length is a multiple of 4 and at most
    /// 128, the last offset is the image's length."
    fn offsets_are_good(&self) -> bool {
        let mut start = self.offset(0);
        if start != first_offset(self.count) {
            return false;
        }
        for number in 0..self.count {
            let end = self.offset(number + 1);
            if end < start {
                return false;
            }
            let length = end - start;
            if length % INSTRUCTION_BYTES != 0 || length > PROGRAM_BYTES {
                return false;
            }
            start = end;
        }
        start == self.bytes.len()
    }
}

/// "All numbers are 16 bits, low byte first."
fn number_at(bytes: &[u8], place: usize) -> usize {
    usize::from(u16::from_le_bytes([bytes[place], bytes[place + 1]]))
}

/// Where the first program of an image of this many programs begins: 2n+6.
pub const fn first_offset(count: usize) -> usize {
    OFFSETS + 2 * (count + 1)
}

/// Writes the image of these programs, for which the output has just the room: count, rule byte, 0,
/// the offsets, the programs.
pub fn write<'a>(out: &mut [u8], count: usize, rule_byte: u8, programs: impl Iterator<Item = &'a [u8]>) {
    let mut offset = first_offset(count);
    out[..2].copy_from_slice(&number(count));
    out[RULE] = rule_byte;
    out[ZERO] = 0;
    out[OFFSETS..OFFSETS + 2].copy_from_slice(&number(offset));
    for (place, program) in programs.enumerate() {
        let end = offset + program.len();
        out[offset..end].copy_from_slice(program);
        out[OFFSETS + 2 * (place + 1)..][..2].copy_from_slice(&number(end));
        offset = end;
    }
}

/// "All numbers are 16 bits, low byte first."
fn number(value: usize) -> [u8; 2] {
    (value as u16).to_le_bytes()
}

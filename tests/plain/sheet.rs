//! A sheet that can be typed: the image of a sheet, and the sheet of an image.
//! Document 02, request 1; the checks of a sheet go 51, 2, 3, 42 to 44, 10, those of an image 1 to 3,
//! 41 to 44, 10.

use crate::bad::BadInstruction;
use crate::image::{self, first_offset, Image};
use crate::image::{INSTRUCTIONS, INSTRUCTION_BYTES, LAST_RULE, PROGRAMS, PROGRAM_BYTES};
use crate::machine::NAMES;
use crate::refusal::{self, Refusal, DONE};

/// The words of a sheet that are no instruction's name.
const RULE: &[u8] = b"rule";
const PROGRAM: &[u8] = b"program";

/// The bytes of the longest sheet that a good image has: "rule 2", then for each program "program" and
/// its lines of "skipequal 7 7 c", each with its newline. There c has two digits where at least ten
/// instructions follow, which is so for all but the last ten.
pub const LONGEST: usize = 7 + PROGRAMS * (8 + 16 * INSTRUCTIONS + (INSTRUCTIONS - 10));

/// What both calls return: the length of what was written; or a refusal, and for 51 the line.
#[derive(Clone, Copy, Debug, PartialEq, Eq)]
pub struct Text {
    pub refusal: Refusal,
    pub length: u32,
    /// The number, from 1, of the line that its place does not allow; 0 for everything but 51.
    pub line: u32,
}

impl Text {
    fn written(length: usize) -> Text {
        Text { refusal: DONE, length: length as u32, line: 0 }
    }

    fn refused(refusal: Refusal) -> Text {
        Text { refusal, length: 0, line: 0 }
    }

    fn not_allowed(line: usize) -> Text {
        Text { refusal: refusal::LINE, length: 0, line: u32::try_from(line).unwrap_or(u32::MAX) }
    }
}

/// Reads a sheet and writes its image. The output beyond the image is untouched.
pub fn image_of(sheet: &[u8], out: &mut [u8]) -> Text {
    match Sheet::read(sheet) {
        Ok(sheet) => sheet.write_image(out).map_or_else(Text::refused, Text::written),
        Err(line) => Text::not_allowed(line),
    }
}

/// Reads an image and writes its sheet. The output beyond the sheet is untouched.
pub fn sheet_of(image: &[u8], out: &mut [u8]) -> Text {
    write_sheet(image, out).map_or_else(Text::refused, Text::written)
}

/// What a sheet says whose lines are all allowed: as much of it as an image can hold.
pub struct Sheet {
    rule: u8,
    /// How many programs it has, also where they are too many.
    count: usize,
    /// The most instructions that any of its programs has, also where they are too many.
    most: usize,
    /// The first 64 programs, of each the first 32 instructions, and how many bytes those are.
    code: [[u8; PROGRAM_BYTES]; PROGRAMS],
    lengths: [usize; PROGRAMS],
}

impl Sheet {
    /// Check 51: what the sheet says, or the number, from 1, of "the first line that its place does
    /// not allow (a missing first line, an unended last one)".
    pub fn read(sheet: &[u8]) -> Result<Sheet, usize> {
        let mut lines = sheet.split_inclusive(|&byte| byte == b'\n');
        let rule = lines.next().and_then(rule_line).ok_or(1usize)?;
        let mut sheet =
            Sheet { rule, count: 0, most: 0, code: [[0; PROGRAM_BYTES]; PROGRAMS], lengths: [0; PROGRAMS] };
        let mut instructions = 0;
        for (line, number) in lines.zip(2usize..) {
            if ended(line) == Some(PROGRAM) {
                sheet.count += 1;
                instructions = 0;
            } else {
                let instruction = instruction_line(line).filter(|_| sheet.count > 0).ok_or(number)?;
                sheet.take(instruction, instructions);
                instructions += 1;
                sheet.most = sheet.most.max(instructions);
            }
        }
        Ok(sheet)
    }

    /// Takes the instruction at this place of the last program, if there is room for it.
    fn take(&mut self, instruction: [u8; INSTRUCTION_BYTES], place: usize) {
        if self.count <= PROGRAMS && place < INSTRUCTIONS {
            let last = self.count - 1;
            self.code[last][INSTRUCTION_BYTES * place..][..INSTRUCTION_BYTES].copy_from_slice(&instruction);
            self.lengths[last] = INSTRUCTION_BYTES * (place + 1);
        }
    }

    /// Checks 2 and 3: "2 over 64 programs; 3 a program over 32 instructions".
    pub fn check_sizes(&self) -> Result<(), Refusal> {
        if self.count > PROGRAMS {
            Err(refusal::HEADER)
        } else if self.most > INSTRUCTIONS {
            Err(refusal::OFFSETS)
        } else {
            Ok(())
        }
    }

    /// Checks 2 and 3, 42 to 44, and 10; then writes the image, and returns its length.
    fn write_image(&self, out: &mut [u8]) -> Result<usize, Refusal> {
        self.check_sizes()?;
        if let Some(bad) = BadInstruction::first(self.programs()) {
            return Err(bad.refusal());
        }
        let length = first_offset(self.count) + self.programs().map(<[u8]>::len).sum::<usize>();
        let out = out.get_mut(..length).ok_or(refusal::TOO_SHORT)?;
        image::write(out, self.count, self.rule, self.programs());
        Ok(length)
    }

    /// The programs, as an image has them, of a sheet that has not too many.
    pub fn programs(&self) -> impl Iterator<Item = &[u8]> {
        self.code[..self.count].iter().zip(self.lengths).map(|(code, length)| &code[..length])
    }
}

/// "A newline after every line": the line without it, if it has one.
fn ended(line: &[u8]) -> Option<&[u8]> {
    line.strip_suffix(b"\n")
}

/// "rule R": R, which "is 0, 1 or 2".
fn rule_line(line: &[u8]) -> Option<u8> {
    let mut words = words(ended(line)?);
    let is_rule = words.next()? == RULE;
    let rule = byte(words.next()?)?;
    (is_rule && rule <= LAST_RULE && words.next().is_none()).then_some(rule)
}

/// "A line per instruction with its name and its three bytes in decimal": operation, a, b, c.
fn instruction_line(line: &[u8]) -> Option<[u8; INSTRUCTION_BYTES]> {
    let mut words = words(ended(line)?);
    let name = words.next()?;
    let operation = NAMES.iter().position(|known| known.as_bytes() == name)?;
    let instruction = [operation as u8, byte(words.next()?)?, byte(words.next()?)?, byte(words.next()?)?];
    words.next().is_none().then_some(instruction)
}

/// "Single spaces": the words between them. Where two stand side by side, or one at an end of the line,
/// a word is empty.
fn words(line: &[u8]) -> impl Iterator<Item = &[u8]> {
    line.split(|&byte| byte == b' ')
}

/// "In decimal", "no leading zeros": a byte, 0 to 255.
fn byte(digits: &[u8]) -> Option<u8> {
    match digits {
        [] | [b'0', _, ..] => None,
        _ => digits.iter().try_fold(0u8, |byte, digit| {
            let value = digit.is_ascii_digit().then(|| digit - b'0')?;
            byte.checked_mul(10)?.checked_add(value)
        }),
    }
}

/// The image's checks and 10; then writes the sheet, and returns its length.
fn write_sheet(image: &[u8], out: &mut [u8]) -> Result<usize, Refusal> {
    let image = Image::check(image)?;
    let mut length = 0;
    say(image.rule_byte(), image.programs(), |text| length += text.len());
    let mut left = out.get_mut(..length).ok_or(refusal::TOO_SHORT)?;
    say(image.rule_byte(), image.programs(), |text| {
        let (place, rest) = std::mem::take(&mut left).split_at_mut(text.len());
        place.copy_from_slice(text);
        left = rest;
    });
    Ok(length)
}

/// Says the sheet of these programs under a rule byte, piece by piece. Every operation has a name.
pub fn say<'a>(rule: u8, programs: impl Iterator<Item = &'a [u8]>, mut put: impl FnMut(&[u8])) {
    put(RULE);
    say_byte(rule, &mut put);
    put(b"\n");
    for program in programs {
        put(PROGRAM);
        put(b"\n");
        for instruction in program.chunks_exact(INSTRUCTION_BYTES) {
            put(NAMES[usize::from(instruction[0])].as_bytes());
            for &byte in &instruction[1..] {
                say_byte(byte, &mut put);
            }
            put(b"\n");
        }
    }
}

/// A space, and a byte in decimal.
fn say_byte(byte: u8, put: &mut impl FnMut(&[u8])) {
    put(b" ");
    let digits = [byte / 100, byte / 10 % 10, byte % 10].map(|digit| b'0' + digit);
    let zeros = usize::from(byte < 100) + usize::from(byte < 10);
    put(&digits[zeros..]);
}

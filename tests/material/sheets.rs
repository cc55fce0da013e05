//! Sheets at a limit: the longest that a good image has, and long ones that are refused at their end.
//! Document 02, request 1.

use crate::assembler::{self, skipequal, R7};
use crate::case::Program;
use plain::image::{INSTRUCTIONS, PROGRAMS};

/// The longest sheet: no line of a good instruction is longer than that of a skip to the program's end.
pub fn longest() -> Vec<u8> {
    assembler::sheet(2, &longest_programs())
}

/// Its image.
pub fn longest_image() -> Vec<u8> {
    assembler::image(2, &longest_programs())
}

fn longest_programs() -> Vec<Program> {
    let program = (0..INSTRUCTIONS).rev().map(|left| skipequal(R7, R7, left as u8)).collect();
    vec![program; PROGRAMS]
}

/// So many bytes or a few more of lines that are all allowed, and behind them one that is not: it is
/// refused 51, and nobody knows before its last line.
pub fn last_line_bad(bytes: usize) -> Vec<u8> {
    let mut sheet = longest();
    let (_, program) = sheet.split_at(b"rule 2\n".len());
    let program = program[..program.len() / PROGRAMS].to_vec();
    while sheet.len() < bytes {
        sheet.extend(&program);
    }
    sheet.extend(b"skipequal 7 7 256\n");
    sheet
}

/// A good sheet, and behind it one line of so many bytes that never ends: it is refused 51.
pub fn endless_line(bytes: usize) -> Vec<u8> {
    let mut sheet = longest();
    sheet.extend(b"set 0 0 ");
    sheet.resize(sheet.len() + bytes, b'1');
    sheet
}

//! The independent implementation under the names of include/sheetbendle.h, so that the driver can
//! link it in the archive's place. The driver keeps the header's rules; it never lends a null pointer
//! here.

use plain::{Cause, Count, Refusal, Step, Text};
use std::slice::{from_raw_parts, from_raw_parts_mut};

#[repr(C)]
pub struct CRefusal(u32, u32, u32);

#[repr(C)]
pub struct CStep(CRefusal, u32, u32);

#[repr(C)]
pub struct CCause(CRefusal, u32, u32, u32, u32, u32);

#[repr(C)]
pub struct CCount(CRefusal, u32);

#[repr(C)]
pub struct CText(CRefusal, u32, u32);

#[repr(C)]
pub struct CPart(usize, usize);

#[no_mangle]
pub unsafe extern "C" fn sheetbendle_program(image: *const u8, image_bytes: usize, number: usize) -> CPart {
    let image = from_raw_parts(image, image_bytes);
    let part = plain::program(image, number);
    CPart(part.as_ptr() as usize - image.as_ptr() as usize, part.len())
}

#[no_mangle]
pub unsafe extern "C" fn sheetbendle_program_refusal(
    image: *const u8,
    image_bytes: usize,
    number: usize,
) -> CRefusal {
    refusal(plain::program_refusal(from_raw_parts(image, image_bytes), number))
}

#[no_mangle]
pub unsafe extern "C" fn sheetbendle_open(
    image: *const u8,
    image_bytes: usize,
    table: *const u32,
    cells: usize,
    guards: *const u32,
    guard_words: usize,
    area: *mut u32,
    words: usize,
) -> CRefusal {
    let (image, table) = (from_raw_parts(image, image_bytes), from_raw_parts(table, cells));
    let guards = from_raw_parts(guards, guard_words);
    refusal(plain::open(image, table, guards, from_raw_parts_mut(area, words)))
}

#[no_mangle]
pub unsafe extern "C" fn sheetbendle_gather(
    image: *const u8,
    image_bytes: usize,
    table: *const u32,
    cells: usize,
    guards: *const u32,
    guard_words: usize,
    area: *mut u32,
    words: usize,
    number: usize,
) -> CStep {
    let (image, table) = (from_raw_parts(image, image_bytes), from_raw_parts(table, cells));
    let guards = from_raw_parts(guards, guard_words);
    step(plain::gather(image, table, guards, from_raw_parts_mut(area, words), number))
}

#[no_mangle]
pub unsafe extern "C" fn sheetbendle_settle(
    image: *const u8,
    image_bytes: usize,
    table: *mut u32,
    cells: usize,
    guards: *const u32,
    guard_words: usize,
    area: *mut u32,
    words: usize,
    number: usize,
) -> CStep {
    let (image, table) = (from_raw_parts(image, image_bytes), from_raw_parts_mut(table, cells));
    let guards = from_raw_parts(guards, guard_words);
    step(plain::settle(image, table, guards, from_raw_parts_mut(area, words), number))
}

#[no_mangle]
pub unsafe extern "C" fn sheetbendle_why(
    image: *const u8,
    image_bytes: usize,
    table: *const u32,
    cells: usize,
    guards: *const u32,
    guard_words: usize,
    area: *const u32,
    words: usize,
    number: usize,
) -> CCause {
    let (image, table) = (from_raw_parts(image, image_bytes), from_raw_parts(table, cells));
    let guards = from_raw_parts(guards, guard_words);
    cause(plain::why(image, table, guards, from_raw_parts(area, words), number))
}

#[no_mangle]
pub unsafe extern "C" fn sheetbendle_order(
    image: *const u8,
    image_bytes: usize,
    table: *const u32,
    cells: usize,
    guards: *const u32,
    guard_words: usize,
    area: *const u32,
    words: usize,
    list: *mut u32,
    entries: usize,
) -> CCount {
    let (image, table) = (from_raw_parts(image, image_bytes), from_raw_parts(table, cells));
    let guards = from_raw_parts(guards, guard_words);
    count(plain::order(image, table, guards, from_raw_parts(area, words), from_raw_parts_mut(list, entries)))
}

#[no_mangle]
pub unsafe extern "C" fn sheetbendle_next_image(
    image: *const u8,
    image_bytes: usize,
    table: *const u32,
    cells: usize,
    guards: *const u32,
    guard_words: usize,
    area: *const u32,
    words: usize,
    fresh: *const u8,
    fresh_bytes: usize,
    out: *mut u8,
    out_bytes: usize,
) -> CCount {
    let (image, table) = (from_raw_parts(image, image_bytes), from_raw_parts(table, cells));
    let guards = from_raw_parts(guards, guard_words);
    let (area, fresh) = (from_raw_parts(area, words), from_raw_parts(fresh, fresh_bytes));
    count(plain::next_image(image, table, guards, area, fresh, from_raw_parts_mut(out, out_bytes)))
}

#[no_mangle]
pub unsafe extern "C" fn sheetbendle_image_of(
    sheet: *const u8,
    sheet_bytes: usize,
    out: *mut u8,
    out_bytes: usize,
) -> CText {
    text(plain::image_of(from_raw_parts(sheet, sheet_bytes), from_raw_parts_mut(out, out_bytes)))
}

#[no_mangle]
pub unsafe extern "C" fn sheetbendle_sheet_of(
    image: *const u8,
    image_bytes: usize,
    out: *mut u8,
    out_bytes: usize,
) -> CText {
    text(plain::sheet_of(from_raw_parts(image, image_bytes), from_raw_parts_mut(out, out_bytes)))
}

fn refusal(Refusal { number, program, instruction }: Refusal) -> CRefusal {
    CRefusal(number, program, instruction)
}

fn step(step: Step) -> CStep {
    CStep(refusal(step.refusal), step.state, step.detail)
}

fn cause(cause: Cause) -> CCause {
    let Cause { reason, cell, program, war_cell, war_program, .. } = cause;
    CCause(refusal(cause.refusal), reason, cell, program, war_cell, war_program)
}

fn text(text: Text) -> CText {
    CText(refusal(text.refusal), text.length, text.line)
}

fn count(count: Count) -> CCount {
    CCount(refusal(count.refusal), count.count)
}

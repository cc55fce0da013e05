//! The archive linked into this process: the declarations of include/sheetbendle.h that are timed,
//! each behind a safe function that takes slices.

use crate::Calls;
use plain::{Cause, Count, Refusal, Step, Text};

pub struct Archive;

#[repr(C)]
struct CRefusal {
    number: u32,
    program: u32,
    instruction: u32,
}

#[repr(C)]
struct CStep {
    refusal: CRefusal,
    state: u32,
    detail: u32,
}

#[repr(C)]
struct CCause {
    refusal: CRefusal,
    reason: u32,
    cell: u32,
    program: u32,
    war_cell: u32,
    war_program: u32,
}

#[repr(C)]
struct CCount {
    refusal: CRefusal,
    count: u32,
}

#[repr(C)]
struct CText {
    refusal: CRefusal,
    length: u32,
    line: u32,
}

extern "C" {
    fn sheetbendle_open(
        image: *const u8,
        image_bytes: usize,
        table: *const u32,
        cells: usize,
        guards: *const u32,
        guard_words: usize,
        area: *mut u32,
        words: usize,
    ) -> CRefusal;
    fn sheetbendle_gather(
        image: *const u8,
        image_bytes: usize,
        table: *const u32,
        cells: usize,
        guards: *const u32,
        guard_words: usize,
        area: *mut u32,
        words: usize,
        number: usize,
    ) -> CStep;
    fn sheetbendle_settle(
        image: *const u8,
        image_bytes: usize,
        table: *mut u32,
        cells: usize,
        guards: *const u32,
        guard_words: usize,
        area: *mut u32,
        words: usize,
        number: usize,
    ) -> CStep;
    fn sheetbendle_why(
        image: *const u8,
        image_bytes: usize,
        table: *const u32,
        cells: usize,
        guards: *const u32,
        guard_words: usize,
        area: *const u32,
        words: usize,
        number: usize,
    ) -> CCause;
    fn sheetbendle_order(
        image: *const u8,
        image_bytes: usize,
        table: *const u32,
        cells: usize,
        guards: *const u32,
        guard_words: usize,
        area: *const u32,
        words: usize,
        list: *mut u32,
        entries: usize,
    ) -> CCount;
    fn sheetbendle_next_image(
        image: *const u8,
        image_bytes: usize,
        table: *const u32,
        cells: usize,
        guards: *const u32,
        guard_words: usize,
        area: *const u32,
        words: usize,
        fresh: *const u8,
        fresh_bytes: usize,
        out: *mut u8,
        out_bytes: usize,
    ) -> CCount;
    fn sheetbendle_image_of(sheet: *const u8, sheet_bytes: usize, out: *mut u8, out_bytes: usize) -> CText;
    fn sheetbendle_sheet_of(image: *const u8, image_bytes: usize, out: *mut u8, out_bytes: usize) -> CText;
}

// Each call below passes pointers and lengths of live slices, which do not overlap: that is all
// that the header asks.
impl Calls for Archive {
    #[inline]
    fn open(&self, image: &[u8], table: &[u32], guards: &[u32], area: &mut [u32]) -> Refusal {
        let ((image, image_bytes), (table, cells), (guards, guard_words)) =
            (lent(image), lent(table), lent(guards));
        let (area, words) = lent_mut(area);
        refusal(unsafe {
            sheetbendle_open(image, image_bytes, table, cells, guards, guard_words, area, words)
        })
    }

    #[inline]
    fn gather(&self, image: &[u8], table: &[u32], guards: &[u32], area: &mut [u32], number: usize) -> Step {
        let ((image, image_bytes), (table, cells), (guards, guard_words)) =
            (lent(image), lent(table), lent(guards));
        let (area, words) = lent_mut(area);
        step(unsafe {
            sheetbendle_gather(image, image_bytes, table, cells, guards, guard_words, area, words, number)
        })
    }

    #[inline]
    fn settle(
        &self,
        image: &[u8],
        table: &mut [u32],
        guards: &[u32],
        area: &mut [u32],
        number: usize,
    ) -> Step {
        let ((image, image_bytes), (guards, guard_words)) = (lent(image), lent(guards));
        let ((table, cells), (area, words)) = (lent_mut(table), lent_mut(area));
        step(unsafe {
            sheetbendle_settle(image, image_bytes, table, cells, guards, guard_words, area, words, number)
        })
    }

    #[inline]
    fn why(&self, image: &[u8], table: &[u32], guards: &[u32], area: &[u32], number: usize) -> Cause {
        let ((image, image_bytes), (table, cells), (guards, guard_words)) =
            (lent(image), lent(table), lent(guards));
        let (area, words) = lent(area);
        cause(unsafe {
            sheetbendle_why(image, image_bytes, table, cells, guards, guard_words, area, words, number)
        })
    }

    #[inline]
    fn order(&self, image: &[u8], table: &[u32], guards: &[u32], area: &[u32], list: &mut [u32]) -> Count {
        let ((image, image_bytes), (table, cells), (guards, guard_words)) =
            (lent(image), lent(table), lent(guards));
        let ((area, words), (list, entries)) = (lent(area), lent_mut(list));
        count(unsafe {
            sheetbendle_order(
                image,
                image_bytes,
                table,
                cells,
                guards,
                guard_words,
                area,
                words,
                list,
                entries,
            )
        })
    }

    #[inline]
    fn next_image(
        &self,
        image: &[u8],
        table: &[u32],
        guards: &[u32],
        area: &[u32],
        fresh: &[u8],
        out: &mut [u8],
    ) -> Count {
        let ((image, image_bytes), (table, cells), (guards, guard_words)) =
            (lent(image), lent(table), lent(guards));
        let ((area, words), (fresh, fresh_bytes), (out, out_bytes)) =
            (lent(area), lent(fresh), lent_mut(out));
        count(unsafe {
            sheetbendle_next_image(
                image,
                image_bytes,
                table,
                cells,
                guards,
                guard_words,
                area,
                words,
                fresh,
                fresh_bytes,
                out,
                out_bytes,
            )
        })
    }

    #[inline]
    fn image_of(&self, sheet: &[u8], out: &mut [u8]) -> Text {
        let ((sheet, sheet_bytes), (out, out_bytes)) = (lent(sheet), lent_mut(out));
        text(unsafe { sheetbendle_image_of(sheet, sheet_bytes, out, out_bytes) })
    }

    #[inline]
    fn sheet_of(&self, image: &[u8], out: &mut [u8]) -> Text {
        let ((image, image_bytes), (out, out_bytes)) = (lent(image), lent_mut(out));
        text(unsafe { sheetbendle_sheet_of(image, image_bytes, out, out_bytes) })
    }
}

/// A slice as the calls take it: pointer and length.
fn lent<T>(slice: &[T]) -> (*const T, usize) {
    (slice.as_ptr(), slice.len())
}

/// The same for one that a call may change.
fn lent_mut<T>(slice: &mut [T]) -> (*mut T, usize) {
    (slice.as_mut_ptr(), slice.len())
}

fn refusal(CRefusal { number, program, instruction }: CRefusal) -> Refusal {
    Refusal { number, program, instruction }
}

fn step(step: CStep) -> Step {
    Step { refusal: refusal(step.refusal), state: step.state, detail: step.detail }
}

fn cause(cause: CCause) -> Cause {
    let CCause { reason, cell, program, war_cell, war_program, .. } = cause;
    Cause { refusal: refusal(cause.refusal), reason, cell, program, war_cell, war_program }
}

fn text(text: CText) -> Text {
    Text { refusal: refusal(text.refusal), length: text.length, line: text.line }
}

fn count(count: CCount) -> Count {
    Count { refusal: refusal(count.refusal), count: count.count }
}

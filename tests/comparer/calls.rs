//! The ten calls, made on the independent implementation or on the archive.

use crate::lent::Lent;
use archive::Archive;
use plain::{Cause, Count, Refusal, Step, Text};
use std::ops::Range;

#[derive(Clone, Copy, Debug)]
pub enum Call {
    Program(usize),
    ProgramRefusal(usize),
    Open,
    Gather(usize),
    Settle(usize),
    Why(usize),
    Order,
    NextImage,
    ImageOf,
    SheetOf,
}

#[derive(Clone, Debug, PartialEq)]
pub enum Answer {
    Part(Range<usize>),
    Refusal(Refusal),
    Step(Step),
    Cause(Cause),
    Count(Count),
    Text(Text),
}

/// Makes a call on the independent implementation.
pub fn on_plain(call: Call, lent: &mut Lent) -> Answer {
    let Lent { image, table, guards, area, list, fresh, sheet, out } = lent;
    let (image, guards) = (image.lent(), guards.lent());
    match call {
        Call::Program(number) => Answer::Part(part_of(image, plain::program(image, number))),
        Call::ProgramRefusal(number) => Answer::Refusal(plain::program_refusal(image, number)),
        Call::Open => Answer::Refusal(plain::open(image, table.lent(), guards, area.lent_mut())),
        Call::Gather(number) => {
            Answer::Step(plain::gather(image, table.lent(), guards, area.lent_mut(), number))
        }
        Call::Settle(number) => {
            Answer::Step(plain::settle(image, table.lent_mut(), guards, area.lent_mut(), number))
        }
        Call::Why(number) => Answer::Cause(plain::why(image, table.lent(), guards, area.lent(), number)),
        Call::Order => Answer::Count(plain::order(image, table.lent(), guards, area.lent(), list.lent_mut())),
        Call::NextImage => Answer::Count(plain::next_image(
            image,
            table.lent(),
            guards,
            area.lent(),
            fresh.lent(),
            out.lent_mut(),
        )),
        Call::ImageOf => Answer::Text(plain::image_of(sheet.lent(), out.lent_mut())),
        Call::SheetOf => Answer::Text(plain::sheet_of(image, out.lent_mut())),
    }
}

/// Makes a call on the archive.
pub fn on_archive(archive: &mut Archive, call: Call, lent: &mut Lent) -> Answer {
    let Lent { image, table, guards, area, list, fresh, sheet, out } = lent;
    match call {
        Call::Program(number) => Answer::Part(archive.program(image, number)),
        Call::ProgramRefusal(number) => Answer::Refusal(archive.program_refusal(image, number)),
        Call::Open => Answer::Refusal(archive.open(image, table, guards, area)),
        Call::Gather(number) => Answer::Step(archive.gather(image, table, guards, area, number)),
        Call::Settle(number) => Answer::Step(archive.settle(image, table, guards, area, number)),
        Call::Why(number) => Answer::Cause(archive.why(image, table, guards, area, number)),
        Call::Order => Answer::Count(archive.order(image, table, guards, area, list)),
        Call::NextImage => Answer::Count(archive.next_image(image, table, guards, area, fresh, out)),
        Call::ImageOf => Answer::Text(archive.image_of(sheet, out)),
        Call::SheetOf => Answer::Text(archive.sheet_of(image, out)),
    }
}

/// Where a part of an image lies in it.
fn part_of(image: &[u8], part: &[u8]) -> Range<usize> {
    let start = part.as_ptr() as usize - image.as_ptr() as usize;
    start..start + part.len()
}

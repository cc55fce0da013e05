//! Every call on a bad instruction, made through the archive's driver, which measures the stack. What is
//! wrong with an instruction is found out below the other checks: that takes most calls deeper than
//! anything they do where nothing is wrong.

use archive::{bytes, words, Archive, Measure};
use material::assembler::{image, sheet};
use material::bad::{following, good_programs, instructions, places, replaced, TYPED_WAYS, WAYS};
use material::case::Program;
use plain::area;
use plain::guards::full_range;
use plain::image::LONGEST;
use plain::Refusal;

/// T.
const CELLS: usize = 1;

/// Makes the calls on all bad instructions, in each way and at every kind of place, and notes the name and
/// the stack of each call.
pub fn run(archive: &mut Archive, mut note: impl FnMut(&'static str, u64)) {
    archive.measure = Measure::Stack;
    let good = good_programs();
    for place in places(&good) {
        for way in WAYS {
            for instruction in instructions(way, following(&good, place)) {
                let bad = replaced(&good, place, instruction);
                let refusal = way.at(place.0, place.1);
                lend_image(archive, &bad, refusal, &mut note);
                if TYPED_WAYS.contains(&way) {
                    lend_sheet(archive, &bad, refusal, &mut note);
                }
            }
        }
    }
}

/// Every call that is lent an image; the next image once more, with the bad one as the fresh image.
fn lend_image(
    archive: &mut Archive,
    programs: &[Program],
    refusal: Refusal,
    note: &mut impl FnMut(&'static str, u64),
) {
    let (bad, empty) = (&mut bytes(&image(2, programs)), &mut bytes(&image(2, &[])));
    let (table, area) = (&mut words(&[0; CELLS]), &mut words(&vec![0; area::words(CELLS, 0)]));
    let (guards, list) = (&mut words(&full_range(CELLS)), &mut words(&[]));
    let out = &mut bytes(&[0; LONGEST]);

    assert_eq!(archive.program(bad, 0), 0..0, "program hands nothing back");
    note("program", archive.measured.unwrap_or(0));
    let mut refused = |call: &'static str, answer: Refusal, refusal: Refusal, measured: Option<u64>| {
        assert_eq!(answer, refusal, "{call} refuses a bad instruction");
        note(call, measured.unwrap_or(0));
    };
    let answer = archive.program_refusal(bad, 0);
    refused("program_refusal", answer, refusal, archive.measured);
    let answer = archive.open(bad, table, guards, area);
    refused("open", answer, refusal, archive.measured);
    let answer = archive.gather(bad, table, guards, area, 0).refusal;
    refused("gather", answer, refusal, archive.measured);
    let answer = archive.settle(bad, table, guards, area, 0).refusal;
    refused("settle", answer, refusal, archive.measured);
    let answer = archive.why(bad, table, guards, area, 0).refusal;
    refused("why", answer, refusal, archive.measured);
    let answer = archive.order(bad, table, guards, area, list).refusal;
    refused("order", answer, refusal, archive.measured);
    let answer = archive.next_image(bad, table, guards, area, empty, out).refusal;
    refused("next_image", answer, refusal, archive.measured);
    let answer = archive.next_image(empty, table, guards, area, bad, out).refusal;
    refused("next_image", answer, refusal.of_fresh(), archive.measured);
    let answer = archive.sheet_of(bad, out).refusal;
    refused("sheet_of", answer, refusal, archive.measured);
}

/// The bad instruction in a sheet.
fn lend_sheet(
    archive: &mut Archive,
    programs: &[Program],
    refusal: Refusal,
    note: &mut impl FnMut(&'static str, u64),
) {
    let (sheet, out) = (&mut bytes(&sheet(2, programs)), &mut bytes(&[0; LONGEST]));
    assert_eq!(archive.image_of(sheet, out).refusal, refusal, "image_of refuses a bad instruction");
    note("image_of", archive.measured.unwrap_or(0));
}

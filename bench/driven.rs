//! A scenario's calls, made through the archive's driver, which measures them.

use crate::scenarios::{carried_programs, gathered_programs, Scenario, Sheet, Start};
use crate::scenarios::{GATHER, IMAGE_OF, NEXT_IMAGE, OPEN, ORDER, SETTLE, SHEET_OF, WHY};
use archive::{bytes, words, Archive, Measure};
use plain::image::{LONGEST, PROGRAMS};
use plain::refusal::{DONE, STATE};
use plain::{sheet, Refusal};

/// The place in `CALLS` of a gathering's run alone. A program that is gathered again is refused 9 after all
/// checks; what the gathering took beyond that is its run.
const RUN: usize = GATHER + 1;

/// Makes the calls, and notes the place in `CALLS` and the measure of each. Of the calls that are
/// made once for each program, or for each carried one, only one in so many is measured.
pub fn run(
    archive: &mut Archive,
    scenario: &Scenario,
    measure: Measure,
    one_in: usize,
    mut note: impl FnMut(usize, u64),
) {
    let (image, table) = (&mut bytes(&scenario.image), &mut words(&scenario.table));
    let guards = &mut words(&scenario.guards);
    let (fresh, out) = (&mut bytes(&scenario.fresh), &mut bytes(&[0; LONGEST]));
    let (area, list) = (&mut words(&scenario.first_area()), &mut words(&[0; PROGRAMS]));
    let mut noted = |call: usize, measured: Option<u64>| {
        if let Some(measured) = measured {
            note(call, measured);
        }
    };
    let chosen = |place: usize| if place % one_in == 0 { measure } else { Measure::Nothing };

    archive.measure = measure;
    if let Start::Opening = scenario.start {
        done(archive.open(image, table, guards, area));
        noted(OPEN, archive.measured);
        for number in 0..scenario.programs {
            archive.measure = chosen(number);
            done(archive.gather(image, table, guards, area, number).refusal);
            let gathering = archive.measured;
            noted(GATHER, gathering);
            if let (Measure::Instructions, Some(gathering)) = (archive.measure, gathering) {
                let again = archive.gather(image, table, guards, area, number);
                assert_eq!(again.refusal, STATE, "a program is gathered once");
                noted(RUN, archive.measured.map(|checks| gathering - checks));
            }
        }
        for (place, number) in gathered_programs(area.lent(), table.lent().len()).into_iter().enumerate() {
            archive.measure = chosen(place);
            done(archive.settle(image, table, guards, area, number).refusal);
            noted(SETTLE, archive.measured);
        }
        for (place, number) in carried_programs(area.lent(), table.lent().len()).into_iter().enumerate() {
            archive.measure = chosen(place);
            done(archive.why(image, table, guards, area, number).refusal);
            noted(WHY, archive.measured);
        }
    }
    archive.measure = measure;
    done(archive.order(image, table, guards, area, list).refusal);
    noted(ORDER, archive.measured);
    done(archive.next_image(image, table, guards, area, fresh, out).refusal);
    noted(NEXT_IMAGE, archive.measured);
}

fn done(refusal: Refusal) {
    assert_eq!(refusal, DONE, "no call of a scenario is refused");
}

/// Reads a sheet and writes that of its image, and notes the place in `CALLS` and the measure of each.
pub fn run_sheet(
    archive: &mut Archive,
    scenario: &Sheet,
    measure: Measure,
    mut note: impl FnMut(usize, u64),
) {
    let (sheet, out) = (&mut bytes(&scenario.sheet), &mut bytes(&[0; sheet::LONGEST]));
    archive.measure = measure;
    assert_eq!(archive.image_of(sheet, out).refusal, scenario.refusal, "{}", scenario.name);
    note(IMAGE_OF, archive.measured.unwrap_or(0));
    if let Some(image) = &scenario.image {
        assert_eq!(archive.sheet_of(&mut bytes(image), out).refusal, DONE, "{}", scenario.name);
        note(SHEET_OF, archive.measured.unwrap_or(0));
    }
}

//! Bad instructions through every call that is lent an image: bad in each way, at the first, a middle and
//! the last instruction of the first, a middle and the last program, in the image and in the fresh one. And
//! as a sheet, if it can be typed.

use crate::calls::Call;
use crate::lent::Lent;
use crate::pair::{Difference, Pair};
use crate::sheets::nothing_lent;
use archive::{bytes, words};
use material::assembler;
use material::bad::{self, following, places, replaced, Place, TYPED_WAYS, WAYS};
use material::case::Program;
use material::random::{self, Random, Shape};
use plain::area::{self, COMMITTED, STATE};
use plain::guards::full_range;
use plain::image::{INSTRUCTIONS, LONGEST, PROGRAMS};
use plain::Refusal;

const CELLS: usize = 4;

/// All places and all ways, in programs of one sequence's own.
pub fn play(random: &mut Random, pair: &mut Pair) -> Result<(), Difference> {
    let good = good_programs(random);
    for place in places(&good) {
        for way in WAYS {
            let bad = with_bad(random, &good, place, way);
            call_all(random, pair, &good, &bad)?;
            if TYPED_WAYS.contains(&way) {
                read_sheet(random, pair, &bad)?;
            }
        }
    }
    Ok(())
}

/// Good programs. The first, the middle one and the last have three instructions or more.
fn good_programs(random: &mut Random) -> Vec<Program> {
    let programs = random.pick(&[3, 4, 5, 8, PROGRAMS]);
    let shape = Shape { cells: CELLS, busy_cells: CELLS, programs, instructions: INSTRUCTIONS };
    let mut good = random::programs(random, shape);
    for program in [0, programs / 2, programs - 1] {
        let length = random.pick(&[3, 4, 8, INSTRUCTIONS]);
        good[program] = random::program_of_length(random, shape, length);
    }
    good
}

/// The same programs with a bad instruction at this place. One time in three another one that could be
/// typed stands somewhere behind it, and is not told.
fn with_bad(random: &mut Random, good: &[Program], place: Place, way: Refusal) -> Vec<Program> {
    let bad = put_bad(random, good, place, way);
    let later: Vec<Place> = places(good).into_iter().filter(|&later| later > place).collect();
    if later.is_empty() || random.percent(67) {
        return bad;
    }
    let (later, way) = (random.pick(&later), random.pick(&TYPED_WAYS));
    put_bad(random, &bad, later, way)
}

fn put_bad(random: &mut Random, programs: &[Program], place: Place, way: Refusal) -> Vec<Program> {
    let bad = bad::instructions(way, following(programs, place));
    replaced(programs, place, random.pick(&bad))
}

/// Every call that is lent an image, on the bad one; the next image also with a good one, and the bad one as
/// the fresh image.
fn call_all(
    random: &mut Random,
    pair: &mut Pair,
    good: &[Program],
    bad: &[Program],
) -> Result<(), Difference> {
    let number = random.below(good.len());
    let image = bytes(&assembler::image(random.below(3) as u8, bad));
    let fresh = bytes(&assembler::image(1, good));
    let settled = settled(&assembler::image(2, good), good.len());
    pair.lend(Lent { image: image.clone(), fresh, ..settled.clone() });
    let batch = [Call::Open, Call::Gather(number), Call::Settle(number), Call::Why(number), Call::Order];
    let others = [Call::Program(number), Call::ProgramRefusal(number), Call::NextImage, Call::SheetOf];
    for call in batch.into_iter().chain(others) {
        pair.call(call)?;
    }
    pair.lend(Lent { fresh: image, ..settled });
    pair.call(Call::NextImage)?;
    Ok(())
}

/// An image, and an area in which all of its programs are committed.
fn settled(image: &[u8], programs: usize) -> Lent {
    let mut area = vec![0; area::words(CELLS, programs)];
    for number in 0..programs {
        area[area::words(CELLS, number) + STATE] = COMMITTED;
    }
    Lent {
        image: bytes(image),
        table: words(&[0; CELLS]),
        guards: words(&full_range(CELLS)),
        area: words(&area),
        list: words(&[0; PROGRAMS]),
        out: bytes(&[0xEE; LONGEST]),
        ..nothing_lent()
    }
}

fn read_sheet(random: &mut Random, pair: &mut Pair, programs: &[Program]) -> Result<(), Difference> {
    let sheet = bytes(&assembler::sheet(random.below(3) as u8, programs));
    pair.lend(Lent { sheet, out: bytes(&[0xEE; LONGEST]), ..nothing_lent() });
    pair.call(Call::ImageOf)?;
    Ok(())
}

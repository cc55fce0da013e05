//! Random call sequences: batches played in any order with refused steps in between, one after the
//! other by the next image, on tables with guards; areas made up; damage to everything that is lent;
//! sheets; and bad instructions.

use crate::bad;
use crate::calls::{Answer, Call};
use crate::damage::damage;
use crate::lent::Lent;
use crate::made_up;
use crate::pair::{Difference, Pair};
use crate::sheets;
use crate::tally::Tally;
use archive::{bytes, words, Archive};
use material::random::Random;
use plain::area::{self, CARRIED, GATHERED, WAITING};
use plain::image::{Image, LONGEST, PROGRAMS};
use plain::refusal::DONE;

/// One sequence of calls, all of it decided by its seed.
pub fn run(seed: u64, archive: &mut Archive, tally: &mut Tally) -> Result<(), Difference> {
    let random = &mut Random::new(seed);
    archive.null_when_empty = random.percent(50);
    if random.percent(20) {
        return sheets::play(random, &mut Pair::new(sheets::nothing_lent(), archive, tally));
    }
    if random.percent(5) {
        return bad::play(random, &mut Pair::new(sheets::nothing_lent(), archive, tally));
    }
    let cells = made_up::cells(random);
    let programs = made_up::programs(random);
    let pair = &mut Pair::new(first_lent(random, cells, programs), archive, tally);
    if random.percent(60) {
        play_batches(random, pair)
    } else {
        play_made_up(random, pair)
    }
}

/// A good image, a table and its guards; an area of the right size that holds junk.
fn first_lent(random: &mut Random, cells: usize, programs: usize) -> Lent {
    let fresh_programs = random.below(5);
    let table = made_up::table(random, cells);
    Lent {
        image: bytes(&made_up::image(random, cells, programs)),
        guards: words(&made_up::guards(random, &table)),
        table: words(&table),
        area: words(&made_up::junk(random, area::words(cells, programs))),
        list: words(&made_up::junk(random, programs + 1)),
        fresh: bytes(&made_up::image(random, cells, fresh_programs)),
        sheet: bytes(&[]),
        out: bytes(&[0xEE; LONGEST]),
    }
}

/// One to four batches, each opened and played, the next made by the next image.
fn play_batches(random: &mut Random, pair: &mut Pair) -> Result<(), Difference> {
    for _ in 0..random.pick(&[1, 1, 2, 4]) {
        pair.call(Call::Open)?;
        play(random, pair)?;
        renew_fresh_and_out(random, pair);
        let Answer::Count(next) = pair.call(Call::NextImage)? else {
            unreachable!("the next image gives a length");
        };
        if next.refusal != DONE {
            return Ok(());
        }
        take_up_next_image(random, pair, next.count as usize);
    }
    Ok(())
}

/// The output becomes the image, with an area of its size over what the old one held.
fn take_up_next_image(random: &mut Random, pair: &mut Pair, length: usize) {
    let mut lent = pair.lent().clone();
    lent.image = bytes(&lent.out.lent()[..length]);
    let programs = usize::from(lent.image.lent()[0]);
    let mut area = lent.area.lent().to_vec();
    area.resize(area::words(lent.table.lent().len(), programs), random.word());
    lent.area = words(&area);
    lent.list = words(&made_up::junk(random, programs));
    pair.lend(lent);
}

/// Some calls on areas that no call made.
fn play_made_up(random: &mut Random, pair: &mut Pair) -> Result<(), Difference> {
    for _ in 0..random.between(1, 4) {
        let mut lent = pair.lent().clone();
        lent.area = words(&made_up::area(random, lent.table.lent().len(), programs(&lent)));
        pair.lend(lent);
        renew_fresh_and_out(random, pair);
        pair.call(Call::Order)?;
        pair.call(Call::NextImage)?;
        let why = why_carried(random, pair.lent());
        pair.call(why)?;
        play(random, pair)?;
    }
    Ok(())
}

/// Steps in any order. Most of them lead on; the others are refused, or change nothing, or are
/// made on damaged memory that is put right again.
fn play(random: &mut Random, pair: &mut Pair) -> Result<(), Difference> {
    let whole = 3 * programs(pair.lent()) + 6;
    let steps = if random.percent(70) { whole } else { random.between(1, whole) };
    for _ in 0..steps {
        match random.below(100) {
            0..=69 => {
                let call = step_that_leads_on(random, pair.lent());
                pair.call(call)?;
            }
            70..=79 => {
                let call = any_call(random, pair.lent());
                pair.call(call)?;
            }
            80..=97 => call_on_damaged(random, pair)?,
            98 => change_a_cell(random, pair),
            _ => change_the_guards(random, pair),
        }
    }
    Ok(())
}

fn call_on_damaged(random: &mut Random, pair: &mut Pair) -> Result<(), Difference> {
    let sound = pair.lent().clone();
    let mut damaged = sound.clone();
    damage(random, &mut damaged, programs(&sound));
    let call = any_call(random, &sound);
    pair.lend(damaged);
    pair.call(call)?;
    pair.lend(sound);
    Ok(())
}

/// The caller lends another table: the calls know only the one that they are lent.
fn change_a_cell(random: &mut Random, pair: &mut Pair) {
    let mut lent = pair.lent().clone();
    let cell = random.below(lent.table.lent().len());
    lent.table.lent_mut()[cell] = random.word();
    pair.lend(lent);
}

/// The caller lends other guards: the calls know only those that they are lent.
fn change_the_guards(random: &mut Random, pair: &mut Pair) {
    let mut lent = pair.lent().clone();
    lent.guards = words(&made_up::guards(random, lent.table.lent()));
    pair.lend(lent);
}

/// Gathers a waiting program; where none is, settles a gathered one; where none is, lists the order,
/// makes the next image, or asks why a program was carried.
fn step_that_leads_on(random: &mut Random, lent: &Lent) -> Call {
    let (waiting, gathered) = (in_state(lent, WAITING), in_state(lent, GATHERED));
    if !waiting.is_empty() {
        Call::Gather(random.pick(&waiting))
    } else if !gathered.is_empty() {
        Call::Settle(random.pick(&gathered))
    } else {
        let why = why_carried(random, lent);
        random.pick(&[Call::Order, Call::NextImage, why, why])
    }
}

/// Asks why a carried program was carried; any program where none is.
fn why_carried(random: &mut Random, lent: &Lent) -> Call {
    let carried = in_state(lent, CARRIED);
    Call::Why(if carried.is_empty() { number(random, programs(lent)) } else { random.pick(&carried) })
}

/// The numbers of the programs in a state.
fn in_state(lent: &Lent, wanted: u32) -> Vec<usize> {
    let states = area::states(lent.area.lent(), lent.table.lent().len()).enumerate();
    states.filter(|&(_, state)| state == wanted).map(|(number, _)| number).collect()
}

/// Any call, on any program. An opening is rare, since it begins the batch anew.
fn any_call(random: &mut Random, lent: &Lent) -> Call {
    let number = number(random, programs(lent));
    match random.below(36) {
        0 => Call::Open,
        1..=3 => Call::Program(number),
        4..=6 => Call::ProgramRefusal(number),
        7..=12 => Call::Gather(number),
        13..=18 => Call::Settle(number),
        19..=24 => Call::Why(number),
        25..=29 => Call::Order,
        _ => Call::NextImage,
    }
}

/// A program number, one in five of them n or more: also ones that are small again in 32, 16 or 8
/// bits.
fn number(random: &mut Random, programs: usize) -> usize {
    let good = random.below(programs.max(1));
    if random.percent(80) {
        return good;
    }
    let far = 1usize.checked_shl(32).unwrap_or(1 << 31);
    random.pick(&[programs, programs + 1, PROGRAMS, usize::MAX, far + good, 65536 + good, 256 + good])
}

/// A fresh image of a few programs, or of as many as there is just room for, or one more; and an
/// output that is long enough, exactly as long as the next image, or one byte shorter.
fn renew_fresh_and_out(random: &mut Random, pair: &mut Pair) {
    let mut lent = pair.lent().clone();
    let cells = lent.table.lent().len();
    let room = PROGRAMS - in_state(&lent, CARRIED).len();
    let programs = random.pick(&[0, 1, 2, 3, 3, 3, room, room + 1]).min(PROGRAMS);
    let fresh = made_up::image(random, cells, programs);
    let out = &mut [0; LONGEST];
    let (table, guards) = (lent.table.lent(), lent.guards.lent());
    let next = plain::next_image(lent.image.lent(), table, guards, lent.area.lent(), &fresh, out);
    let length = next.count as usize;
    let lengths = [0, length.saturating_sub(1), length, length + 3, LONGEST, LONGEST];
    lent.fresh = bytes(&fresh);
    lent.out = bytes(&vec![0xEE; random.pick(&lengths)]);
    pair.lend(lent);
}

/// The number of programs of the image lent, which is good between the calls.
fn programs(lent: &Lent) -> usize {
    Image::check(lent.image.lent()).ok().map_or(0, |image| image.count())
}

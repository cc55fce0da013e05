//! The archive's speed, held against the independent implementation, which makes the same checks, on
//! the same input in one process.

mod linked;
mod scenarios;
mod table;

use linked::Archive;
use plain::image::{LONGEST, PROGRAMS};
use plain::refusal::DONE;
use plain::sheet;
use plain::{Cause, Count, Refusal, Step, Text};
use scenarios::{carried_programs, gathered_programs, Scenario, Sheet, Start};
use scenarios::{CALLS, GATHER, IMAGE_OF, NEXT_IMAGE, OPEN, ORDER, SETTLE, SHEET_OF, WHY};
use std::hint::black_box;
use std::time::Instant;
use table::Figures;

/// Rounds that alternate between the two sides; the median of their times is printed.
const ROUNDS: usize = 31;
/// A call that can be repeated is made so often in a row.
const REPEATS: usize = 20;
/// The same for a sheet, which takes longer.
const SHEET_REPEATS: usize = 3;
/// The bytes of a hostile sheet: a megabyte.
const HOSTILE: usize = 1 << 20;

/// The calls of one side.
trait Calls {
    fn open(&self, image: &[u8], table: &[u32], guards: &[u32], area: &mut [u32]) -> Refusal;
    fn gather(&self, image: &[u8], table: &[u32], guards: &[u32], area: &mut [u32], number: usize) -> Step;
    fn settle(
        &self,
        image: &[u8],
        table: &mut [u32],
        guards: &[u32],
        area: &mut [u32],
        number: usize,
    ) -> Step;
    fn why(&self, image: &[u8], table: &[u32], guards: &[u32], area: &[u32], number: usize) -> Cause;
    fn order(&self, image: &[u8], table: &[u32], guards: &[u32], area: &[u32], list: &mut [u32]) -> Count;
    fn next_image(
        &self,
        image: &[u8],
        table: &[u32],
        guards: &[u32],
        area: &[u32],
        fresh: &[u8],
        out: &mut [u8],
    ) -> Count;
    fn image_of(&self, sheet: &[u8], out: &mut [u8]) -> Text;
    fn sheet_of(&self, image: &[u8], out: &mut [u8]) -> Text;
}

struct Plain;

impl Calls for Plain {
    fn open(&self, image: &[u8], table: &[u32], guards: &[u32], area: &mut [u32]) -> Refusal {
        plain::open(image, table, guards, area)
    }
    fn gather(&self, image: &[u8], table: &[u32], guards: &[u32], area: &mut [u32], number: usize) -> Step {
        plain::gather(image, table, guards, area, number)
    }
    fn settle(
        &self,
        image: &[u8],
        table: &mut [u32],
        guards: &[u32],
        area: &mut [u32],
        number: usize,
    ) -> Step {
        plain::settle(image, table, guards, area, number)
    }
    fn why(&self, image: &[u8], table: &[u32], guards: &[u32], area: &[u32], number: usize) -> Cause {
        plain::why(image, table, guards, area, number)
    }
    fn order(&self, image: &[u8], table: &[u32], guards: &[u32], area: &[u32], list: &mut [u32]) -> Count {
        plain::order(image, table, guards, area, list)
    }
    fn next_image(
        &self,
        image: &[u8],
        table: &[u32],
        guards: &[u32],
        area: &[u32],
        fresh: &[u8],
        out: &mut [u8],
    ) -> Count {
        plain::next_image(image, table, guards, area, fresh, out)
    }
    fn image_of(&self, sheet: &[u8], out: &mut [u8]) -> Text {
        plain::image_of(sheet, out)
    }
    fn sheet_of(&self, image: &[u8], out: &mut [u8]) -> Text {
        plain::sheet_of(image, out)
    }
}

/// One side's memory, which stays lent from round to round.
#[derive(PartialEq)]
struct Memory {
    table: Vec<u32>,
    area: Vec<u32>,
    list: Vec<u32>,
    out: Vec<u8>,
}

impl Memory {
    fn of(scenario: &Scenario) -> Memory {
        Memory {
            table: scenario.table.clone(),
            area: scenario.first_area(),
            list: vec![0; PROGRAMS],
            out: vec![0; LONGEST],
        }
    }
}

/// Runs the batch once on one side, and takes the nanoseconds of each kind of call.
fn run(calls: &impl Calls, scenario: &Scenario, memory: &mut Memory) -> Figures {
    let Scenario { image, guards, fresh, programs, .. } = scenario;
    let Memory { table, area, list, out } = memory;
    table.copy_from_slice(&scenario.table);
    let mut times = [None; CALLS.len()];
    if let Start::Opening = scenario.start {
        times[OPEN] = Some(per_call(REPEATS, |_| done(calls.open(image, table, guards, area))));
        let gather = |number: usize| done(calls.gather(image, table, guards, area, number).refusal);
        times[GATHER] = Some(per_call(*programs, gather));
        let gathered = gathered_programs(area, table.len());
        let settle = |place: usize| done(calls.settle(image, table, guards, area, gathered[place]).refusal);
        times[SETTLE] = Some(per_call(gathered.len(), settle));
        let carried = carried_programs(area, table.len());
        let why = |place: usize| {
            done(calls.why(image, table, guards, area, carried[place % carried.len()]).refusal)
        };
        times[WHY] = Some(per_call(REPEATS * carried.len(), why));
    }
    times[ORDER] = Some(per_call(REPEATS, |_| done(calls.order(image, table, guards, area, list).refusal)));
    times[NEXT_IMAGE] =
        Some(per_call(REPEATS, |_| done(calls.next_image(image, table, guards, area, fresh, out).refusal)));
    times
}

/// Reads a sheet and writes that of its image, on one side, and takes the nanoseconds of each.
fn run_sheet(calls: &impl Calls, scenario: &Sheet, out: &mut [u8]) -> Figures {
    let mut times = [None; CALLS.len()];
    let image_of = |_| assert_eq!(black_box(calls.image_of(&scenario.sheet, out)).refusal, scenario.refusal);
    times[IMAGE_OF] = Some(per_call(SHEET_REPEATS, image_of));
    if let Some(image) = &scenario.image {
        times[SHEET_OF] = Some(per_call(SHEET_REPEATS, |_| done(calls.sheet_of(image, out).refusal)));
    }
    times
}

/// The time of so many calls in a row, per call.
fn per_call(count: usize, mut call: impl FnMut(usize)) -> f64 {
    let start = Instant::now();
    for number in 0..count {
        call(black_box(number));
    }
    start.elapsed().as_nanos() as f64 / count as f64
}

fn done(refusal: Refusal) {
    assert_eq!(black_box(refusal), DONE, "no call of the benchmark is refused");
}

/// The figures of a batch on both sides, which leave the same memory.
fn compare(scenario: &Scenario) -> [Figures; 2] {
    let (mut memory, mut other) = (Memory::of(scenario), Memory::of(scenario));
    let figures = alternate(|| run(&Plain, scenario, &mut memory), || run(&Archive, scenario, &mut other));
    assert!(memory == other, "both sides leave the same memory");
    figures
}

/// The figures of a sheet on both sides, which leave the same output.
fn compare_sheet(scenario: &Sheet) -> [Figures; 2] {
    let (mut out, mut other) = (vec![0; sheet::LONGEST], vec![0; sheet::LONGEST]);
    let figures =
        alternate(|| run_sheet(&Plain, scenario, &mut out), || run_sheet(&Archive, scenario, &mut other));
    assert!(out == other, "both sides leave the same output");
    figures
}

/// The medians of both sides, which take turns at going first.
fn alternate(mut run_plain: impl FnMut() -> Figures, mut run_other: impl FnMut() -> Figures) -> [Figures; 2] {
    let [mut plain, mut other] = [Vec::new(), Vec::new()];
    for round in 0..ROUNDS {
        if round % 2 == 0 {
            plain.push(run_plain());
            other.push(run_other());
        } else {
            other.push(run_other());
            plain.push(run_plain());
        }
    }
    [medians(&plain), medians(&other)]
}

fn medians(rounds: &[Figures]) -> Figures {
    std::array::from_fn(|call| {
        let mut times: Vec<f64> = rounds.iter().filter_map(|times| times[call]).collect();
        times.sort_by(f64::total_cmp);
        times.get(times.len() / 2).copied()
    })
}

fn main() {
    println!("Time per call in nanoseconds, the median of {ROUNDS} rounds that alternate.");
    println!("No buffer is cleared first: each call finds what the call before it left, in a warm cache.");
    for scenario in scenarios::all() {
        table::print(scenario.name, compare(&scenario));
    }
    for scenario in scenarios::sheets(HOSTILE) {
        table::print(&scenario.name, compare_sheet(&scenario));
    }
}

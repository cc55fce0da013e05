//! The deepest stack of each call in bytes, over the inputs that take the most of it.
//! Usage: stack DRIVER.., the command that runs the archive's driver.

mod bad;
mod driven;
mod scenarios;

use archive::{bytes, words, Archive, Measure};
use material::assembler::{self, guards, load, reject, store, R0, R1};
use plain::area::{self, FAULTED};
use plain::image::LONGEST;
use plain::refusal::{DONE, GUARDS};
use plain::{sheet, Refusal};
use scenarios::{Scenario, CALLS, GATHER, SHEET_OF};

/// The calls, in the order of the header's table.
const NAMES: [&str; 10] = [
    "program",
    "program_refusal",
    "open",
    "gather",
    "settle",
    "why",
    "order",
    "next_image",
    "image_of",
    "sheet_of",
];

/// The bytes of a hostile sheet.
const HOSTILE: usize = 1 << 20;

/// The calls that need only the image, on all programs of a scenario.
fn image_calls(archive: &mut Archive, scenario: &Scenario, mut note: impl FnMut(&'static str, u64)) {
    let image = &mut bytes(&scenario.image);
    archive.measure = Measure::Stack;
    for number in 0..scenario.programs {
        archive.program(image, number);
        note("program", archive.measured.unwrap_or(0));
        assert_eq!(archive.program_refusal(image, number), DONE);
        note("program_refusal", archive.measured.unwrap_or(0));
    }
}

/// The sheet of a number with three digits, the most that a byte has: each digit is written below the one
/// behind it.
fn three_digits(archive: &mut Archive, mut note: impl FnMut(&'static str, u64)) {
    let image = &mut bytes(&assembler::image(2, &[vec![reject(255)]]));
    let out = &mut bytes(&[0; sheet::LONGEST]);
    archive.measure = Measure::Stack;
    assert_eq!(archive.sheet_of(image, out).refusal, DONE);
    note(CALLS[SHEET_OF], archive.measured.unwrap_or(0));
}

/// A store that its cell's guard does not allow.
fn broken_guard(archive: &mut Archive, mut note: impl FnMut(&'static str, u64)) {
    let image = &mut bytes(&assembler::image(2, &[vec![load(R1, R0), store(R0, R1)]]));
    let (table, guards) = (&mut words(&[0]), &mut words(&guards(&[(1, 0)])));
    let area = &mut words(&vec![0; area::words(1, 1)]);
    archive.measure = Measure::Stack;
    assert_eq!(archive.gather(image, table, guards, area, 0).state, FAULTED);
    note(CALLS[GATHER], archive.measured.unwrap_or(0));
}

/// Guards that are not T pairs, at every call that is lent them.
fn short_guards(archive: &mut Archive, mut note: impl FnMut(&'static str, u64)) {
    let (image, fresh) = (&mut bytes(&assembler::image(2, &[])), &mut bytes(&assembler::image(2, &[])));
    let (table, guards, area) = (&mut words(&[0]), &mut words(&[0]), &mut words(&vec![0; area::words(1, 0)]));
    let (list, out) = (&mut words(&[]), &mut bytes(&[0; LONGEST]));
    archive.measure = Measure::Stack;
    let mut refused = |call: &'static str, answer: Refusal, measured: Option<u64>| {
        assert_eq!(answer, GUARDS, "{call} refuses guards that are not T pairs");
        note(call, measured.unwrap_or(0));
    };
    let answer = archive.open(image, table, guards, area);
    refused("open", answer, archive.measured);
    let answer = archive.gather(image, table, guards, area, 0).refusal;
    refused("gather", answer, archive.measured);
    let answer = archive.settle(image, table, guards, area, 0).refusal;
    refused("settle", answer, archive.measured);
    let answer = archive.why(image, table, guards, area, 0).refusal;
    refused("why", answer, archive.measured);
    let answer = archive.order(image, table, guards, area, list).refusal;
    refused("order", answer, archive.measured);
    let answer = archive.next_image(image, table, guards, area, fresh, out).refusal;
    refused("next_image", answer, archive.measured);
}

fn main() {
    let driver: Vec<String> = std::env::args().skip(1).collect();
    let archive = &mut Archive::start(&driver);
    let mut deepest = [0; NAMES.len()];
    let mut note = |call: &'static str, bytes: u64| {
        let place = NAMES.iter().position(|&name| name == call).expect("the name of a call");
        deepest[place] = bytes.max(deepest[place]);
    };
    for scenario in scenarios::all() {
        image_calls(archive, &scenario, &mut note);
        driven::run(archive, &scenario, Measure::Stack, 1, |call, bytes| note(CALLS[call], bytes));
    }
    for scenario in scenarios::sheets(HOSTILE) {
        driven::run_sheet(archive, &scenario, Measure::Stack, |call, bytes| note(CALLS[call], bytes));
    }
    three_digits(archive, &mut note);
    broken_guard(archive, &mut note);
    short_guards(archive, &mut note);
    bad::run(archive, &mut note);
    println!("Deepest stack of each call in bytes, with the inputs that take most, found by painting it:");
    println!("from the caller's frame down, arguments that lie there and the return address included.");
    for (name, bytes) in NAMES.iter().zip(deepest) {
        println!("{name:<16}{bytes:>6}");
    }
}

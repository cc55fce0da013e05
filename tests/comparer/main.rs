//! Holds the archive against the independent implementation on random call sequences: every answer
//! and all lent memory, with fences around it, after every call.
//! Usage: comparer SEED COUNT FILE DRIVER.. Sequence k has seed SEED + k, which decides all of it;
//! the file always holds the seed of the sequence under way; the rest is the command that runs the
//! archive's driver.

mod bad;
mod calls;
mod damage;
mod lent;
mod made_up;
mod met;
mod pair;
mod places;
mod sequences;
mod sheets;
mod tally;

use archive::Archive;
use std::process::ExitCode;
use tally::Tally;

/// From this many sequences on, a refusal or an outcome that was never seen counts as a failure.
const ENOUGH_TO_SEE_ALL: u64 = 2000;
/// So many differences are told; the others are only counted.
const TOLD: u64 = 10;

fn main() -> ExitCode {
    let arguments: Vec<String> = std::env::args().skip(1).collect();
    let [seed, count, file, driver @ ..] = &arguments[..] else {
        panic!("the arguments: seed, count, file, driver");
    };
    let seed: u64 = seed.parse().expect("a seed is a number");
    let count: u64 = count.parse().expect("a count is a number");

    let mut archive = Archive::start(driver);
    let mut tally = Tally::default();
    let mut failed = 0;
    for sequence in 0..count {
        let seed = seed.wrapping_add(sequence);
        std::fs::write(file, seed.to_string()).expect("the seed's file can be written");
        if let Err(difference) = sequences::run(seed, &mut archive, &mut tally) {
            failed += 1;
            if failed <= TOLD {
                println!("different: {difference}\n  repeat with: tests/compare {seed} 1");
            }
        }
    }
    let passed = count - failed;

    println!("{} calls compared, in {count} sequences from seed {seed}\n", tally.calls());
    println!("{tally}");
    if count >= ENOUGH_TO_SEE_ALL {
        for never in tally.never_seen() {
            println!("never seen: {never}");
            failed += 1;
        }
    }
    println!("{passed} passed, {failed} failed");
    if failed == 0 {
        ExitCode::SUCCESS
    } else {
        ExitCode::FAILURE
    }
}

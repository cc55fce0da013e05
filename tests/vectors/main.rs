//! Makes the stored vectors and the examples, the same on every machine.
//! Usage: vectors FOLDER, which then holds crates/vectors/ and examples/ as the repository does.
//!
//! A pack holds inputs of the programs `batch` and `why`, or of `guarded` and `guarded_why`: for each, 4
//! bytes of length (low byte first) and then its bytes. `crates/vectors/stdout` holds a page for each
//! input: for each pack and each of its inputs from number 0, a line NAME NUMBER and then what `batch` or
//! `guarded` prints for it. Behind all of these come the pages of `why` or `guarded_why`, in the same
//! order: a line NAME why NUMBER and then what it prints.

mod damaged;
mod edge;
mod good;
mod guarded;

use material::assembler::{guarded_input, input};
use material::bench_sheet;
use material::case::Case;
use material::heater::heater;
use material::lessons::lessons;
use plain::bad::{said_of_guarded_input, said_of_input, said_of_sheet};
use plain::{batch, explain};
use std::fs;
use std::io;
use std::path::{Path, PathBuf};

fn main() -> io::Result<()> {
    let folder = std::env::args().nth(1).expect("the folder to write in");
    let folder = Path::new(&folder);
    write_packs(&folder.join("crates/vectors"))?;
    write_examples(&folder.join("examples"))
}

/// Two programs that read the same input: how they read a case, what the first prints, what the second
/// does, and what both say on standard error of a bad instruction.
struct Programs {
    input: fn(&Case) -> Vec<u8>,
    listing: fn(&[u8]) -> String,
    reasons: fn(&[u8]) -> String,
    said: fn(&[u8]) -> String,
}

/// `batch` and `why`, which lend the full range.
const UNGUARDED: Programs = Programs {
    input: |case| input(&case.table, &case.image),
    listing: batch::printed,
    reasons: explain::printed,
    said: said_of_input,
};

/// `guarded` and `guarded_why`.
const GUARDED: Programs = Programs {
    input: |case| guarded_input(&case.table, &case.guards, &case.image),
    listing: batch::printed_guarded,
    reasons: explain::printed_guarded,
    said: said_of_guarded_input,
};

/// A pack's name, who reads it, and its inputs.
type Pack = (&'static str, Programs, Vec<Vec<u8>>);

fn packs() -> [Pack; 5] {
    [
        ("bench", UNGUARDED, bench_sheet::cases().iter().map(UNGUARDED.input).collect()),
        ("good", UNGUARDED, good::inputs()),
        ("edge", UNGUARDED, edge::inputs()),
        ("damaged", UNGUARDED, damaged::inputs()),
        ("guarded", GUARDED, guarded::inputs()),
    ]
}

fn write_packs(folder: &Path) -> io::Result<()> {
    fs::create_dir_all(folder.join("data"))?;
    let packs = packs();
    for (name, _, inputs) in &packs {
        let pack = packed(inputs);
        fs::write(folder.join("data").join(format!("{name}.pack")), &pack)?;
        println!("{name}.pack: {} inputs, {} bytes", inputs.len(), pack.len());
    }
    let stdout =
        pages(&packs, "", |programs| programs.listing) + &pages(&packs, " why", |programs| programs.reasons);
    println!("stdout: {} lines, {} bytes", stdout.lines().count(), stdout.len());
    fs::write(folder.join("stdout"), stdout)
}

fn packed(inputs: &[Vec<u8>]) -> Vec<u8> {
    let length = |input: &Vec<u8>| (input.len() as u32).to_le_bytes();
    inputs.iter().flat_map(|input| [&length(input)[..], input].concat()).collect()
}

/// What one of its two programs prints for every input of every pack, each behind a line with the pack's
/// name, the program's word and the input's number.
fn pages(packs: &[Pack], word: &str, printed: fn(&Programs) -> fn(&[u8]) -> String) -> String {
    let mut pages = String::new();
    for (name, programs, inputs) in packs {
        for (number, input) in inputs.iter().enumerate() {
            pages += &format!("{name}{word} {number}\n{}", printed(programs)(input));
        }
    }
    pages
}

/// Each case of the bench sheet, each lesson's batch and the guarded heater as a file to run, and beside it
/// its image as a sheet, what the programs print, and what they say on standard error of a bad instruction.
fn write_examples(folder: &Path) -> io::Result<()> {
    fs::create_dir_all(folder)?;
    for case in bench_sheet::cases() {
        write_example(folder, &format!("case-{}", case.name), &UNGUARDED, &case)?;
    }
    for lesson in lessons() {
        write_example(folder, lesson.name, &UNGUARDED, &lesson)?;
    }
    write_example(folder, "heater", &GUARDED, &heater())
}

fn write_example(folder: &Path, name: &str, programs: &Programs, case: &Case) -> io::Result<()> {
    let input = (programs.input)(case);
    fs::write(folder.join(format!("{name}.bin")), &input)?;
    fs::write(folder.join(format!("{name}.sheet")), &case.sheet)?;
    fs::write(folder.join(format!("{name}.txt")), (programs.listing)(&input))?;
    fs::write(folder.join(format!("{name}.why.txt")), (programs.reasons)(&input))?;
    write_unless_empty(folder.join(format!("{name}.error.txt")), (programs.said)(&input))?;
    write_unless_empty(folder.join(format!("{name}.sheet.error.txt")), said_of_sheet(&case.sheet))
}

/// Where nothing is said, there is no file.
fn write_unless_empty(path: PathBuf, text: String) -> io::Result<()> {
    if text.is_empty() {
        Ok(())
    } else {
        fs::write(path, text)
    }
}

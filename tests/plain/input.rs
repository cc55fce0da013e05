//! What the programs read, and the batch that they then run: `batch` and `why` lend the full range,
//! `guarded` and `guarded_why` read guards too.
//! Document 01, "Bench sheet", from "The program reads"; document 02, request 5.

use crate::area::{self, CELLS};
use crate::guards;
use crate::image::Image;
use crate::machine::{self, End, Fault};
use crate::refusal::{self, Refusal, DONE};
use crate::{gather, open, settle, Step};

/// What a program reads, taken apart.
pub struct Input<'a> {
    pub table: Vec<u32>,
    pub guards: Vec<u32>,
    pub image: &'a [u8],
}

impl Input<'_> {
    /// What `batch` and `why` read: the table, "then the image"; "the batch program lends the full range".
    pub fn unguarded(input: &[u8]) -> Result<Input<'_>, Refusal> {
        let (table, image) = table_and_rest(input)?;
        let guards = guards::full_range(table.len());
        Ok(Input { table, guards, image })
    }

    /// What `guarded` and `guarded_why` read: the table, behind it "T pairs, low then high, cell by cell",
    /// then the image. Fewer bytes than the pairs need are "guard list not T pairs".
    pub fn guarded(input: &[u8]) -> Result<Input<'_>, Refusal> {
        let (table, rest) = table_and_rest(input)?;
        let (guards, image) = words_and_rest(rest, guards::words(table.len())).ok_or(refusal::GUARDS)?;
        Ok(Input { table, guards, image })
    }
}

/// "The program reads T in two bytes (low first), T cells of four bytes (low first)", then what is left.
/// "Fewer bytes than that prefix needs, or T outside 1 to 256, prints refused 5."
fn table_and_rest(input: &[u8]) -> Result<(Vec<u32>, &[u8]), Refusal> {
    let (size, rest) = input.split_first_chunk::<2>().ok_or(refusal::TABLE_SIZE)?;
    let cells = usize::from(u16::from_le_bytes(*size));
    if cells == 0 || cells > CELLS {
        return Err(refusal::TABLE_SIZE);
    }
    words_and_rest(rest, cells).ok_or(refusal::TABLE_SIZE)
}

/// So many words of four bytes, low first, and what is left behind them; nothing where they are too few.
fn words_and_rest(bytes: &[u8], count: usize) -> Option<(Vec<u32>, &[u8])> {
    let (words, rest) = bytes.split_at_checked(4 * count)?;
    let words = words.chunks_exact(4).map(|word| u32::from_le_bytes([word[0], word[1], word[2], word[3]]));
    Some((words.collect(), rest))
}

/// A batch that was run to its end.
pub struct Batch<'a> {
    pub image: &'a [u8],
    /// The rule in force.
    pub rule: u8,
    pub opening_table: Vec<u32>,
    pub guards: Vec<u32>,
    pub table: Vec<u32>,
    pub area: Vec<u32>,
    /// What came of each program, by number.
    pub steps: Vec<Step>,
}

/// All that a program prints for what it reads: its own text of the batch, or the refusal. "Another
/// refusal prints its number so; that line is then the whole output."
pub fn printed(input: Result<Input, Refusal>, text: impl Fn(&Batch) -> Result<String, Refusal>) -> String {
    match input.and_then(Batch::run).and_then(|batch| text(&batch)) {
        Ok(text) => text,
        Err(refusal) => format!("refused {}\n", refusal.number),
    }
}

impl Batch<'_> {
    /// "It opens, gathers and settles in number order."
    fn run(input: Input) -> Result<Batch, Refusal> {
        let Input { table: opening_table, guards, image } = input;
        let checked = Image::check(image)?;
        let (programs, rule) = (checked.count(), checked.rule());
        let mut table = opening_table.clone();
        let mut area = vec![0; area::words(table.len(), programs)];

        done(open(image, &table, &guards, &mut area))?;
        let mut steps = Vec::new();
        for number in 0..programs {
            steps.push(gather(image, &table, &guards, &mut area, number));
        }
        for number in 0..programs {
            if steps[number].state == area::GATHERED {
                steps[number] = settle(image, &mut table, &guards, &mut area, number);
            }
            done(steps[number].refusal)?;
        }
        Ok(Batch { image, rule, opening_table, guards, table, area, steps })
    }

    /// What a faulted program came upon, and at which instruction: its slot does not keep all of it, so it
    /// is run once more.
    pub fn fault(&self, number: usize) -> (Fault, u32) {
        let program = crate::program(self.image, number);
        match machine::run_apart(program, &self.opening_table, &self.guards).0 {
            End::Faulted { fault, instruction } => (fault, instruction),
            _ => unreachable!("a program that faulted faults again"),
        }
    }
}

/// A refusal ends the program.
pub fn done(refusal: Refusal) -> Result<(), Refusal> {
    if refusal == DONE {
        Ok(())
    } else {
        Err(refusal)
    }
}

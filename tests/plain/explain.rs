//! The programs `why` and `guarded_why`: bytes in, what came of every program and why, in words, out.
//! They read and run what `batch` and `guarded` do; the causes are those of document 02's request 3.

use crate::area::{CARRIED, COMMITTED, FAULTED, REJECTED, STATE_WORDS};
use crate::dependencies::{Dependencies, Pair};
use crate::guards::Guard;
use crate::input::{self, done, Batch, Input};
use crate::machine::Fault;
use crate::refusal::Refusal;
use crate::steps::{RAW, WAW};
use crate::{why, Cause};

/// All that `why` prints for what it reads. A batch of no programs prints nothing.
pub fn printed(input: &[u8]) -> String {
    input::printed(Input::unguarded(input), pages)
}

/// All that `guarded_why` prints for what it reads.
pub fn printed_guarded(input: &[u8]) -> String {
    input::printed(Input::guarded(input), pages)
}

/// What is printed of all programs, by number.
fn pages(batch: &Batch) -> Result<String, Refusal> {
    (0..batch.steps.len()).map(|number| page(batch, number)).collect()
}

/// What is said of a program.
struct Said {
    /// For a script: what stands behind the state's word in the first line.
    facts: String,
    /// For people: the lines below it.
    words: Vec<String>,
}

/// What is printed of one program: a line that a script can read, then lines indented by two spaces.
fn page(batch: &Batch, number: usize) -> Result<String, Refusal> {
    let step = batch.steps[number];
    let Said { facts, words } = match step.state {
        COMMITTED => committed(batch, number),
        CARRIED => carried(batch, number)?,
        REJECTED => rejected(step.detail),
        FAULTED => faulted(batch, number),
        _ => unreachable!("every program of a batch that was run has ended"),
    };
    let lines: String = words.iter().map(|line| format!("  {line}\n")).collect();
    Ok(format!("{number} {}{facts}\n{lines}", STATE_WORDS[step.state as usize]))
}

/// A committed program can have RAW, under Rule 2: then it comes before the program that stores.
fn committed(batch: &Batch, number: usize) -> Said {
    let raw = Dependencies::of(&batch.area, batch.table.len(), number).raw().min();
    let words = match raw {
        None => vec![String::from(
            "No earlier program stores a cell that it reads or stores, so its stores are in the table.",
        )],
        Some(Pair { cell, program }) => vec![
            format!(
                "It read cell {cell} as it was when the batch was opened, \
                 while program {program} stores it,"
            ),
            format!(
                "so it comes before program {program} ({program} -> {number}), \
                 and its stores are in the table."
            ),
        ],
    };
    Said { facts: String::new(), words }
}

/// A carried program: the reason with its cause, and how it goes on.
fn carried(batch: &Batch, number: usize) -> Result<Said, Refusal> {
    let cause = why(batch.image, &batch.table, &batch.guards, &batch.area, number);
    done(cause.refusal)?;
    let Said { facts, mut words } = match cause.reason {
        WAW => carried_for_waw(cause),
        RAW => carried_for_raw(cause),
        _ => carried_for_raw_with_war(cause, number),
    };
    words.push(runs_again(batch, number));
    Ok(Said { facts, words })
}

fn carried_for_waw(Cause { cell, program, .. }: Cause) -> Said {
    Said {
        facts: format!(" waw cell {cell} program {program}"),
        words: vec![format!(
            "It stores cell {cell}, and so does program {program}, which comes first: \
             the two cannot both count in one batch."
        )],
    }
}

fn carried_for_raw(Cause { cell, program, .. }: Cause) -> Said {
    Said {
        facts: format!(" raw cell {cell} program {program}"),
        words: vec![format!(
            "It read cell {cell} as it was when the batch was opened, \
             while program {program}, which comes first, stores it."
        )],
    }
}

fn carried_for_raw_with_war(cause: Cause, number: usize) -> Said {
    let Cause { cell, program, war_cell, war_program, .. } = cause;
    Said {
        facts: format!(" raw cell {cell} program {program} war cell {war_cell} program {war_program}"),
        words: vec![
            format!(
                "It would have to come before program {program}, \
                 which stores cell {cell} that it read as it was (RAW, {program} -> {number}),"
            ),
            format!(
                "and after program {war_program}, \
                 which read cell {war_cell} that it stores (WAR, {number} -> {war_program}): \
                 the two can close a circle."
            ),
        ],
    }
}

/// The carried programs begin the next batch, in number order; one in place p ends within p+1 batches.
fn runs_again(batch: &Batch, number: usize) -> String {
    let place = batch.steps[..number].iter().filter(|step| step.state == CARRIED).count();
    let batches = place + 1;
    let word = if batches == 1 { "batch" } else { "batches" };
    format!(
        "Its reservations stay; it runs again in the next batch, as number {place}, \
         and ends within {batches} more {word}."
    )
}

fn rejected(code: u32) -> Said {
    Said {
        facts: format!(" code {code}"),
        words: vec![format!(
            "It rejected with code {code}, so it stores nothing, reserves nothing and is not carried."
        )],
    }
}

fn faulted(batch: &Batch, number: usize) -> Said {
    let (fault, instruction) = batch.fault(number);
    let (word, does) = match fault {
        Fault::AtLoad => ("load", format!("loads {}", outside(batch))),
        Fault::AtStore => ("store", format!("stores to {}", outside(batch))),
        Fault::AtGuard { cell, value } => ("guard", breaks(batch, cell, value)),
    };
    Said {
        facts: format!(" {word} at {instruction}"),
        words: vec![
            format!("Its instruction {instruction}, counted from 0, {does}."),
            String::from("It stores nothing, reserves nothing and is not carried."),
        ],
    }
}

/// A cell of T or more.
fn outside(batch: &Batch) -> String {
    format!("a cell outside the table, whose last cell is {}", batch.table.len() - 1)
}

/// A value that a cell's guard does not allow. All three numbers are read as the guard reads them, with
/// their sign.
fn breaks(batch: &Batch, cell: u32, value: u32) -> String {
    let Guard { low, high } = Guard::of(&batch.guards, cell);
    let value = value as i32;
    format!("stores {value} to cell {cell}, whose guard asks for at least {low} and at most {high}")
}

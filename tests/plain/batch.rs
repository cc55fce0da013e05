//! The programs `batch` and `guarded`: bytes in, the listing out.
//! Document 01, "Bench sheet", from "Case 2 with T=2 prints".

use crate::area::STATE_WORDS;
use crate::image::PROGRAMS;
use crate::input::{self, done, Batch, Input};
use crate::order;
use crate::refusal::Refusal;
use std::fmt::Write;

/// All that `batch` prints for what it reads.
pub fn printed(input: &[u8]) -> String {
    input::printed(Input::unguarded(input), page)
}

/// All that `guarded` prints for what it reads.
pub fn printed_guarded(input: &[u8]) -> String {
    input::printed(Input::guarded(input), page)
}

/// The batch with its listed order.
fn page(batch: &Batch) -> Result<String, Refusal> {
    let mut list = [0; PROGRAMS];
    let listed = order(batch.image, &batch.table, &batch.guards, &batch.area, &mut list);
    done(listed.refusal)?;
    Ok(listing(batch, &list[..listed.count as usize]))
}

/// "Line 1: cells, programs, rule in force. Then number, state (its word in the work area's list),
/// detail; the order; each cell and its value. An empty order prints order."
fn listing(batch: &Batch, order: &[u32]) -> String {
    let Batch { table, rule, steps, .. } = batch;
    let mut text = format!("batch {} {} {}\n", table.len(), steps.len(), rule);
    for (number, step) in steps.iter().enumerate() {
        let word = STATE_WORDS[step.state as usize];
        writeln!(text, "{number} {word} {}", step.detail).expect("a string takes every line");
    }
    text.push_str("order");
    for number in order {
        write!(text, " {number}").expect("a string takes every line");
    }
    text.push('\n');
    for (cell, value) in table.iter().enumerate() {
        writeln!(text, "{cell} {value}").expect("a string takes every line");
    }
    text
}

//! What a program depends on: WAW, RAW and WAR.
//! Document 01, "The steps". Settling asks whether any cell shows one; why asks for the lowest.

use crate::area::{self, earlier_program};

/// A cell that shows a dependency, and the earlier program that its mark names.
#[derive(Clone, Copy, Debug, PartialEq, Eq, PartialOrd, Ord)]
pub struct Pair {
    pub cell: u32,
    pub program: u32,
}

/// What a program's dependencies are found in: its own cells, and the marks of all cells.
pub struct Dependencies<'a> {
    number: usize,
    reads: &'a [u32],
    stores: &'a [u32],
    write_marks: &'a [u32],
    read_marks: &'a [u32],
}

impl<'a> Dependencies<'a> {
    /// Those of a program, in an area on a table of so many cells.
    pub fn of(area: &'a [u32], cells: usize, number: usize) -> Dependencies<'a> {
        let slot = area::slot(area, cells, number);
        let (write_marks, read_marks) = area::marks(area, cells);
        Dependencies { number, reads: area::reads(slot), stores: area::stores(slot), write_marks, read_marks }
    }

    /// "WAW: a stored cell's write mark names an earlier program."
    pub fn waw(&self) -> impl Iterator<Item = Pair> + 'a {
        pairs(self.stores, self.write_marks, self.number)
    }

    /// "RAW: a read cell's write mark does."
    pub fn raw(&self) -> impl Iterator<Item = Pair> + 'a {
        pairs(self.reads, self.write_marks, self.number)
    }

    /// "WAR: a stored cell's read mark does."
    pub fn war(&self) -> impl Iterator<Item = Pair> + 'a {
        pairs(self.stores, self.read_marks, self.number)
    }
}

/// Those of the cells whose mark names an earlier program, in the order of the slot.
fn pairs<'a>(cells: &'a [u32], marks: &'a [u32], number: usize) -> impl Iterator<Item = Pair> + 'a {
    let pair = move |&cell: &u32| {
        let program = earlier_program(marks[cell as usize], number)?;
        Some(Pair { cell, program })
    };
    cells.iter().filter_map(pair)
}

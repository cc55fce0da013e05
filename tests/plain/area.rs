//! The work area: where each word lies, what a slot says, and checks 5, 14, 6 and 7.
//! Document 01, "The work area". No other file knows where a word lies.

use crate::guards;
use crate::image::{Image, INSTRUCTIONS};
use crate::refusal::{self, Refusal};

/// "1 to 256 cells (T)."
pub const CELLS: usize = 256;

/// States: "0 waiting, 1 gathered, 2 rejected, 3 faulted, 4 committed, 5 carried."
pub const WAITING: u32 = 0;
pub const GATHERED: u32 = 1;
pub const REJECTED: u32 = 2;
pub const FAULTED: u32 = 3;
pub const COMMITTED: u32 = 4;
pub const CARRIED: u32 = 5;

/// The states' words, by number.
pub const STATE_WORDS: [&str; 6] = ["waiting", "gathered", "rejected", "faulted", "committed", "carried"];

/// "A slot of 100 words per program: state, detail, read count, store count, 32 read cells,
/// 32 stored cells, 32 stored values."
pub const SLOT_WORDS: usize = 4 + 3 * LOG;
pub const STATE: usize = 0;
pub const DETAIL: usize = 1;
pub const READ_COUNT: usize = 2;
pub const STORE_COUNT: usize = 3;
pub const READS: usize = 4;
pub const STORES: usize = READS + LOG;
pub const VALUES: usize = STORES + LOG;

/// A run of 32 instructions reads and stores at most 32 cells.
const LOG: usize = INSTRUCTIONS;

/// "It has 2T + 100n words of 32 bits."
pub fn words(cells: usize, programs: usize) -> usize {
    2 * cells + SLOT_WORDS * programs
}

/// The image's checks, then 5, 14 and 6, which opening makes and every later call makes first.
pub fn check_sizes<'a>(
    image: &'a [u8],
    table: &[u32],
    guards: &[u32],
    area: &[u32],
) -> Result<Image<'a>, Refusal> {
    let image = Image::check(image)?;
    if table.is_empty() || table.len() > CELLS {
        return Err(refusal::TABLE_SIZE);
    }
    guards::check(guards, table.len())?;
    if area.len() != words(table.len(), image.count()) {
        return Err(refusal::AREA_SIZE);
    }
    Ok(image)
}

/// The same, then check 7.
pub fn check<'a>(image: &'a [u8], table: &[u32], guards: &[u32], area: &[u32]) -> Result<Image<'a>, Refusal> {
    let image = check_sizes(image, table, guards, area)?;
    let (marks, slots) = area.split_at(2 * table.len());
    let marks_are_good = marks.iter().all(|&mark| mark as usize <= image.count());
    if !marks_are_good || !slots.chunks_exact(SLOT_WORDS).all(|slot| slot_is_good(slot, table.len())) {
        return Err(refusal::AREA);
    }
    Ok(image)
}

/// "A state over 5, a count over 32, or a cell of T or more among the counted ones": a good slot
/// has none of these, whatever its state. Nothing else in it is looked at.
fn slot_is_good(slot: &[u32], cells: usize) -> bool {
    slot[STATE] <= CARRIED
        && slot[READ_COUNT] as usize <= LOG
        && slot[STORE_COUNT] as usize <= LOG
        && reads(slot).iter().chain(stores(slot)).all(|&cell| (cell as usize) < cells)
}

/// The counted read cells of a slot.
pub fn reads(slot: &[u32]) -> &[u32] {
    &slot[READS..READS + slot[READ_COUNT] as usize]
}

/// The counted stored cells of a slot.
pub fn stores(slot: &[u32]) -> &[u32] {
    &slot[STORES..STORES + slot[STORE_COUNT] as usize]
}

/// The values of the counted stores.
pub fn values(slot: &[u32]) -> &[u32] {
    &slot[VALUES..VALUES + slot[STORE_COUNT] as usize]
}

/// Check 9 of the calls that need a batch which is settled: "while any state is 0 or 1".
pub fn check_settled(area: &[u32], cells: usize) -> Result<(), Refusal> {
    if states(area, cells).any(|state| state <= GATHERED) {
        Err(refusal::STATE)
    } else {
        Ok(())
    }
}

/// The slot of a program, in an area on a table of so many cells.
pub fn slot(area: &[u32], cells: usize, number: usize) -> &[u32] {
    let start = words(cells, number);
    &area[start..start + SLOT_WORDS]
}

/// "First T write marks, then T read marks."
pub fn marks(area: &[u32], cells: usize) -> (&[u32], &[u32]) {
    area[..2 * cells].split_at(cells)
}

/// The states of all programs, by number.
pub fn states(area: &[u32], cells: usize) -> impl Iterator<Item = u32> + '_ {
    area[2 * cells..].chunks_exact(SLOT_WORDS).map(|slot| slot[STATE])
}

/// The marks, the slot of one program, and nothing else of the area.
pub struct Place<'a> {
    pub write_marks: &'a mut [u32],
    pub read_marks: &'a mut [u32],
    pub slot: Slot<'a>,
}

impl<'a> Place<'a> {
    /// "First T write marks, then T read marks", then the slots.
    pub fn of(area: &'a mut [u32], cells: usize, number: usize) -> Place<'a> {
        let (write_marks, rest) = area.split_at_mut(cells);
        let (read_marks, slots) = rest.split_at_mut(cells);
        let start = SLOT_WORDS * number;
        Place { write_marks, read_marks, slot: Slot(&mut slots[start..start + SLOT_WORDS]) }
    }
}

/// "0, or 1 + the smallest number of a gathered program that stores (reads) the cell."
pub fn mark_of(number: usize) -> u32 {
    1 + number as u32
}

/// The earlier program that a mark names, if it names one. "Earlier" means a smaller number.
pub fn earlier_program(mark: u32, number: usize) -> Option<u32> {
    (mark != 0 && mark < mark_of(number)).then(|| mark - mark_of(0))
}

/// One program's slot of 100 words.
pub struct Slot<'a>(&'a mut [u32]);

impl Slot<'_> {
    /// These words as a slot.
    pub fn of(words: &mut [u32; SLOT_WORDS]) -> Slot<'_> {
        Slot(words)
    }

    pub fn state(&self) -> u32 {
        self.0[STATE]
    }

    /// Sets state and detail, and returns both.
    pub fn decide(&mut self, state: u32, detail: u32) -> (u32, u32) {
        self.0[STATE] = state;
        self.0[DETAIL] = detail;
        (state, detail)
    }

    pub fn clear(&mut self) {
        self.0.fill(0);
    }

    pub fn reads(&self) -> &[u32] {
        reads(self.0)
    }

    pub fn stores(&self) -> &[u32] {
        stores(self.0)
    }

    pub fn values(&self) -> &[u32] {
        values(self.0)
    }

    /// The value that this program has stored in a cell, if it has.
    pub fn stored_value(&self, cell: u32) -> Option<u32> {
        self.place_of_store(cell).map(|place| self.values()[place])
    }

    /// Adds a cell to the reads, once.
    pub fn add_read(&mut self, cell: u32) {
        if !self.reads().contains(&cell) {
            let place = self.0[READ_COUNT] as usize;
            self.0[READS + place] = cell;
            self.0[READ_COUNT] += 1;
        }
    }

    /// "The last store to a cell counts; the cell keeps its first place among the stores."
    pub fn store(&mut self, cell: u32, value: u32) {
        let place = self.place_of_store(cell).unwrap_or_else(|| {
            let place = self.0[STORE_COUNT] as usize;
            self.0[STORES + place] = cell;
            self.0[STORE_COUNT] += 1;
            place
        });
        self.0[VALUES + place] = value;
    }

    fn place_of_store(&self, cell: u32) -> Option<usize> {
        self.stores().iter().position(|&stored| stored == cell)
    }
}

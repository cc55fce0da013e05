//! What the benchmarks run: a full batch, a typical one, the same under narrow guards, two that look
//! through many stores, and a hostile one for the order; the longest sheet, and hostile ones. All but the
//! guarded one are lent the full range.

use material::assembler::{self, load, set, store, Instruction, R0, R1, R2};
use material::random::{self, Random, Shape};
use material::sheets;
use plain::area::{words, CARRIED, CELLS, COMMITTED, GATHERED};
use plain::area::{READS, READ_COUNT, SLOT_WORDS, STATE, STORES, STORE_COUNT};
use plain::guards::{full_range, Guard};
use plain::image::{INSTRUCTIONS, PROGRAMS};
use plain::machine::{self, End, Fault};
use plain::refusal::{DONE, LINE};
use plain::Refusal;

/// What is measured: the calls, and behind gathering its run alone, which only the counting tells.
pub const CALLS: [&str; 9] =
    ["open", "gather", "its run", "settle", "why", "order", "next_image", "image_of", "sheet_of"];
pub const OPEN: usize = 0;
pub const GATHER: usize = 1;
pub const SETTLE: usize = 3;
pub const WHY: usize = 4;
pub const ORDER: usize = 5;
pub const NEXT_IMAGE: usize = 6;
pub const IMAGE_OF: usize = 7;
pub const SHEET_OF: usize = 8;

pub struct Scenario {
    pub name: &'static str,
    pub programs: usize,
    pub image: Vec<u8>,
    pub table: Vec<u32>,
    pub guards: Vec<u32>,
    pub fresh: Vec<u8>,
    pub start: Start,
}

/// Where the calls begin.
pub enum Start {
    Opening,
    /// A settled area that no call made: only the order and the next image are called.
    MadeUpArea(Vec<u32>),
}

impl Scenario {
    /// The area as the first call finds it.
    pub fn first_area(&self) -> Vec<u32> {
        match &self.start {
            Start::Opening => vec![0; words(self.table.len(), self.programs)],
            Start::MadeUpArea(area) => area.clone(),
        }
    }
}

/// A sheet that is read, and an image whose sheet is then written, if there is one.
pub struct Sheet {
    pub name: String,
    pub sheet: Vec<u8>,
    /// What reading the sheet is refused with.
    pub refusal: Refusal,
    pub image: Option<Vec<u8>>,
}

/// The longest sheet of a good image; and two that are refused at their very end, of about so many
/// bytes, which is more than the longest has.
pub fn sheets(bytes: usize) -> Vec<Sheet> {
    let hostile = |what: &str, sheet: Vec<u8>| {
        let name = format!("A hostile sheet: {what}, {} bytes", sheet.len());
        Sheet { name, sheet, refusal: LINE, image: None }
    };
    let longest = sheets::longest();
    vec![
        Sheet {
            name: format!("The longest sheet: 64 programs of 32 instructions, {} bytes", longest.len()),
            sheet: longest,
            refusal: DONE,
            image: Some(sheets::longest_image()),
        },
        hostile("every line is allowed but the last", sheets::last_line_bad(bytes)),
        hostile("the last line never ends", sheets::endless_line(bytes)),
    ]
}

pub fn all() -> Vec<Scenario> {
    vec![full(), typical(), guarded(), oldest(), by_turns(), hostile()]
}

/// The numbers of the programs that are to be settled.
pub fn gathered_programs(area: &[u32], cells: usize) -> Vec<usize> {
    programs_in(GATHERED, area, cells)
}

/// The numbers of the programs that are asked about: why they were carried.
pub fn carried_programs(area: &[u32], cells: usize) -> Vec<usize> {
    programs_in(CARRIED, area, cells)
}

fn programs_in(wanted: u32, area: &[u32], cells: usize) -> Vec<usize> {
    let states = plain::area::states(area, cells).enumerate();
    states.filter(|&(_, state)| state == wanted).map(|(number, _)| number).collect()
}

/// As much as an image holds, on the largest table. The carried programs leave room for few.
fn full() -> Scenario {
    let shape = Shape { cells: CELLS, busy_cells: CELLS, programs: PROGRAMS, instructions: INSTRUCTIONS };
    batch("A full batch: 64 programs of 32 instructions, 256 cells, Rule 2", shape, 0)
}

fn typical() -> Scenario {
    let shape = Shape { cells: 64, busy_cells: 64, programs: 10, instructions: 8 };
    batch("A typical batch: 10 programs of 8 instructions, 64 cells, Rule 2", shape, 5)
}

fn batch(name: &'static str, shape: Shape, fresh: usize) -> Scenario {
    let mut random = Random::new(5);
    let table = random::table(&mut random, shape.cells);
    let image = assembler::image(2, &whole_programs(&mut random, shape, &table, shape.programs));
    let fresh = assembler::image(2, &whole_programs(&mut random, shape, &table, fresh));
    let guards = full_range(table.len());
    Scenario { name, programs: shape.programs, image, table, guards, fresh, start: Start::Opening }
}

/// Programs that run on to a good end: none is rejected or faulted.
fn whole_programs(random: &mut Random, shape: Shape, table: &[u32], count: usize) -> Vec<Vec<Instruction>> {
    let mut programs = Vec::new();
    while programs.len() < count {
        let program = random::program_of_length(random, shape, shape.instructions);
        let image = assembler::image(0, &[program.clone()]);
        let mut area = vec![0; words(table.len(), 1)];
        if plain::gather(&image, table, &full_range(table.len()), &mut area, 0).state == GATHERED {
            programs.push(program);
        }
    }
    programs
}

/// The typical batch, in which each cell's guard is as tight as the programs' stores allow: what it takes more
/// than under the full range is what the comparing takes.
fn guarded() -> Scenario {
    let mut scenario = typical();
    scenario.name = "A guarded batch: the typical one, each guard as tight as the stores allow";
    scenario.guards = tightest_guards(&scenario);
    scenario
}

/// The tightest guards under which no program of a scenario faults. Each is closed at first, and is widened for
/// every value that breaks it. A cell that no program stores stays closed.
fn tightest_guards(scenario: &Scenario) -> Vec<u32> {
    let mut guards = Guard { low: i32::MAX, high: i32::MIN }.pair().repeat(scenario.table.len());
    for number in 0..scenario.programs {
        while let Some((cell, value)) = broken_guard(scenario, &guards, number) {
            let Guard { low, high } = Guard::of(&guards, cell);
            let wider = Guard { low: low.min(value), high: high.max(value) };
            guards[plain::guards::words(cell as usize)..][..2].copy_from_slice(&wider.pair());
        }
    }
    guards
}

/// The cell and the value at which a program of a scenario faults at a guard, if it does.
fn broken_guard(scenario: &Scenario, guards: &[u32], number: usize) -> Option<(u32, i32)> {
    let program = plain::program(&scenario.image, number);
    match machine::run_apart(program, &scenario.table, guards).0 {
        End::Faulted { fault: Fault::AtGuard { cell, value }, .. } => Some((cell, value as i32)),
        _ => None,
    }
}

/// How many cells a program stores that then loads the first of them. Each new cell number takes an
/// instruction, so that of 32 there are 11 left for loads, and with more or fewer cells a run
/// would look through fewer stores in all.
const STORED: usize = 11;

/// Loads of the oldest store: each goes through all of them.
fn oldest() -> Scenario {
    let mut program = vec![store(R0, R0)];
    program.extend((1..STORED).flat_map(|cell| [set(R1, cell as u16), store(R1, R1)]));
    program.resize(INSTRUCTIONS, load(R2, R0));
    alike("Loads of the oldest: 64 programs that store 11 cells, then load the first 11 times", program)
}

/// Each load gives the number of the cell that is loaded next, and then the cell that was loaded is
/// stored: all 32 instructions look through all stores before them.
fn by_turns() -> Scenario {
    let turns = [load(R1, R0), store(R0, R0), load(R0, R1), store(R1, R1)];
    let program = turns.into_iter().cycle().take(INSTRUCTIONS).collect();
    alike("Loads and stores by turns: 64 programs that load 16 cells and store each after its load", program)
}

/// 64 times the same program, on a table in which each cell holds the number of the next.
fn alike(name: &'static str, program: Vec<Instruction>) -> Scenario {
    let table = (1..=CELLS as u32).collect();
    let image = assembler::image(2, &vec![program; PROGRAMS]);
    let fresh = assembler::image(2, &[]);
    let guards = full_range(CELLS);
    Scenario { name, programs: PROGRAMS, image, table, guards, fresh, start: Start::Opening }
}

/// 64 committed programs with 32 reads and 32 stores each. Program i+1 reads, last of all, the cell
/// that program i stores last, and no other store is read: every test of a pair goes to its end,
/// and the listed order falls, so that each turn finds its program last.
fn hostile() -> Scenario {
    let mut scenario = full();
    let mut area = vec![0; words(CELLS, PROGRAMS)];
    let own_cell = |number: usize| (CELLS - PROGRAMS + number) as u32;
    for (number, slot) in area[2 * CELLS..].chunks_exact_mut(SLOT_WORDS).enumerate() {
        slot[STATE] = COMMITTED;
        slot[READ_COUNT] = INSTRUCTIONS as u32;
        slot[STORE_COUNT] = INSTRUCTIONS as u32;
        for place in 0..INSTRUCTIONS {
            slot[READS + place] = place as u32;
            slot[STORES + place] = (INSTRUCTIONS + place) as u32;
        }
        if number > 0 {
            slot[READS + INSTRUCTIONS - 1] = own_cell(number - 1);
        }
        slot[STORES + INSTRUCTIONS - 1] = own_cell(number);
    }
    scenario.name = "Hostile to the order: 64 committed programs with 32 reads and 32 stores each";
    scenario.start = Start::MadeUpArea(area);
    scenario
}

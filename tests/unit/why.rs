//! Why a program was carried: each sentence of document 02's request 3 on a cause. What the call
//! refuses stands in refusals.rs.

use material::assembler::{image, Instruction};
use material::bench_sheet;
use material::random::{self, Random, Shape};
use plain::area::{self, mark_of, words, CARRIED, COMMITTED, DETAIL, GATHERED, STATE};
use plain::area::{READS, READ_COUNT, STORES, STORE_COUNT};
use plain::guards::full_range;
use plain::refusal::{self, DONE};
use plain::steps::{RAW, RAW_WITH_WAR, WAW};
use plain::{gather, open, settle, why, Cause};

const CELLS: usize = 8;
const PROGRAMS: usize = 6;
/// The program that is asked about: some are earlier, one is later.
const NUMBER: usize = 4;

/// A settled batch that no call made: one program is carried, the others are committed.
struct MadeUp {
    rule: u8,
    area: Vec<u32>,
}

impl MadeUp {
    /// The program reads and stores these cells, in this order, and is carried for this reason.
    fn carried(rule: u8, reason: u32, reads: &[u32], stores: &[u32]) -> MadeUp {
        let mut area = vec![0; words(CELLS, PROGRAMS)];
        for number in 0..PROGRAMS {
            area[words(CELLS, number) + STATE] = COMMITTED;
        }
        let slot = &mut area[words(CELLS, NUMBER)..words(CELLS, NUMBER + 1)];
        slot[STATE] = CARRIED;
        slot[DETAIL] = reason;
        slot[READ_COUNT] = reads.len() as u32;
        slot[STORE_COUNT] = stores.len() as u32;
        slot[READS..READS + reads.len()].copy_from_slice(reads);
        slot[STORES..STORES + stores.len()].copy_from_slice(stores);
        MadeUp { rule, area }
    }

    /// The write mark of a cell names this program.
    fn stored_by(mut self, cell: usize, number: usize) -> MadeUp {
        self.area[cell] = mark_of(number);
        self
    }

    /// The read mark of a cell names this program.
    fn read_by(mut self, cell: usize, number: usize) -> MadeUp {
        self.area[CELLS + cell] = mark_of(number);
        self
    }

    fn image(&self) -> Vec<u8> {
        image(self.rule, &vec![vec![]; PROGRAMS])
    }

    fn why(&self) -> Cause {
        why(&self.image(), &[0; CELLS], &full_range(CELLS), &self.area, NUMBER)
    }
}

/// A cause of one pair.
fn one_pair(reason: u32, (cell, program): (u32, u32)) -> Cause {
    two_pairs(reason, (cell, program), (0, 0))
}

/// A cause of two pairs: the second is that of WAR.
fn two_pairs(reason: u32, (cell, program): (u32, u32), (war_cell, war_program): (u32, u32)) -> Cause {
    Cause { refusal: DONE, reason, cell, program, war_cell, war_program }
}

#[test]
fn waw_is_the_stored_cell_and_its_writer() {
    let batch = MadeUp::carried(1, WAW, &[], &[3]).stored_by(3, 2);
    assert_eq!(batch.why(), one_pair(WAW, (3, 2)));
}

#[test]
fn raw_is_the_read_cell_and_its_writer() {
    let batch = MadeUp::carried(1, RAW, &[3], &[]).stored_by(3, 2);
    assert_eq!(batch.why(), one_pair(RAW, (3, 2)));
}

#[test]
fn rule_byte_0_means_rule_1() {
    let batch = MadeUp::carried(0, RAW, &[3], &[]).stored_by(3, 2);
    assert_eq!(batch.why(), one_pair(RAW, (3, 2)));
}

#[test]
fn raw_with_war_has_a_pair_for_each() {
    let batch = MadeUp::carried(2, RAW_WITH_WAR, &[3], &[6]).stored_by(3, 2).read_by(6, 2);
    assert_eq!(batch.why(), two_pairs(RAW_WITH_WAR, (3, 2), (6, 2)));
}

#[test]
fn the_two_pairs_can_name_different_cells_and_programs() {
    let batch = MadeUp::carried(2, RAW_WITH_WAR, &[5], &[2]).stored_by(5, 1).read_by(2, 3);
    assert_eq!(batch.why(), two_pairs(RAW_WITH_WAR, (5, 1), (2, 3)));
    let batch = MadeUp::carried(2, RAW_WITH_WAR, &[2], &[5]).stored_by(2, 3).read_by(5, 1);
    assert_eq!(batch.why(), two_pairs(RAW_WITH_WAR, (2, 3), (5, 1)));
}

#[test]
fn the_lowest_cell_by_number_and_not_by_place_in_the_slot() {
    let stored = |batch: MadeUp| batch.stored_by(6, 1).stored_by(2, 1).stored_by(4, 1);
    let read = |batch: MadeUp| batch.read_by(7, 0).read_by(1, 0).read_by(3, 0);
    let waw = stored(MadeUp::carried(1, WAW, &[], &[6, 2, 4]));
    assert_eq!(waw.why(), one_pair(WAW, (2, 1)));
    let raw = stored(MadeUp::carried(1, RAW, &[6, 2, 4], &[]));
    assert_eq!(raw.why(), one_pair(RAW, (2, 1)));
    let both = read(stored(MadeUp::carried(2, RAW_WITH_WAR, &[6, 4, 2], &[7, 3, 1])));
    assert_eq!(both.why(), two_pairs(RAW_WITH_WAR, (2, 1), (1, 0)));
}

#[test]
fn a_lower_cell_that_shows_nothing_is_no_cause() {
    // Cell 0 has no mark, cell 1 is not the program's.
    let batch = MadeUp::carried(1, WAW, &[], &[0, 5]).stored_by(1, 0).stored_by(5, 3);
    assert_eq!(batch.why(), one_pair(WAW, (5, 3)));
    // A read of a cell is no WAW, a store of a cell no RAW.
    let batch = MadeUp::carried(1, WAW, &[0], &[5]).stored_by(0, 1).stored_by(5, 3);
    assert_eq!(batch.why(), one_pair(WAW, (5, 3)));
    let batch = MadeUp::carried(1, RAW, &[5], &[0]).read_by(0, 1).stored_by(5, 3);
    assert_eq!(batch.why(), one_pair(RAW, (5, 3)));
}

#[test]
fn own_mark_is_no_cause() {
    let own = |batch: MadeUp| batch.stored_by(0, NUMBER).read_by(0, NUMBER);
    let waw = own(MadeUp::carried(1, WAW, &[], &[0, 5])).stored_by(5, 3);
    assert_eq!(waw.why(), one_pair(WAW, (5, 3)));
    let raw = own(MadeUp::carried(1, RAW, &[0, 5], &[])).stored_by(5, 3);
    assert_eq!(raw.why(), one_pair(RAW, (5, 3)));
    let both = own(MadeUp::carried(2, RAW_WITH_WAR, &[0, 5], &[0, 6])).stored_by(5, 3).read_by(6, 2);
    assert_eq!(both.why(), two_pairs(RAW_WITH_WAR, (5, 3), (6, 2)));
}

#[test]
fn a_later_programs_mark_is_no_cause() {
    let later = |batch: MadeUp| batch.stored_by(0, NUMBER + 1).read_by(0, NUMBER + 1);
    let batch = later(MadeUp::carried(2, RAW_WITH_WAR, &[0, 5], &[0, 6])).stored_by(5, 3).read_by(6, 2);
    assert_eq!(batch.why(), two_pairs(RAW_WITH_WAR, (5, 3), (6, 2)));
}

/// "The smallest earlier program its marks name": that cell's mark, not the smallest of all cells.
#[test]
fn the_program_named_is_that_of_the_lowest_cells_mark() {
    let waw = MadeUp::carried(1, WAW, &[], &[2, 5]).stored_by(2, 3).stored_by(5, 0);
    assert_eq!(waw.why(), one_pair(WAW, (2, 3)));
    let raw = MadeUp::carried(1, RAW, &[2, 5], &[]).stored_by(2, 3).stored_by(5, 0);
    assert_eq!(raw.why(), one_pair(RAW, (2, 3)));
    let both = MadeUp::carried(2, RAW_WITH_WAR, &[2, 5], &[1, 6]);
    let both = both.stored_by(2, 3).stored_by(5, 0).read_by(1, 2).read_by(6, 0);
    assert_eq!(both.why(), two_pairs(RAW_WITH_WAR, (2, 3), (1, 2)));
}

/// Program 0 stores cell 0: the smallest pair there is, and no pair at all, are both 0, 0.
#[test]
fn cell_0_and_program_0_are_a_pair_like_others() {
    let batch = MadeUp::carried(1, WAW, &[], &[7, 0]).stored_by(0, 0).stored_by(7, 3);
    assert_eq!(batch.why(), one_pair(WAW, (0, 0)));
}

#[test]
fn waw_is_looked_at_before_raw() {
    for rule in [0, 1, 2] {
        let batch = MadeUp::carried(rule, WAW, &[1], &[6]).stored_by(1, 0).stored_by(6, 3);
        assert_eq!(batch.why(), one_pair(WAW, (6, 3)), "rule {rule}");
    }
}

#[test]
fn the_second_pair_is_for_reason_3_alone() {
    let waw = MadeUp::carried(2, WAW, &[1], &[6]).stored_by(1, 1).stored_by(6, 3).read_by(6, 2);
    assert_eq!(waw.why(), one_pair(WAW, (6, 3)));
    let raw = MadeUp::carried(1, RAW, &[1], &[6]).stored_by(1, 1).read_by(6, 2);
    assert_eq!(raw.why(), one_pair(RAW, (1, 1)));
}

#[test]
fn a_cell_that_stands_twice_in_a_slot_is_one_cell() {
    let batch = MadeUp::carried(1, WAW, &[], &[5, 3, 5, 3]).stored_by(5, 1).stored_by(3, 2);
    assert_eq!(batch.why(), one_pair(WAW, (3, 2)));
}

#[test]
fn nothing_lent_is_changed() {
    let batch = MadeUp::carried(2, RAW_WITH_WAR, &[5], &[2]).stored_by(5, 1).read_by(2, 3);
    let (image, table, area) = (batch.image(), vec![7; CELLS], batch.area.clone());
    let guards = full_range(CELLS);
    assert_eq!(why(&image, &table, &guards, &area, NUMBER).refusal, DONE);
    assert!(image == batch.image() && table == [7; CELLS] && area == batch.area);
    assert!(guards == full_range(CELLS));
}

/// A batch that the calls have run to its end, in number order.
fn settled_area(image: &[u8], table: &[u32], guards: &[u32]) -> Vec<u32> {
    let programs = usize::from(image[0]);
    let (mut table, mut area) = (table.to_vec(), vec![0; words(table.len(), programs)]);
    assert_eq!(open(image, &table, guards, &mut area), DONE);
    for number in 0..programs {
        assert_eq!(gather(image, &table, guards, &mut area, number).refusal, DONE);
    }
    for number in 0..programs {
        if area::slot(&area, table.len(), number)[STATE] == GATHERED {
            assert_eq!(settle(image, &mut table, guards, &mut area, number).refusal, DONE);
        }
    }
    area
}

/// The numbers of the carried programs.
fn carried_programs(area: &[u32], cells: usize) -> Vec<usize> {
    let states = area::states(area, cells).enumerate();
    states.filter(|&(_, state)| state == CARRIED).map(|(number, _)| number).collect()
}

/// x, y and z are cells 0, 1 and 2.
#[test]
fn every_carried_program_of_the_bench_sheet() {
    let expected = [
        ("01", 1, one_pair(RAW, (0, 0))),
        ("01", 2, one_pair(WAW, (0, 0))),
        ("02", 2, one_pair(WAW, (0, 0))),
        ("03", 1, one_pair(RAW, (1, 0))),
        ("03", 2, one_pair(RAW, (1, 0))),
        ("05", 2, two_pairs(RAW_WITH_WAR, (1, 0), (2, 1))),
        ("06", 2, one_pair(RAW, (1, 0))),
        ("09", 1, one_pair(WAW, (0, 0))),
        ("09", 2, one_pair(WAW, (1, 1))),
    ];
    let mut told = Vec::new();
    for case in bench_sheet::cases().into_iter().filter(|case| case.expected.is_ok()) {
        let area = settled_area(&case.image, &case.table, &case.guards);
        for number in carried_programs(&area, case.table.len()) {
            told.push((case.name, number, why(&case.image, &case.table, &case.guards, &area, number)));
        }
    }
    assert_eq!(told, expected);
}

/// What a program reads and stores when it runs alone; nothing where it rejects or faults.
struct Run {
    reads: Vec<u32>,
    stores: Vec<u32>,
}

fn own_run(program: &[Instruction], table: &[u32], guards: &[u32]) -> Run {
    let mut area = vec![0; words(table.len(), 1)];
    assert_eq!(gather(&image(1, &[program.to_vec()]), table, guards, &mut area, 0).refusal, DONE);
    let slot = area::slot(&area, table.len(), 0);
    Run { reads: area::reads(slot).to_vec(), stores: area::stores(slot).to_vec() }
}

/// The lowest of these cells that stands in an earlier run's list too, and the first such run.
fn first_met(cells: &[u32], earlier: &[Run], list: impl Fn(&Run) -> &[u32]) -> Option<(u32, u32)> {
    let met = |&cell: &u32| {
        let program = earlier.iter().position(|run| list(run).contains(&cell))?;
        Some((cell, program as u32))
    };
    cells.iter().filter_map(met).min()
}

/// What the runs alone say of a program: its cause, or that it is not carried.
fn cause_by_runs(run: &Run, earlier: &[Run], rule: u8) -> Cause {
    let waw = first_met(&run.stores, earlier, |run| &run.stores);
    let raw = first_met(&run.reads, earlier, |run| &run.stores);
    let war = first_met(&run.stores, earlier, |run| &run.reads);
    match (waw, raw, war) {
        (Some(waw), ..) => one_pair(WAW, waw),
        (_, Some(raw), _) if rule != 2 => one_pair(RAW, raw),
        (_, Some(raw), Some(war)) => two_pairs(RAW_WITH_WAR, raw, war),
        _ => Cause { refusal: refusal::NOT_CARRIED, ..Cause::default() },
    }
}

/// "For a batch made by these calls", it is what the programs' own runs from the opening table show,
/// without any mark. On every second table the runs meet guards.
#[test]
fn the_cause_is_what_the_programs_own_runs_show() {
    let mut told = [0; RAW_WITH_WAR as usize + 1];
    for seed in 0..400 {
        let random = &mut Random::new(seed);
        let (rule, busy_cells) = (random.below(3) as u8, random.between(2, 12));
        let shape = Shape { cells: 12, busy_cells, programs: 10, instructions: 16 };
        let (table, programs) = (random::table(random, shape.cells), random::programs(random, shape));
        let guards = if seed % 2 == 0 { full_range(shape.cells) } else { random::guards(random, &table) };
        let runs: Vec<Run> = programs.iter().map(|program| own_run(program, &table, &guards)).collect();
        let image = image(rule, &programs);
        let area = settled_area(&image, &table, &guards);
        for (number, run) in runs.iter().enumerate() {
            let cause = why(&image, &table, &guards, &area, number);
            assert_eq!(cause, cause_by_runs(run, &runs[..number], rule), "seed {seed}, program {number}");
            told[cause.reason as usize] += 1;
        }
    }
    assert!(told.iter().all(|&times| times > 20), "every reason is told: {told:?}");
}

//! Guarded cells: each sentence of document 02's request 5. What the calls refuse stands in refusals.rs, and
//! what the program `guarded_why` says in explain.rs.

use material::assembler::{end, guarded_input, guards, image, load, set, skipequal, store, sub, R0, R1, R2};
use material::assembler::{two_bytes, Instruction};
use material::bad::{self, WAYS};
use material::bench_sheet::cases;
use material::case::Program;
use material::random::{self, Random, Shape};
use plain::area::{self, words, COMMITTED, FAULTED, GATHERED, SLOT_WORDS};
use plain::bad::{said_of_guarded_input, said_of_image, said_of_input};
use plain::batch::{printed, printed_guarded};
use plain::guards::full_range;
use plain::machine::{FAULT_AT_GUARD, FAULT_AT_LOAD, FAULT_AT_STORE};
use plain::refusal::DONE;
use plain::{gather, open, settle};

const MIN: i32 = i32::MIN;
const MAX: i32 = i32::MAX;
const FULL_RANGE: (i32, i32) = (MIN, MAX);
/// The heater's set point.
const NARROW: (i32, i32) = (-20, 45);
const CLOSED: (i32, i32) = (1, 0);

/// What a program leaves when it is gathered alone: state, detail and the area.
fn gathered(program: &[Instruction], table: &[u32], pairs: &[(i32, i32)]) -> (u32, u32, Vec<u32>) {
    let mut area = vec![0; words(table.len(), 1)];
    let step = gather(&image(1, &[program.to_vec()]), table, &guards(pairs), &mut area, 0);
    assert_eq!(step.refusal, DONE);
    (step.state, step.detail, area)
}

/// State and detail alone.
fn ended(program: &[Instruction], table: &[u32], pairs: &[(i32, i32)]) -> (u32, u32) {
    let (state, detail, _) = gathered(program, table, pairs);
    (state, detail)
}

fn faulted(kind: u32, instruction: u32) -> (u32, u32) {
    (FAULTED, 256 * kind + instruction)
}

/// Whether a value may be stored in a cell under this guard. It is loaded from another cell.
fn may_store(value: i32, pair: (i32, i32)) -> bool {
    let program = [set(R0, 1), load(R1, R0), store(R2, R1)];
    match ended(&program, &[7, value as u32], &[pair, FULL_RANGE]) {
        (GATHERED, 0) => true,
        (state, detail) => {
            assert_eq!((state, detail), faulted(FAULT_AT_GUARD, 2));
            false
        }
    }
}

#[test]
fn both_ends_are_allowed_and_one_beyond_each_is_not() {
    for pair @ (low, high) in [NARROW, (0, 0), (-1, 1), (-300, -200), (70000, 80000), (MIN + 1, MAX - 1)] {
        assert!(may_store(low, pair) && may_store(high, pair), "{pair:?}");
        assert!(!may_store(low - 1, pair) && !may_store(high + 1, pair), "{pair:?}");
    }
}

/// "Read as a signed 32-bit number": 4294967295 is -1, below 0 and above -20.
#[test]
fn the_value_is_read_with_its_sign() {
    assert!(may_store(u32::MAX as i32, NARROW));
    assert!(!may_store(u32::MAX as i32, (0, MAX)));
    assert!(may_store(0x8000_0000u32 as i32, (MIN, -1)));
    assert!(!may_store(0x8000_0000u32 as i32, (0, MAX)));
    assert!(!may_store(0x7fff_ffff, (MIN, -1)));
}

#[test]
fn the_ends_can_be_the_smallest_and_the_largest_number() {
    for value in [MIN, MIN + 1, -1, 0, 1, MAX - 1, MAX] {
        assert!(may_store(value, FULL_RANGE), "{value}");
        assert_eq!(may_store(value, (MIN, MIN)), value == MIN, "{value}");
        assert_eq!(may_store(value, (MAX, MAX)), value == MAX, "{value}");
        assert_eq!(may_store(value, (MIN, 0)), value <= 0, "{value}");
        assert_eq!(may_store(value, (0, MAX)), value >= 0, "{value}");
    }
}

/// "Low above high closes the cell": no value may be stored there, not even one of its ends.
#[test]
fn low_above_high_closes_the_cell() {
    for pair @ (low, high) in [CLOSED, (0, -1), (45, -20), (MAX, MIN), (MIN + 1, MIN), (MAX, MAX - 1)] {
        for value in [low, high, MIN, -1, 0, 1, 7, MAX] {
            assert!(!may_store(value, pair), "{value} under {pair:?}");
        }
    }
}

#[test]
fn a_closed_cell_can_be_loaded() {
    let (state, _, area) = gathered(&[load(R1, R0)], &[7], &[CLOSED]);
    assert_eq!(state, GATHERED);
    assert_eq!(area::reads(area::slot(&area, 1, 0)), [0]);
}

/// "Low then high, cell by cell."
#[test]
fn each_cell_has_its_own_pair() {
    let pairs = [(10, 13), (20, 23), (30, 33)];
    for (cell, (low, high)) in (0..).zip(pairs) {
        for value in 5..40 {
            let store = [set(R0, cell), set(R1, value), store(R0, R1)];
            let allowed = (low..=high).contains(&i32::from(value));
            let expected = if allowed { (GATHERED, 0) } else { faulted(FAULT_AT_GUARD, 2) };
            assert_eq!(ended(&store, &[7; 3], &pairs), expected, "{value} in cell {cell}");
        }
    }
}

/// "A fault of kind 3 at its place": of the first store that breaks a guard, if it is reached.
#[test]
fn the_fault_is_at_the_first_store_that_breaks_a_guard() {
    let (good, bad) = (store(R0, R1), store(R0, R2));
    let at = |body: &[Instruction]| ended(&[&[set(R1, 45), set(R2, 46)], body].concat(), &[5], &[NARROW]);
    assert_eq!(at(&[bad]), faulted(FAULT_AT_GUARD, 2));
    assert_eq!(at(&[good, bad]), faulted(FAULT_AT_GUARD, 3));
    assert_eq!(at(&[bad, good]), faulted(FAULT_AT_GUARD, 2));
    assert_eq!(at(&[skipequal(R0, R0, 1), bad, good]), (GATHERED, 0));
    assert_eq!(at(&[good, end(), bad]), (GATHERED, 0));
    assert_eq!(at(&[good, load(R2, R0), bad]), (GATHERED, 0), "it has loaded what it stored");
}

/// "Kind 2 comes before kind 3": a cell outside the table has no guard.
#[test]
fn outside_the_table_is_kind_2_whatever_the_value() {
    for pair in [CLOSED, FULL_RANGE] {
        for cell in [1, 2, 65535] {
            assert_eq!(ended(&[set(R0, cell), store(R0, R1)], &[7], &[pair]), faulted(FAULT_AT_STORE, 1));
            assert_eq!(ended(&[set(R0, cell), load(R1, R0)], &[7], &[pair]), faulted(FAULT_AT_LOAD, 1));
        }
    }
    let farthest = [set(R1, 1), sub(R0, R0, R1), store(R0, R0)];
    assert_eq!(ended(&farthest, &[7], &[CLOSED]), faulted(FAULT_AT_STORE, 2));
}

/// What was read and stored before the fault is not noted: all other words of slot and marks are 0.
#[test]
fn a_store_that_faults_notes_nothing() {
    let program = [load(R1, R0), store(R0, R1), set(R1, 1), set(R2, 99), store(R1, R2)];
    let (state, detail, area) = gathered(&program, &[5, 6], &[FULL_RANGE, NARROW]);
    assert_eq!((state, detail), faulted(FAULT_AT_GUARD, 4));
    let (marks, slot) = area.split_at(area.len() - SLOT_WORDS);
    assert!(marks.iter().all(|&mark| mark == 0));
    assert_eq!(slot[..2], [state, detail]);
    assert!(slot[2..].iter().all(|&word| word == 0));
}

/// Opening values outside a guard are no fault: only stores are judged.
#[test]
fn an_opening_value_outside_its_guard_is_loaded_and_stays() {
    let lowered_by = |number: u16| vec![load(R1, R0), set(R2, number), sub(R1, R1, R2), store(R0, R1)];
    let end_table = |programs: &[Program]| end_table(programs, &[100], &[NARROW]);
    assert_eq!(end_table(&[]), [100]);
    assert_eq!(end_table(&[vec![load(R1, R0)]]), [100]);
    assert_eq!(end_table(&[lowered_by(0)]), [100], "it may not be stored again");
    assert_eq!(end_table(&[lowered_by(54)]), [100]);
    assert_eq!(end_table(&[lowered_by(55)]), [45]);
    assert_eq!(end_table(&[lowered_by(120)]), [-20i32 as u32]);
    assert_eq!(end_table(&[lowered_by(121)]), [100]);
}

/// The table that a batch ends with, gathered and settled in number order.
fn end_table(programs: &[Program], table: &[u32], pairs: &[(i32, i32)]) -> Vec<u32> {
    let (image, guards) = (image(2, programs), guards(pairs));
    let (mut table, mut area) = (table.to_vec(), vec![9; words(table.len(), programs.len())]);
    assert_eq!(open(&image, &table, &guards, &mut area), DONE);
    let steps: Vec<_> =
        (0..programs.len()).map(|number| gather(&image, &table, &guards, &mut area, number)).collect();
    for (number, step) in steps.iter().enumerate().filter(|(_, step)| step.state == GATHERED) {
        assert_eq!(settle(&image, &mut table, &guards, &mut area, number).refusal, DONE, "{step:?}");
    }
    table
}

/// Settling goes by slot and marks: what a slot that no call made stores is held to no guard.
#[test]
fn a_store_is_judged_when_it_is_gathered_and_not_when_it_is_settled() {
    let image = image(1, &[vec![set(R1, 99), store(R0, R1)]]);
    let (mut table, mut area) = (vec![5], vec![0; words(1, 1)]);
    assert_eq!(gather(&image, &table, &full_range(1), &mut area, 0).state, GATHERED);
    let step = settle(&image, &mut table, &guards(&[CLOSED]), &mut area, 0);
    assert_eq!((step.state, table), (COMMITTED, vec![99]));
}

/// After the batch every cell that some committed program stores is within its guard, and every other one
/// is as it was.
#[test]
fn a_batch_stores_nothing_outside_a_guard() {
    let mut changed = 0;
    for seed in 0..400 {
        let random = &mut Random::new(seed);
        let shape = Shape { cells: 8, busy_cells: 6, programs: 10, instructions: 16 };
        let (table, programs) = (random::table(random, shape.cells), random::programs(random, shape));
        let list = random::guards(random, &table);
        let pairs: Vec<(i32, i32)> = list.chunks(2).map(|pair| (pair[0] as i32, pair[1] as i32)).collect();
        let end = end_table(&programs, &table, &pairs);
        for ((was, is), (low, high)) in table.iter().zip(end).zip(pairs) {
            assert!(*was == is || (low..=high).contains(&(is as i32)), "seed {seed}");
            changed += u32::from(*was != is && (low, high) != FULL_RANGE);
        }
    }
    assert!(changed > 200, "narrow guards let some stores through: {changed}");
}

/// "The batch program lends the full range."
#[test]
fn under_the_full_range_nothing_faults_at_a_guard() {
    assert_eq!(full_range(2), [0x8000_0000, 0x7fff_ffff, 0x8000_0000, 0x7fff_ffff]);
    for value in [0, 1, 0x7fff_ffff, 0x8000_0000, u32::MAX] {
        assert_eq!(
            end_table(&[vec![set(R0, 1), load(R1, R0), store(R2, R1)]], &[7, value], &[FULL_RANGE; 2])[0],
            value
        );
    }
}

// What the program `guarded` reads.

#[test]
fn too_few_bytes_for_the_cells_are_5_and_for_the_pairs_14() {
    let with_size = |cells: usize, bytes: usize| [&two_bytes(cells)[..], &vec![1; bytes]].concat();
    for cells in [1, 2, 3, 256] {
        for (bytes, line) in [
            (0, "refused 5\n"),
            (4 * cells - 1, "refused 5\n"),
            (4 * cells, "refused 14\n"),
            (4 * cells + 1, "refused 14\n"),
            (12 * cells - 1, "refused 14\n"),
            (12 * cells, "refused 1\n"),
        ] {
            assert_eq!(printed_guarded(&with_size(cells, bytes)), line, "{cells} cells, {bytes} bytes");
        }
    }
    for input in [vec![], vec![1], with_size(0, 5000), with_size(257, 5000)] {
        assert_eq!(printed_guarded(&input), "refused 5\n");
    }
}

/// The prefix is judged before the image, also where an instruction is bad, and then nothing is said of it.
#[test]
fn short_guards_are_refused_before_the_image_is_read() {
    let bad = image(1, &[vec![[9, 0, 0, 0]]]);
    let whole = guarded_input(&[1, 2, 3], &full_range(3), &bad);
    assert_eq!(printed_guarded(&whole), "refused 41\n");
    assert_eq!(said_of_guarded_input(&whole), said_of_image(&bad));
    let without_guards = guarded_input(&[1, 2, 3], &[], &bad);
    assert_eq!(printed(&without_guards), "refused 41\n");
    assert_eq!(said_of_input(&without_guards), said_of_image(&bad));
    assert_eq!(printed_guarded(&without_guards), "refused 14\n");
    assert_eq!(said_of_guarded_input(&without_guards), "");
}

#[test]
fn a_bad_instruction_behind_guards_is_told_as_it_is_behind_cells() {
    for way in WAYS {
        let image = image(1, &[vec![end()], vec![end(), bad::instructions(way, 0)[0]]]);
        let input = guarded_input(&[1, 2], &guards(&[CLOSED; 2]), &image);
        assert_eq!(printed_guarded(&input), format!("refused {}\n", way.number));
        assert_eq!(said_of_guarded_input(&input), said_of_image(&image));
    }
}

#[test]
fn every_case_prints_the_same_behind_the_full_range() {
    for case in cases() {
        let guarded = guarded_input(&case.table, &full_range(case.table.len()), &case.image);
        assert_eq!(printed_guarded(&guarded), printed(&guarded_input(&case.table, &[], &case.image)));
    }
}

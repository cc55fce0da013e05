//! Inputs at the limits: as few and as many programs, instructions and cells as there can be, and
//! every instruction where it only just does, or only just does not.

use material::assembler::{add, end, image, input, load, reject, set, skipequal, skipless, store, sub};
use material::assembler::{Instruction, R0, R1, R2, R3, R4, R5, R6, R7};
use material::random::{self, Random, Shape};
use plain::area::CELLS;
use plain::image::{INSTRUCTIONS, LONGEST, PROGRAMS};

type Program = Vec<Instruction>;

pub fn inputs() -> Vec<Vec<u8>> {
    let parts = [
        no_programs(),
        most_programs(),
        longest_images(),
        chains(),
        table_ends(),
        instructions(),
        logs(),
        rules(),
    ];
    parts.concat()
}

/// 0 programs, under each rule byte, on the smallest and the largest table.
fn no_programs() -> Vec<Vec<u8>> {
    let batches = [(0, 1), (1, 1), (2, 3), (0, CELLS)];
    batches.iter().map(|&(rule, cells)| input(&counting(cells), &image(rule, &[]))).collect()
}

/// 64 programs: empty ones, ones that all store one cell, ones that all load one cell, and ones
/// that only end, reject or fault.
fn most_programs() -> Vec<Vec<u8>> {
    let all = |program: Program| vec![program; PROGRAMS];
    let mixed = [vec![end()], vec![reject(1)], vec![set(R0, 1), load(R0, R0)]];
    let batches = [
        (0, all(vec![])),
        (1, all(vec![store(R0, R0)])),
        (2, all(vec![store(R0, R0)])),
        (1, all(vec![load(R1, R0)])),
        (2, all(vec![load(R1, R0), store(R0, R1)])),
        (0, mixed.iter().cycle().take(PROGRAMS).cloned().collect()),
    ];
    batches.iter().map(|(rule, programs)| input(&[7], &image(*rule, programs))).collect()
}

/// Images of 8326 bytes: 64 programs of 32 instructions.
fn longest_images() -> Vec<Vec<u8>> {
    let mut random = Random::new(2);
    let mut inputs = Vec::new();
    for (rule, cells) in [(0, CELLS), (1, 40), (2, CELLS), (2, 9)] {
        let shape = Shape { cells, busy_cells: cells, programs: PROGRAMS, instructions: INSTRUCTIONS };
        let program = |_| random::program_of_length(&mut random, shape, INSTRUCTIONS);
        let programs: Vec<Program> = (0..PROGRAMS).map(program).collect();
        let image = image(rule, &programs);
        assert_eq!(image.len(), LONGEST);
        inputs.push(input(&random::table(&mut random, cells), &image));
    }
    inputs
}

/// Program i stores cell i and reads its neighbour's: the listed order rises, falls or has a knot
/// that the rules cut.
fn chains() -> Vec<Vec<u8>> {
    let copy =
        |to: usize, from: usize| vec![set(R0, from as u16), load(R1, R0), set(R2, to as u16), store(R2, R1)];
    let reads_next: Vec<Program> = (0..PROGRAMS).map(|cell| copy(cell, (cell + 1) % PROGRAMS)).collect();
    let reads_last: Vec<Program> =
        (0..PROGRAMS).map(|cell| copy(cell, (cell + PROGRAMS - 1) % PROGRAMS)).collect();
    let swaps: Vec<Program> = (0..PROGRAMS).map(|cell| copy(cell, cell ^ 1)).collect();
    let mut inputs = Vec::new();
    for programs in [reads_next, reads_last, swaps] {
        for rule in [1, 2] {
            inputs.push(input(&counting(PROGRAMS), &image(rule, &programs)));
        }
    }
    inputs
}

/// The last cell is there, the next one is not: T = 1, 2, 255, 256, at a load and at a store.
fn table_ends() -> Vec<Vec<u8>> {
    let reach =
        |cell: usize| [vec![set(R0, cell as u16), load(R1, R0)], vec![set(R0, cell as u16), store(R0, R0)]];
    let mut inputs = Vec::new();
    for cells in [1, 2, CELLS - 1, CELLS] {
        let programs = [reach(cells - 1), reach(cells), reach(65535)].concat();
        inputs.push(input(&counting(cells), &image(2, &programs)));
    }
    // The largest cell number of all, and a fault at the last of 32 instructions.
    let mut late = vec![add(R2, R2, R2); INSTRUCTIONS - 3];
    late.extend([set(R1, 1), sub(R0, R0, R1)]);
    let stops_last = |last: Instruction| [&late[..], &[last]].concat();
    let programs = [stops_last(load(R3, R0)), stops_last(store(R0, R3)), stops_last(reject(255))];
    inputs.push(input(&[1, 2, 3], &image(0, &programs)));
    inputs
}

/// Each instruction at its limits. A program stores what it found in x, y and z.
fn instructions() -> Vec<Vec<u8>> {
    let show = |found: &[Instruction]| {
        let cells = [set(R0, 0), store(R0, R5), set(R0, 1), store(R0, R6), set(R0, 2), store(R0, R7)];
        [found, &cells].concat()
    };
    let far_skip = |skip: Instruction| [&[set(R1, 1), skip][..], &[store(R0, R1); INSTRUCTIONS - 2]].concat();
    let programs: Vec<Program> = vec![
        vec![],
        vec![end()],
        // What stands behind an end is good, and never reached.
        vec![end(), reject(1), store(R0, R0)],
        show(&[set(R5, 0), set(R6, 255), set(R7, 256)]),
        show(&[set(R5, 65535), set(R6, 65280), set(R7, 1), set(R7, 2)]),
        // 4294967295 + 1, 0 − 1, 0 − 4294967295.
        show(&[set(R1, 1), sub(R6, R0, R1), add(R5, R6, R1), sub(R7, R0, R6)]),
        // One register in all three places.
        show(&[set(R5, 3), add(R5, R5, R5), add(R6, R5, R5), sub(R6, R6, R6), add(R7, R5, R6)]),
        // 0 < 4294967295: no register is negative.
        show(&[
            set(R1, 1),
            sub(R2, R0, R1),
            skipless(R0, R2, 1),
            set(R5, 9),
            skipless(R2, R0, 1),
            set(R6, 9),
        ]),
        // Equal ones are not less.
        show(&[set(R1, 1), set(R2, 1), skipless(R1, R2, 1), set(R5, 9), skipequal(R1, R2, 1), set(R6, 9)]),
        // A skip of nothing, taken and not taken.
        show(&[set(R1, 1), skipless(R0, R1, 0), set(R5, 8), skipequal(R0, R1, 0), set(R6, 8)]),
        // A skip that lands on a skip.
        show(&[skipequal(R0, R1, 2), set(R5, 7), reject(3), skipequal(R0, R1, 1), reject(4), set(R6, 7)]),
        // A skip from the second instruction to the end, taken and not taken.
        far_skip(skipless(R0, R1, INSTRUCTIONS as u8 - 2)),
        far_skip(skipequal(R0, R1, INSTRUCTIONS as u8 - 2)),
        // A skip at the last instruction, over nothing.
        vec![store(R0, R0), skipequal(R0, R0, 0)],
        vec![skipless(R7, R7, 0)],
        vec![reject(0)],
        vec![reject(255)],
        // A reject or a fault after a store undoes the store.
        vec![set(R1, 5), store(R0, R1), reject(9)],
        vec![set(R1, 5), store(R0, R1), load(R2, R1)],
        vec![set(R1, 5), store(R0, R1), store(R1, R1)],
    ];
    programs.iter().map(|program| input(&[11, 12, 13], &image(1, &[program.clone()]))).collect()
}

/// What a program notes of itself, told by a second program that meets it.
fn logs() -> Vec<Vec<u8>> {
    // Follows the table through 32 cells: 32 reads in 32 instructions.
    let follow = vec![load(R0, R0); INSTRUCTIONS];
    // Stores 16 cells in 32 instructions.
    let store_16: Program = (0..16).flat_map(|cell| [set(R0, cell), store(R0, R0)]).collect();
    // Follows the table and stores 0 behind itself: 10 reads, 10 stores.
    let follow_and_store = [load(R1, R0), store(R0, R7), add(R0, R1, R7)].repeat(10);
    // Loads what it has stored: no read, so no RAW for it and no WAR for others.
    let own_store = vec![set(R1, 6), store(R0, R1), load(R2, R0), set(R3, 1), store(R3, R2)];
    // The last store counts.
    let twice = vec![set(R1, 6), store(R0, R1), set(R2, 1), store(R2, R1), set(R1, 7), store(R0, R1)];
    // A read, then a store, then a load of the same cell: one read, the stored value.
    let read_then_store =
        vec![load(R1, R0), store(R0, R7), load(R2, R0), set(R3, 1), store(R3, R1), store(R3, R2)];
    let next_cell: Vec<u32> = (1..=40).collect();
    let batches: [(u8, &[u32], Vec<Program>); 8] = [
        (2, &next_cell, vec![follow.clone(), store_16.clone()]),
        (1, &next_cell, vec![store_16.clone(), follow.clone()]),
        (2, &next_cell, vec![store_16, follow.clone()]),
        (2, &next_cell, vec![follow_and_store, follow]),
        (1, &[1, 2], vec![own_store.clone(), own_store.clone()]),
        (2, &[1, 2, 3], vec![vec![set(R0, 2), store(R0, R1)], own_store, vec![load(R4, R0)]]),
        (1, &[1, 2], vec![twice]),
        (2, &[1, 2], vec![read_then_store]),
    ];
    batches.iter().map(|(rule, table, programs)| input(table, &image(*rule, programs))).collect()
}

/// The same programs under rule bytes 0, 1 and 2: WAW first, then RAW, then RAW with WAR.
fn rules() -> Vec<Vec<u8>> {
    let [x, y, z] = [R0, R1, R2];
    let cells = [set(y, 1), set(z, 2)];
    let program = |body: &[Instruction]| [&cells[..], body].concat();
    let all_three = [
        program(&[load(R3, x), store(y, R3)]),
        // RAW and own read of what it stores: no WAR.
        program(&[load(R3, y), load(R4, z), store(z, R3)]),
        // RAW with WAR.
        program(&[load(R3, y), store(x, R3)]),
        // WAW, RAW and WAR at once: WAW is looked at first.
        program(&[load(R3, z), load(R4, y), store(y, R3)]),
        // WAR alone.
        program(&[store(x, R0)]),
        // RAW alone, from several programs.
        program(&[load(R3, x), load(R4, y), load(R5, z)]),
    ];
    // The second program is carried for WAW; its read of z and its store of y still stand, so that
    // the third has RAW with WAR and the fourth has WAW.
    let marks_of_carried_stay = [
        program(&[store(x, R7)]),
        program(&[load(R3, z), store(x, R3), store(y, R3)]),
        program(&[load(R3, x), store(z, R3)]),
        program(&[store(y, R7)]),
    ];
    let mut inputs = Vec::new();
    for programs in [&all_three[..], &marks_of_carried_stay] {
        inputs.extend([0, 1, 2].map(|rule| input(&[5, 6, 7], &image(rule, programs))));
    }
    inputs
}

/// Cells that hold 1, 2, 3 and so on.
fn counting(cells: usize) -> Vec<u32> {
    (1..=cells as u32).collect()
}

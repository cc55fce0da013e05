//! Guarded inputs, which the programs `guarded` and `guarded_why` read: each sentence of document 02's
//! request 5, random batches whose programs meet guards, and damaged inputs.

use crate::damaged;
use material::assembler::{add, end, guarded_input, guards, image, load, reject, set, skipequal, store, sub};
use material::assembler::{two_bytes, Instruction, R0, R1, R2, R3, R4, R7};
use material::bad::{self, WAYS};
use material::case::Program;
use material::heater::heater;
use material::random::{self, programs, table, Random, Shape};
use plain::area::CELLS;
use plain::image::{INSTRUCTIONS, LONGEST, PROGRAMS};

const MIN: i32 = i32::MIN;
const MAX: i32 = i32::MAX;
const FULL_RANGE: (i32, i32) = (MIN, MAX);
const CLOSED: (i32, i32) = (1, 0);
/// The heater's.
const NARROW: (i32, i32) = (-20, 45);

const RANDOM: usize = 50;
const CHANGED: usize = 30;

pub fn inputs() -> Vec<Vec<u8>> {
    let sentences = [ends(), every_cell_its_own(), kinds(), opening_values(), faulted_slots(), places()];
    let damaged = [prefixes(), bad_images(), changed(), damaged::cut(random_batches(), 7)];
    let good = [vec![heater_input()], sentences.concat(), random_batches(), vec![longest()]];
    [good.concat(), damaged.concat()].concat()
}

/// "Below low or above high": both ends, one beyond each, and the values at which a comparison without sign
/// would answer otherwise. "Low above high closes the cell."
fn ends() -> Vec<Vec<u8>> {
    let pairs = [
        NARROW,
        FULL_RANGE,
        (0, 0),
        (-1, -1),
        (-1, 0),
        (0, 1),
        (MIN, 0),
        (0, MAX),
        (MIN, -1),
        (MIN, MIN),
        (MAX, MAX),
        (MIN, MIN + 1),
        (MAX - 1, MAX),
        (MIN + 1, MAX - 1),
        (-300, -200),
        (70000, 80000),
        CLOSED,
        (0, -1),
        (MAX, MIN),
        (MIN + 1, MIN),
        (MAX, MAX - 1),
        (45, -20),
    ];
    pairs.iter().map(|&pair| stored_under(pair)).collect()
}

/// Values around both ends and around 0, each stored in a cell of its own under the same guard.
fn stored_under((low, high): (i32, i32)) -> Vec<u8> {
    let around = |value: i32| [value.wrapping_sub(1), value, value.wrapping_add(1)];
    let mut values: Vec<i32> = [low, high, 0].into_iter().flat_map(around).chain([MIN, MAX]).collect();
    values.sort();
    values.dedup();
    each_copied(&values.iter().map(|&value| (value, (low, high))).collect::<Vec<_>>())
}

/// A program for each of these values: cell i is guarded so, and program i stores the value there. It
/// loads it from behind these cells, where the full range is.
fn each_copied(stores: &[(i32, (i32, i32))]) -> Vec<u8> {
    let count = stores.len();
    let values = stores.iter().map(|&(value, _)| value as u32);
    let table: Vec<u32> = std::iter::repeat(7).take(count).chain(values).collect();
    let mut pairs: Vec<(i32, i32)> = stores.iter().map(|&(_, pair)| pair).collect();
    pairs.resize(table.len(), FULL_RANGE);
    let programs: Vec<Program> = (0..count).map(|cell| copy(cell, count + cell)).collect();
    guarded_input(&table, &guards(&pairs), &image(2, &programs))
}

/// to = from.
fn copy(to: usize, from: usize) -> Program {
    vec![set(R0, from as u16), load(R1, R0), set(R2, to as u16), store(R2, R1)]
}

/// "Low then high, cell by cell": each cell has another guard, on small tables and on the largest. Where
/// two were mixed up, another program would fault.
fn every_cell_its_own() -> Vec<Vec<u8>> {
    let own = |cell: i32| (10 * cell, 10 * cell + 3);
    let stored = |count: i32, beyond: i32| {
        each_copied(
            &(0..count).map(|cell| (own(cell).0 + (cell + beyond) % 5, own(cell))).collect::<Vec<_>>(),
        )
    };
    let most = PROGRAMS as i32;
    let mut inputs: Vec<Vec<u8>> = (0..5).map(|beyond| stored(6, beyond)).collect();
    inputs.extend([stored(1, 0), stored(1, 4), stored(most, 2)]);
    // The last cell of the largest table alone is narrow, and then alone is not.
    for (last, others) in [(NARROW, FULL_RANGE), (FULL_RANGE, CLOSED)] {
        let mut pairs = vec![others; CELLS];
        pairs[CELLS - 1] = last;
        let programs = [set_to(CELLS - 1, 45), set_to(CELLS - 1, 46), set_to(CELLS - 2, 46)];
        inputs.push(guarded_input(&[7; CELLS], &guards(&pairs), &image(2, &programs)));
    }
    inputs
}

/// Cell = number.
fn set_to(cell: usize, number: u16) -> Program {
    vec![set(R0, cell as u16), set(R1, number), store(R0, R1)]
}

/// "Kind 2 comes before kind 3": a cell outside the table has no guard, also where every guard is closed.
/// A load is of kind 1, and is held to no guard.
fn kinds() -> Vec<Vec<u8>> {
    let reach = |cell: u16| {
        [
            vec![set(R0, cell), load(R1, R0)],
            vec![set(R0, cell), store(R0, R0)],
            vec![set(R0, cell), store(R0, R1)],
        ]
    };
    // The largest cell number of all.
    let farthest = [set(R1, 1), sub(R0, R0, R1)];
    let far = |last: Instruction| [&farthest[..], &[last]].concat();
    let mut inputs = Vec::new();
    for cells in [1, 2, 3, CELLS] {
        let mut programs = [reach(0), reach(cells as u16 - 1), reach(cells as u16), reach(65535)].concat();
        programs.extend([far(load(R2, R0)), far(store(R0, R0))]);
        for pair in [CLOSED, FULL_RANGE, (1, 2)] {
            let table: Vec<u32> = (10..10 + cells as u32).collect();
            inputs.push(guarded_input(&table, &guards(&vec![pair; cells]), &image(1, &programs)));
        }
    }
    inputs
}

/// An opening value outside its guard is no fault: it is loaded like any other, and stays where no program
/// stores. It may not be stored again.
fn opening_values() -> Vec<Vec<u8>> {
    let lowered_by = |number: u16| vec![load(R1, R0), set(R2, number), sub(R1, R1, R2), store(R0, R1)];
    let batches: [&[Program]; 8] = [
        &[],
        &[vec![]],
        &[vec![load(R1, R0)]],
        &[copy(1, 0)],
        &[copy(0, 0)],
        &[lowered_by(54)],
        &[lowered_by(55), copy(1, 0)],
        &[lowered_by(120), lowered_by(121), lowered_by(60)],
    ];
    let list = guards(&[NARROW, FULL_RANGE]);
    let mut inputs: Vec<Vec<u8>> =
        batches.iter().map(|programs| guarded_input(&[100, 9], &list, &image(2, programs))).collect();
    // A closed cell, and one whose opening value is below its low end.
    let table = [100, 4294967200];
    let programs = [copy(0, 1), copy(1, 0), copy(1, 1), vec![load(R1, R0), set(R2, 1), load(R3, R2)]];
    inputs.push(guarded_input(&table, &guards(&[CLOSED, NARROW]), &image(1, &programs)));
    inputs
}

/// "A rejected or faulted slot has only state and detail": what a program has read and stored before it
/// faults at a guard leaves no mark and no store, so the others commit, in either number order.
fn faulted_slots() -> Vec<Vec<u8>> {
    let faults = vec![set(R1, 1), load(R2, R1), store(R0, R1), set(R3, 2), set(R4, 99), store(R3, R4)];
    let others = [copy(1, 0), set_to(0, 5), copy(0, 1)];
    let list = guards(&[FULL_RANGE, FULL_RANGE, NARROW]);
    let batch = |rule: u8, programs: &[Program]| guarded_input(&[1, 2, 3], &list, &image(rule, programs));
    let mut inputs = Vec::new();
    for rule in [0, 1, 2] {
        for other in &others {
            inputs.push(batch(rule, &[faults.clone(), other.clone()]));
            inputs.push(batch(rule, &[other.clone(), faults.clone()]));
        }
        inputs.push(batch(rule, &[&[faults.clone()][..], &others].concat()));
    }
    inputs
}

/// "At its place": the first store that breaks a guard, wherever it stands. One that is not reached, or
/// stands behind an end or a reject, is none; a good store behind a bad one comes too late.
fn places() -> Vec<Vec<u8>> {
    let ready = [set(R1, 45), set(R2, 46)];
    let (good, bad) = (store(R0, R1), store(R0, R2));
    let program = |body: &[Instruction]| [&ready[..], body].concat();
    let mut late = program(&[add(R3, R3, R3); INSTRUCTIONS - 3]);
    late.push(bad);
    let programs = [
        program(&[bad]),
        program(&[good, bad]),
        program(&[bad, good]),
        program(&[good, good, bad, bad]),
        program(&[skipequal(R0, R0, 1), bad, good]),
        program(&[skipequal(R0, R1, 1), bad, good]),
        program(&[end(), bad]),
        program(&[reject(3), bad]),
        program(&[bad, reject(3)]),
        program(&[good, load(R3, R0), store(R0, R3)]),
        late,
        // 46 by a sum, and 45 again.
        program(&[set(R3, 1), add(R1, R1, R3), store(R0, R1)]),
        program(&[set(R3, 1), sub(R2, R2, R3), store(R0, R2)]),
        // Nothing was set: 0.
        vec![store(R0, R7)],
        // 0 − 20, and 0 − 21.
        vec![set(R1, 20), sub(R1, R2, R1), store(R0, R1)],
        vec![set(R1, 21), sub(R1, R2, R1), store(R0, R1)],
    ];
    programs.iter().map(|body| guarded_input(&[5], &guards(&[NARROW]), &image(1, &[body.clone()]))).collect()
}

/// Random batches whose programs meet guards, under every rule byte.
fn random_batches() -> Vec<Vec<u8>> {
    let mut random = Random::new(5);
    (0..RANDOM).map(|number| random_batch(&mut random, (number % 3) as u8)).collect()
}

fn random_batch(random: &mut Random, rule: u8) -> Vec<u8> {
    let cells = random.between(1, 12);
    let shape = Shape {
        cells,
        busy_cells: random.between(1, cells),
        programs: random.between(1, 10),
        instructions: random.between(4, 20),
    };
    let table = table(random, cells);
    let guards = random::guards(random, &table);
    guarded_input(&table, &guards, &image(rule, &programs(random, shape)))
}

/// As long as an input can be: 256 cells with their guards, and an image of 8326 bytes.
fn longest() -> Vec<u8> {
    let mut random = Random::new(8);
    let shape = Shape { cells: CELLS, busy_cells: CELLS, programs: PROGRAMS, instructions: INSTRUCTIONS };
    let program = |_| random::program_of_length(&mut random, shape, INSTRUCTIONS);
    let image = image(2, &(0..PROGRAMS).map(program).collect::<Vec<Program>>());
    assert_eq!(image.len(), LONGEST);
    let table = table(&mut random, CELLS);
    guarded_input(&table, &random::guards(&mut random, &table), &image)
}

/// Fewer bytes than the cells need, or T outside 1 to 256: refused 5. Fewer than the pairs need: refused
/// 14, whatever would follow. Behind the pairs no image: refused 1.
fn prefixes() -> Vec<Vec<u8>> {
    let with_size = |cells: usize, bytes: usize| [&two_bytes(cells)[..], &vec![1; bytes]].concat();
    let mut inputs = vec![vec![], vec![3]];
    for cells in [1, 2, 3, CELLS] {
        for bytes in [0, 4 * cells - 1, 4 * cells, 4 * cells + 1, 8 * cells, 12 * cells - 1, 12 * cells] {
            inputs.push(with_size(cells, bytes));
        }
    }
    for cells in [0, CELLS + 1, 512, 65535] {
        inputs.push(with_size(cells, 12 * (CELLS + 1)));
    }
    // What `batch` would take: the image is then read as guards, and is too short for them or is not.
    let unguarded = |cells: usize| guarded_input(&vec![1; cells], &[], &image(1, &[vec![end(); 5]]));
    inputs.extend([unguarded(3), unguarded(4), unguarded(1)]);
    inputs
}

/// An image that is refused, behind guards: whether these are closed or of the full range makes no difference.
fn bad_images() -> Vec<Vec<u8>> {
    let good = image(1, &[vec![end()]]);
    let changed = |place: usize, byte: u8| {
        let mut image = good.clone();
        image[place] = byte;
        image
    };
    let mut images = vec![good[..5].to_vec(), changed(0, 65), changed(3, 1), changed(4, 0), changed(6, 16)];
    images.extend(WAYS.map(|way| image(1, &[vec![end()], vec![end(), bad::instructions(way, 0)[0]]])));
    images.push([good.clone(), vec![0]].concat());
    let mut inputs = Vec::new();
    for pair in [CLOSED, FULL_RANGE] {
        inputs.extend(images.iter().map(|image| guarded_input(&[1, 2], &guards(&[pair; 2]), image)));
    }
    inputs
}

/// Good inputs with one to three bytes changed: of the table, of the guards or of the image. Most stay good.
fn changed() -> Vec<Vec<u8>> {
    let mut random = Random::new(6);
    let goods = [random_batches(), vec![heater_input()]].concat();
    let mut inputs = Vec::new();
    while inputs.len() < CHANGED {
        let mut input = goods[random.below(goods.len())].clone();
        for _ in 0..random.between(1, 3) {
            damaged::change_a_byte(&mut random, &mut input, 2);
        }
        inputs.push(input);
    }
    inputs
}

fn heater_input() -> Vec<u8> {
    let heater = heater();
    guarded_input(&heater.table, &heater.guards, &heater.image)
}

//! Damaged inputs: every refusal that the batch program can print, in every way to earn it, and
//! good inputs with bytes changed, cut off or added.

use crate::good;
use material::assembler::{add, end, image, input, load, set, skipless, store, two_bytes, R0, R1};
use material::bad::{self, following, good_programs, places, replaced, Place, WAYS};
use material::case::Program;
use material::random::Random;
use plain::image::{INSTRUCTIONS, LONGEST, PROGRAMS};
use plain::Refusal;

const TABLE: [u32; 3] = [1, 2, 3];
const CHANGED: usize = 60;
const CUT: usize = 20;

pub fn inputs() -> Vec<Vec<u8>> {
    let instructions = [bad_instructions(), bad_places(), two_bad_instructions()].concat();
    let earned = [prefixes(), sizes(), headers(), offsets(), instructions, first_row_decides()];
    [earned.concat(), changed(), cut(good_and_short(), 4)].concat()
}

/// "Fewer bytes than that prefix needs, or T outside 1 to 256": refused 5. A prefix with no image
/// behind it: refused 1.
fn prefixes() -> Vec<Vec<u8>> {
    let good = image(0, &[]);
    let with_size = |cells: usize, bytes: usize| [&two_bytes(cells)[..], &vec![1; bytes]].concat();
    let mut inputs = vec![vec![], vec![3]];
    for (cells, bytes) in
        [(1, 0), (1, 3), (1, 4), (2, 7), (3, 11), (3, 12), (256, 0), (256, 1023), (256, 1024)]
    {
        inputs.push(with_size(cells, bytes));
    }
    for cells in [0, 257, 512, 65535] {
        inputs.push([with_size(cells, 40), good.clone()].concat());
    }
    inputs.push([with_size(257, 4 * 257), good].concat());
    inputs
}

/// "Image under 6 or over 8326 bytes": 1.
fn sizes() -> Vec<Vec<u8>> {
    let longest = image(1, &vec![vec![end(); INSTRUCTIONS]; PROGRAMS]);
    assert_eq!(longest.len(), LONGEST);
    let mut images: Vec<Vec<u8>> = (1..6).map(|length| image(0, &[])[..length].to_vec()).collect();
    for surplus in [1, 4, 1000] {
        images.push([&longest[..], &vec![0; surplus]].concat());
    }
    behind_table(images)
}

/// "Count over 64, rule over 2, or byte 3 not 0": 2.
fn headers() -> Vec<Vec<u8>> {
    let mut images = Vec::new();
    for (place, byte) in [(0, 65), (0, 255), (1, 1), (1, 255), (2, 3), (2, 255), (3, 1), (3, 255)] {
        for mut image in [image(0, &[]), two_programs()] {
            image[place] = byte;
            images.push(image);
        }
    }
    images.push(image(1, &vec![vec![]; PROGRAMS + 1]));
    behind_table(images)
}

/// "Image under 2n+6 bytes, or an offset rule broken": 3.
fn offsets() -> Vec<Vec<u8>> {
    let mut images = Vec::new();
    // Cut within the offsets.
    for length in [6, 7, 8, 9] {
        images.push(two_programs()[..length].to_vec());
    }
    images.push(image(0, &vec![vec![]; PROGRAMS])[..2 * PROGRAMS + 5].to_vec());
    // Offsets 0, 1 and 2 of the image stand at bytes 4, 6 and 8; they are 10, 18 and 22.
    #[rustfmt::skip]
    let moved = [
        (4, 0), (4, 6), (4, 9), (4, 11), (4, 14), (4, 18),
        (6, 0), (6, 9), (6, 10), (6, 17), (6, 19), (6, 20), (6, 22), (6, 26), (6, 65535),
        (8, 0), (8, 18), (8, 21), (8, 23), (8, 26), (8, 65535),
    ];
    for (place, offset) in moved {
        let mut image = two_programs();
        image[place..place + 2].copy_from_slice(&two_bytes(offset));
        images.push(image);
    }
    // Lengths 1, 2 and 3 more than a multiple of 4, and one instruction too many.
    for surplus in 1..4 {
        let mut image = [image(0, &[vec![end()]]), vec![0; surplus]].concat();
        image[6] += surplus as u8;
        images.push(image);
    }
    images.push(image(0, &[vec![end(); INSTRUCTIONS + 1]]));
    images.push(image(0, &[vec![], vec![end(); INSTRUCTIONS + 1], vec![]]));
    // Trailing bytes, and bytes missing at the end.
    for surplus in 1..=4 {
        images.push([two_programs(), vec![0; surplus]].concat());
        images.push(two_programs()[..22 - surplus].to_vec());
    }
    behind_table(images)
}

/// "41 unknown operation, 42 register over 7, 43 an unused byte not 0, 44 skip past the end", in every
/// way to earn them, and in several ways at once. Each stands last in the second of three programs.
fn bad_instructions() -> Vec<Vec<u8>> {
    let bad = WAYS.iter().flat_map(|&way| bad::instructions(way, 0));
    let last = |instruction| image(1, &[vec![end()], vec![end(), instruction], vec![end()]]);
    let mut images: Vec<Vec<u8>> = bad.map(last).collect();
    // In a first program of one instruction, behind a full program, and a skip that would land in the
    // next program.
    images.push(image(1, &[vec![[9, 0, 0, 0]], vec![end()]]));
    images.push(image(1, &[vec![end(); INSTRUCTIONS], vec![add(R0, R0, R0), [4, 0, 0, 8]]]));
    images.push(image(1, &[vec![set(R1, 1), skipless(R0, R1, 1)], vec![end(), end()]]));
    behind_table(images)
}

/// The same programs with an instruction at a place that is bad in this way. Which of those that are, the
/// place decides.
fn with_bad(programs: &[Program], place: Place, way: Refusal) -> Vec<Program> {
    let bad = bad::instructions(way, following(programs, place));
    let (program, instruction) = place;
    replaced(programs, place, bad[(program + instruction) % bad.len()])
}

/// Bad in each way at the first, a middle and the last instruction of the first, a middle and the last
/// program.
fn bad_places() -> Vec<Vec<u8>> {
    let good = good_programs();
    let bad = |place| WAYS.map(|way| image(2, &with_bad(&good, place, way)));
    behind_table(places(&good).into_iter().flat_map(bad).collect())
}

/// "The first in image order": two that are bad in different ways, in either order, in one program and in
/// two.
fn two_bad_instructions() -> Vec<Vec<u8>> {
    let good = good_programs();
    let mut images = Vec::new();
    for (first, second) in [((0, 0), (0, 2)), ((2, 4), (4, 0))] {
        for way in WAYS {
            for other in WAYS.into_iter().filter(|&other| other != way) {
                images.push(image(0, &with_bad(&with_bad(&good, first, way), second, other)));
            }
        }
    }
    behind_table(images)
}

/// Where several rows hold, the first decides.
fn first_row_decides() -> Vec<Vec<u8>> {
    let mut rule_and_offset = two_programs();
    (rule_and_offset[2], rule_and_offset[4]) = (3, 0);
    let mut offset_and_instruction = two_programs();
    (offset_and_instruction[8], offset_and_instruction[10]) = (26, 9);
    let mut inputs = behind_table(vec![vec![65, 0, 3, 1, 0, 0], rule_and_offset, offset_and_instruction]);
    // T = 0 and an image of no good.
    inputs.push(vec![0, 0, 65, 0, 3, 1, 0, 0]);
    inputs
}

/// Good inputs with one to three bytes changed, most of them in the image. Some stay good.
fn changed() -> Vec<Vec<u8>> {
    let mut random = Random::new(3);
    let goods = good::inputs();
    let mut inputs = Vec::new();
    while inputs.len() < CHANGED {
        let mut input = goods[random.below(goods.len())].clone();
        let image = 2 + 4 * usize::from(input[0]);
        for _ in 0..random.between(1, 3) {
            let first = if random.percent(90) { image } else { 0 };
            change_a_byte(&mut random, &mut input, first);
        }
        if input.len() < 500 {
            inputs.push(input);
        }
    }
    inputs
}

/// Changes one bit or all of a byte, from this place on.
pub fn change_a_byte(random: &mut Random, input: &mut [u8], first: usize) {
    let place = random.between(first, input.len() - 1);
    input[place] = if random.percent(50) { input[place] ^ 1 << random.below(8) } else { random.byte() };
}

fn good_and_short() -> Vec<Vec<u8>> {
    let mut inputs = good::inputs();
    inputs.retain(|input| input.len() < 500);
    inputs
}

/// The first of these good inputs, cut short anywhere or with bytes added.
pub fn cut(mut inputs: Vec<Vec<u8>>, seed: u64) -> Vec<Vec<u8>> {
    let mut random = Random::new(seed);
    inputs.truncate(CUT);
    for (number, input) in inputs.iter_mut().enumerate() {
        if number % 4 == 0 {
            input.extend((0..random.between(1, 9)).map(|_| random.byte()));
        } else {
            input.truncate(random.below(input.len()));
        }
    }
    inputs
}

/// Stores x, and loads x: an image of 22 bytes.
fn two_programs() -> Vec<u8> {
    image(1, &[vec![set(R1, 1), store(R0, R1)], vec![load(R1, R0)]])
}

fn behind_table(images: Vec<Vec<u8>>) -> Vec<Vec<u8>> {
    images.iter().map(|image| input(&TABLE, image)).collect()
}

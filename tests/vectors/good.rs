//! Good inputs: random batches whose programs meet, under every rule byte.

use material::assembler::{image, input};
use material::random::{programs, table, Random, Shape};

pub const INPUTS: usize = 150;

pub fn inputs() -> Vec<Vec<u8>> {
    let mut random = Random::new(1);
    (0..INPUTS).map(|number| batch(&mut random, number)).collect()
}

/// One batch in ten is large; the rule bytes go round.
fn batch(random: &mut Random, number: usize) -> Vec<u8> {
    let cells = if number % 10 == 9 { random.between(16, 40) } else { random.between(1, 12) };
    let shape = Shape {
        cells,
        busy_cells: random.between(1, cells),
        programs: if number % 10 == 9 { random.between(16, 40) } else { random.between(1, 10) },
        instructions: random.between(4, 20),
    };
    let rule = (number % 3) as u8;
    input(&table(random, cells), &image(rule, &programs(random, shape)))
}

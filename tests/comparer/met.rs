//! What of a guard a program's stores met when it was gathered: an end, one beyond it, or a closed cell. That
//! is seen by running the program once more on what was lent.

use crate::lent::Lent;
use plain::area;
use plain::guards::Guard;
use plain::machine::{self, End, Fault};

const LOW_END: &str = "stored the low end of a guard";
const HIGH_END: &str = "stored the high end of a guard";
const SMALLEST: &str = "stored the smallest number under a guard that ends there";
const LARGEST: &str = "stored the largest number under a guard that ends there";
const BETWEEN: &str = "stored what lies between two ends";
const NEGATIVE: &str = "stored a negative number under a narrow guard";
const ONE_BELOW: &str = "faulted one below low";
const FAR_BELOW: &str = "faulted further below low";
const ONE_ABOVE: &str = "faulted one above high";
const FAR_ABOVE: &str = "faulted further above high";
const CLOSED: &str = "faulted at a closed cell";

/// All that can be met.
pub const MEETINGS: [&str; 11] = [
    LOW_END, HIGH_END, SMALLEST, LARGEST, BETWEEN, NEGATIVE, ONE_BELOW, FAR_BELOW, ONE_ABOVE, FAR_ABOVE,
    CLOSED,
];

/// What a program met that was gathered just now, on the image, the table and the guards that are lent.
pub fn meetings(number: usize, lent: &Lent) -> Vec<&'static str> {
    let guards = lent.guards.lent();
    let program = plain::program(lent.image.lent(), number);
    let (end, slot) = machine::run_apart(program, lent.table.lent(), guards);
    match end {
        End::Finished => {
            let stores = area::stores(&slot).iter().zip(area::values(&slot));
            stores.flat_map(|(&cell, &value)| stored(Guard::of(guards, cell), value as i32)).collect()
        }
        End::Faulted { fault: Fault::AtGuard { cell, value }, .. } => {
            vec![refused(Guard::of(guards, cell), value as i32)]
        }
        _ => vec![],
    }
}

/// What a value met that its guard allows.
fn stored(guard: Guard, value: i32) -> Vec<&'static str> {
    let Guard { low, high } = guard;
    let met = [
        (LOW_END, value == low && low != i32::MIN),
        (HIGH_END, value == high && high != i32::MAX),
        (SMALLEST, value == low && low == i32::MIN),
        (LARGEST, value == high && high == i32::MAX),
        (BETWEEN, low < value && value < high),
        (NEGATIVE, guard != Guard::FULL_RANGE && value < 0),
    ];
    met.into_iter().filter(|&(_, met)| met).map(|(meeting, _)| meeting).collect()
}

/// What a value met that its guard does not allow.
fn refused(Guard { low, high }: Guard, value: i32) -> &'static str {
    if low > high {
        CLOSED
    } else if value < low {
        if value == low - 1 {
            ONE_BELOW
        } else {
            FAR_BELOW
        }
    } else if value == high + 1 {
        ONE_ABOVE
    } else {
        FAR_ABOVE
    }
}

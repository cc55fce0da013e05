//! Documents 01 and 02 once more, in plain Rust: an independent implementation that the tests, the
//! vectors and the benchmark hold against the library. It was written from the documents, not from
//! the code.
//!
//! | file | section of document 01 |
//! |---|---|
//! | `refusal.rs` | What each refusal says |
//! | `image.rs` | Sizes; The image: counts and offsets |
//! | `machine.rs` | Instructions |
//! | `area.rs` | The work area |
//! | `dependencies.rs` | The steps: WAW, RAW and WAR |
//! | `steps.rs` | The steps: opening, gathering, settling |
//! | `order.rs` | The steps: listed order |
//! | `next.rs` | The steps: next image |
//! | `input.rs` | Bench sheet: what the program reads and runs |
//! | `batch.rs` | Bench sheet: what it prints |
//!
//! | file | request of document 02 |
//! |---|---|
//! | `sheet.rs` | 1, a sheet we can type |
//! | `bad.rs` | 2, which instruction is bad |
//! | `why.rs` | 3, tell me why I was carried |
//! | `explain.rs` | 3, the program that tells it in words |
//! | `guards.rs` | 5, guarded cells |

pub mod area;
pub mod bad;
pub mod batch;
mod dependencies;
pub mod explain;
pub mod guards;
pub mod image;
mod input;
pub mod machine;
mod next;
mod order;
pub mod refusal;
pub mod sheet;
pub mod steps;
mod why;

pub use image::{program, program_refusal};
pub use next::next_image;
pub use order::order;
pub use refusal::Refusal;
pub use sheet::{image_of, sheet_of, Text};
pub use steps::{gather, open, settle};
pub use why::{why, Cause};

/// What gathering and settling return: the slot's state and detail, or a refusal and two zeros.
#[derive(Clone, Copy, Debug, PartialEq, Eq)]
pub struct Step {
    pub refusal: Refusal,
    pub state: u32,
    pub detail: u32,
}

/// What the order (a count) and the next image (a length) return, or a refusal and a zero.
#[derive(Clone, Copy, Debug, PartialEq, Eq)]
pub struct Count {
    pub refusal: Refusal,
    pub count: u32,
}

impl Step {
    fn of(answer: Result<(u32, u32), Refusal>) -> Step {
        match answer {
            Ok((state, detail)) => Step { refusal: refusal::DONE, state, detail },
            Err(refusal) => Step { refusal, state: 0, detail: 0 },
        }
    }
}

impl Count {
    fn of(answer: Result<usize, Refusal>) -> Count {
        match answer {
            Ok(count) => Count { refusal: refusal::DONE, count: count as u32 },
            Err(refusal) => Count { refusal, count: 0 },
        }
    }
}

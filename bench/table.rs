//! The figures of both sides, call by call.

use crate::scenarios::CALLS;

/// How much more than the independent implementation a call may take.
const ALLOWED: f64 = 1.2;

/// A figure for each call, in the order of `CALLS`; none where the scenario does not make the call.
pub type Figures = [Option<f64>; CALLS.len()];

pub fn print(scenario: &str, [plain, archive]: [Figures; 2]) {
    println!("\n{scenario}\n{:<12}{:>10}{:>10}{:>8}", "", "plain", "archive", "ratio");
    for (name, figures) in CALLS.iter().zip(plain.iter().zip(archive)) {
        if let (Some(plain), Some(archive)) = figures {
            let ratio = archive / plain;
            let over = if ratio > ALLOWED { "  over 1.2" } else { "" };
            println!("{name:<12}{plain:>10.0}{archive:>10.0}{ratio:>8.2}{over}");
        }
    }
}

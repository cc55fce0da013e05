//! The instructions that the processor goes through in each call, of the archive and of the
//! independent implementation, both as x86-64 code.
//! Usage: count PLAIN ARCHIVE, the drivers of the two, which tools/run runs.

mod driven;
mod scenarios;
mod table;

use archive::{Archive, Measure};
use scenarios::{Scenario, Sheet, CALLS};
use table::Figures;

/// Counting is slow. Of a scenario with many programs, which are much alike, about so many are enough.
const COUNTED: usize = 8;
/// The bytes of a hostile sheet, few for the same reason: each further one costs what the one before it did.
const HOSTILE: usize = 40_000;

/// Instructions per call, the mean where there is a call for each program.
fn counts(archive: &mut Archive, scenario: &Scenario) -> Figures {
    let mut sums = [(0.0, 0.0); CALLS.len()];
    let one_in = (scenario.programs / COUNTED).max(1);
    driven::run(archive, scenario, Measure::Instructions, one_in, |call, instructions| {
        let (sum, calls) = sums[call];
        sums[call] = (sum + instructions as f64, calls + 1.0);
    });
    sums.map(|(sum, calls)| if calls > 0.0 { Some(sum / calls) } else { None })
}

/// Instructions per call of a sheet.
fn sheet_counts(archive: &mut Archive, scenario: &Sheet) -> Figures {
    let mut figures = [None; CALLS.len()];
    driven::run_sheet(archive, scenario, Measure::Instructions, |call, instructions| {
        figures[call] = Some(instructions as f64);
    });
    figures
}

/// Starts a driver, which is the program's argument in this place.
fn start(place: usize) -> Archive {
    let driver = std::env::args().nth(place).expect("two drivers");
    Archive::start(&["tools/run".to_string(), driver])
}

fn main() {
    let (mut plain, mut archive) = (start(1), start(2));
    println!("Instructions per call, counted one by one.");
    for scenario in scenarios::all() {
        table::print(scenario.name, [counts(&mut plain, &scenario), counts(&mut archive, &scenario)]);
    }
    for scenario in scenarios::sheets(HOSTILE) {
        let figures = [sheet_counts(&mut plain, &scenario), sheet_counts(&mut archive, &scenario)];
        table::print(&scenario.name, figures);
    }
}

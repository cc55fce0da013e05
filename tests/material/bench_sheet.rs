//! The bench sheet: each case as instructions, with what document 01 says comes of it.
//! Document 01, "Bench sheet"; the examples of source 004 and V of source 000. Case 14's refusal is that
//! of document 02, request 2.

use crate::assembler::{add, load, reject, set, skipequal, skipless, store, sub};
use crate::assembler::{R0, R1, R2, R3};
use crate::case::{case, outcome, Case, Program};
use plain::area::{CARRIED, COMMITTED, FAULTED, REJECTED};
use plain::refusal;
use plain::steps::{RAW, RAW_WITH_WAR, WAW};

/// "Cells 0, 1, 2 are x, y, z."
pub const X: u16 = 0;
pub const Y: u16 = 1;
pub const Z: u16 = 2;

/// All cases, in the sheet's order. A name is the number on the sheet, with a letter where one case
/// has two halves.
pub fn cases() -> Vec<Case> {
    vec![
        case_01(),
        case_02(),
        case_03(),
        case_04(),
        case_05(),
        case_06(),
        case_07(),
        case_08a(),
        case_08b(),
        case_09(),
        case_10(),
        case_11("11a", 1),
        case_11("11b", 2),
        case_12(),
        case_13(),
        case_14a(),
        case_14b(),
    ]
}

/// to = from.
fn copy(to: u16, from: u16) -> Program {
    vec![set(R0, from), load(R1, R0), set(R2, to), store(R2, R1)]
}

/// Stores a number in each of these cells, in turn, and loads nothing.
fn stores(number: u16, cells: &[u16]) -> Program {
    let mut program = vec![set(R1, number)];
    program.extend(cells.iter().flat_map(|&cell| [set(R0, cell), store(R0, R1)]));
    program
}

/// 004's Example 1: x = x + 1; y = x − y; x = x + y.
fn example_1() -> [Program; 3] {
    [
        vec![set(R0, X), load(R1, R0), set(R2, 1), add(R1, R1, R2), store(R0, R1)],
        vec![set(R0, X), load(R1, R0), set(R2, Y), load(R3, R2), sub(R1, R1, R3), store(R2, R1)],
        vec![set(R0, X), load(R1, R0), set(R2, Y), load(R3, R2), add(R1, R1, R3), store(R0, R1)],
    ]
}

/// 004's Example 2: y = x; z = y; loads y and z.
fn example_2() -> [Program; 3] {
    [copy(Y, X), copy(Z, Y), vec![set(R0, Y), load(R1, R0), set(R2, Z), load(R3, R2)]]
}

/// 004's Example 3: y = x; x = z; z = y.
fn example_3() -> [Program; 3] {
    [copy(Y, X), copy(X, Z), copy(Z, Y)]
}

/// 1. Example 1, x=9, y=4, Rule 1: 0 committed, 1 carried for 2, 2 carried for 1; x=10, y=4.
fn case_01() -> Case {
    let slots = [(COMMITTED, 0), (CARRIED, RAW), (CARRIED, WAW)];
    case("01", &[9, 4], 1, &example_1(), outcome(&slots, &[0], &[10, 4]))
}

/// 2. The same under Rule 2: 0 and 1 committed, 2 carried for 1; x=10, y=5; order 1, 0.
fn case_02() -> Case {
    let slots = [(COMMITTED, 0), (COMMITTED, 0), (CARRIED, WAW)];
    case("02", &[9, 4], 2, &example_1(), outcome(&slots, &[1, 0], &[10, 5]))
}

/// 3. Example 2, x=1, y=2, z=3, Rule 1: only 0; y=1.
fn case_03() -> Case {
    let slots = [(COMMITTED, 0), (CARRIED, RAW), (CARRIED, RAW)];
    case("03", &[1, 2, 3], 1, &example_2(), outcome(&slots, &[0], &[1, 1, 3]))
}

/// 4. Under Rule 2 all commit: y=1, z=2, order 2, 1, 0.
fn case_04() -> Case {
    let slots = [(COMMITTED, 0); 3];
    case("04", &[1, 2, 3], 2, &example_2(), outcome(&slots, &[2, 1, 0], &[1, 1, 2]))
}

/// 5. Example 3, x=1, y=2, z=3, Rule 2: 0 and 1; x=3, y=1, z=3; order 0, 1; 2 carried for 3.
fn case_05() -> Case {
    let slots = [(COMMITTED, 0), (COMMITTED, 0), (CARRIED, RAW_WITH_WAR)];
    case("05", &[1, 2, 3], 2, &example_3(), outcome(&slots, &[0, 1], &[3, 1, 3]))
}

/// 6. Under Rule 1 the same, but 2 is carried for 2.
fn case_06() -> Case {
    let slots = [(COMMITTED, 0), (COMMITTED, 0), (CARRIED, RAW)];
    case("06", &[1, 2, 3], 1, &example_3(), outcome(&slots, &[0, 1], &[3, 1, 3]))
}

/// 7. Image of 6 bytes, n=0: table unchanged, empty order.
fn case_07() -> Case {
    case("07", &[1, 2, 3], 0, &[], outcome(&[], &[], &[1, 2, 3]))
}

/// 8. T=4: set r0 to 4, store there: faulted, detail 513.
fn case_08a() -> Case {
    let programs = [vec![set(R0, 4), store(R0, R0)]];
    case("08a", &[1, 2, 3, 4], 1, &programs, outcome(&[(FAULTED, 513)], &[], &[1, 2, 3, 4]))
}

/// 8. With 3 it commits.
fn case_08b() -> Case {
    let programs = [vec![set(R0, 3), store(R0, R0)]];
    case("08b", &[1, 2, 3, 4], 1, &programs, outcome(&[(COMMITTED, 0)], &[0], &[1, 2, 3, 3]))
}

/// 9. Stores x; stores x and y; stores y (no loads): 1 and 2 are both carried for 1.
/// Program 1 loses x and must still reserve y, which it stores after x.
fn case_09() -> Case {
    let programs = [stores(10, &[X]), stores(11, &[X, Y]), stores(12, &[Y])];
    let slots = [(COMMITTED, 0), (CARRIED, WAW), (CARRIED, WAW)];
    case("09", &[1, 2, 3], 1, &programs, outcome(&slots, &[0], &[10, 2, 3]))
}

/// 10. Program 0 stores x, then rejects with 7; program 1 loads x: it commits, and its load gives
/// the opening value. Program 1 puts what it loaded into y, where it can be seen.
fn case_10() -> Case {
    let mut stores_and_rejects = stores(10, &[X]);
    stores_and_rejects.push(reject(7));
    let slots = [(REJECTED, 7), (COMMITTED, 0)];
    case("10", &[1, 2, 3], 1, &[stores_and_rejects, copy(Y, X)], outcome(&slots, &[1], &[1, 1, 3]))
}

/// 11. One program loads and then stores x: it commits under both rules.
fn case_11(name: &'static str, rule: u8) -> Case {
    let [increment, ..] = example_1();
    case(name, &[1, 2, 3], rule, &[increment], outcome(&[(COMMITTED, 0)], &[0], &[2, 2, 3]))
}

/// 12. 0 − 1 gives 4294967295. It goes into x, where it can be seen.
fn case_12() -> Case {
    let programs = [vec![set(R1, 1), sub(R0, R0, R1), set(R2, X), store(R2, R0)]];
    case("12", &[1, 2, 3], 1, &programs, outcome(&[(COMMITTED, 0)], &[0], &[4294967295, 2, 3]))
}

/// 13. Source 000's V, T=4: cell 0 = 2, cell 2 = 3, store through both: reads 0, 2; stores 3.
/// V(x): y ← read(x), z ← read(y), write(z). It writes 9.
fn case_13() -> Case {
    let programs = [vec![set(R0, X), load(R1, R0), load(R2, R1), set(R3, 9), store(R2, R3)]];
    case("13", &[2, 0, 3, 0], 1, &programs, outcome(&[(COMMITTED, 0)], &[0], &[2, 0, 3, 9]))
}

/// 14. A skip that lands on m is good. It leaves the store out.
fn case_14a() -> Case {
    let programs = [vec![set(R1, 1), skipless(R0, R1, 1), store(R0, R1)]];
    case("14a", &[1, 2, 3], 1, &programs, outcome(&[(COMMITTED, 0)], &[0], &[1, 2, 3]))
}

/// "Case 14 now gives 44": one further. It would not be taken.
fn case_14b() -> Case {
    let programs = [vec![set(R1, 1), skipequal(R0, R1, 2), store(R0, R1)]];
    case("14b", &[1, 2, 3], 1, &programs, Err(refusal::SKIP.at(0, 1)))
}

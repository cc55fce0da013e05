//! Which instruction is bad: each sentence of document 02's request 2, and what the programs say of it
//! in words. That every call refuses so stands in refusals.rs and sheet.rs.

use material::assembler::{end, image, input, sheet, Instruction};
use material::bad::{self, following, good_programs, places, replaced, WAYS};
use material::bench_sheet::cases;
use material::case::Program;
use plain::bad::{said_of_image, said_of_input, said_of_sheet};
use plain::image::{INSTRUCTIONS, PROGRAMS};
use plain::refusal::{self, DONE};
use plain::{program_refusal, Refusal};
use std::collections::BTreeMap;

/// The refusal of an image of these programs, which has a program 0.
fn refusal(programs: &[Program]) -> Refusal {
    program_refusal(&image(1, programs), 0)
}

// 41 to 44, and nothing else of an instruction.

/// What each byte of an operation is: document 01's table, once more.
#[derive(Clone, Copy, PartialEq)]
enum Kind {
    Register,
    Number,
    Unused,
    Skipped,
}

use Kind::{Number, Register, Skipped, Unused};

/// By operation; those of 9 and more are unknown.
const KINDS: [[Kind; 3]; 9] = [
    [Unused, Unused, Unused],
    [Register, Number, Number],
    [Register, Register, Unused],
    [Register, Register, Unused],
    [Register, Register, Register],
    [Register, Register, Register],
    [Register, Register, Skipped],
    [Register, Register, Skipped],
    [Number, Unused, Unused],
];

/// What the table says of an instruction that stands at i of m.
fn by_the_table([operation, bytes @ ..]: Instruction, i: usize, m: usize) -> Refusal {
    let Some(kinds) = KINDS.get(usize::from(operation)) else {
        return refusal::OPERATION.at(0, i);
    };
    let some = |kind: Kind, bad: &dyn Fn(usize) -> bool| {
        kinds.iter().zip(bytes).any(|(&is, byte)| is == kind && bad(usize::from(byte)))
    };
    if some(Register, &|byte| byte > 7) {
        refusal::REGISTER.at(0, i)
    } else if some(Unused, &|byte| byte != 0) {
        refusal::UNUSED.at(0, i)
    } else if some(Skipped, &|c| i + 1 + c > m) {
        refusal::SKIP.at(0, i)
    } else {
        DONE
    }
}

/// Every operation, with bytes at and past every limit, at places i of m.
#[test]
fn every_instruction_is_what_the_table_says() {
    let bytes = [0, 1, 2, 7, 8, 30, 31, 32, 255];
    let mut seen = BTreeMap::new();
    for (i, m) in [(0, 1), (0, 3), (1, 3), (2, 3), (0, 32), (16, 32), (31, 32)] {
        let mut program = vec![end(); m];
        for operation in 0..=255 {
            for [a, b, c] in triples(&bytes) {
                program[i] = [operation, a, b, c];
                let expected = by_the_table(program[i], i, m);
                let found = refusal(std::slice::from_ref(&program));
                assert_eq!(found, expected, "{operation} {a} {b} {c} at {i} of {m}");
                *seen.entry(found.number).or_insert(0) += 1;
            }
        }
    }
    assert!(seen.keys().eq(&[0, 41, 42, 43, 44]) && seen.values().all(|&times| times > 1000), "{seen:?}");
}

fn triples(bytes: &[u8]) -> impl Iterator<Item = [u8; 3]> + '_ {
    bytes.iter().flat_map(move |&a| bytes.iter().flat_map(move |&b| bytes.iter().map(move |&c| [a, b, c])))
}

// "The first in image order, then in the list."

/// Every place of an image that is as large as can be.
#[test]
fn every_place_is_told() {
    let good = vec![vec![end(); INSTRUCTIONS]; PROGRAMS];
    for program in 0..PROGRAMS {
        for instruction in 0..INSTRUCTIONS {
            let place = (program, instruction);
            for way in WAYS {
                let bad = bad::instructions(way, following(&good, place))[0];
                assert_eq!(refusal(&replaced(&good, place, bad)), way.at(program, instruction));
            }
        }
    }
}

/// Of two bad instructions the one before the other is told, whichever way each is bad: the list
/// decides within one instruction only.
#[test]
fn the_first_in_image_order_is_told() {
    let good = [vec![end(); 4], vec![], vec![end(); 4], vec![end(); 4]];
    let places = places(&good);
    for (number, &first) in places.iter().enumerate() {
        for &second in &places[number + 1..] {
            for way in WAYS {
                for other in WAYS {
                    let [one, two] = [(way, first), (other, second)]
                        .map(|(way, place)| bad::instructions(way, following(&good, place))[0]);
                    let bad = replaced(&replaced(&good, first, one), second, two);
                    assert_eq!(refusal(&bad), way.at(first.0, first.1), "before {other:?} at {second:?}");
                }
            }
        }
    }
}

#[test]
fn the_first_in_the_list_is_told() {
    let alone = |instruction: Instruction| refusal(&[vec![instruction]]);
    assert_eq!(alone([9, 8, 8, 8]), refusal::OPERATION);
    assert_eq!(alone([2, 8, 0, 1]), refusal::REGISTER);
    assert_eq!(alone([3, 8, 9, 1]), refusal::REGISTER);
    assert_eq!(alone([6, 8, 0, 1]), refusal::REGISTER);
    assert_eq!(alone([7, 0, 8, 255]), refusal::REGISTER);
    assert_eq!(alone([8, 9, 9, 9]), refusal::UNUSED);
}

// The words.

/// Three programs, of 2, 2 and 8 instructions, of which instruction 5 of program 2 is this one.
fn around(instruction: Instruction) -> Vec<Program> {
    replaced(&[vec![end(); 2], vec![end(); 2], vec![end(); 8]], (2, 5), instruction)
}

/// `batch`, `why` and `to_sheet` say these words of it; `to_image` says the line before them.
fn assert_said(instruction: Instruction, words: &str) {
    let image = image(2, &around(instruction));
    assert_eq!(said_of_image(&image), format!("{words}\n"));
    assert_eq!(said_of_input(&input(&[1, 2], &image)), format!("{words}\n"));
    if instruction[0] < 9 {
        assert_eq!(said_of_sheet(&sheet(2, &around(instruction))), format!("line 14, {words}\n"));
    }
}

#[test]
fn an_unknown_operation_in_words() {
    assert_said([17, 0, 0, 0], "program 2, instruction 5: unknown operation 17");
    assert_said([255, 9, 9, 9], "program 2, instruction 5: unknown operation 255");
}

/// Of several bytes that show it, the first is told.
#[test]
fn a_register_in_words() {
    assert_said([1, 9, 0, 0], "program 2, instruction 5: register 9 is over 7");
    assert_said([2, 3, 9, 4], "program 2, instruction 5: register 9 is over 7");
    assert_said([4, 7, 10, 11], "program 2, instruction 5: register 10 is over 7");
    assert_said([5, 255, 9, 8], "program 2, instruction 5: register 255 is over 7");
    assert_said([6, 0, 8, 200], "program 2, instruction 5: register 8 is over 7");
}

#[test]
fn an_unused_byte_in_words() {
    assert_said([2, 0, 0, 4], "program 2, instruction 5: an unused byte is 4, not 0");
    assert_said([0, 0, 5, 6], "program 2, instruction 5: an unused byte is 5, not 0");
    assert_said([8, 200, 0, 255], "program 2, instruction 5: an unused byte is 255, not 0");
}

#[test]
fn a_skip_in_words() {
    assert_said([6, 0, 0, 3], "program 2, instruction 5: a skip by 3 lands past the end");
    assert_said([7, 7, 7, 255], "program 2, instruction 5: a skip by 255 lands past the end");
}

#[test]
fn the_line_of_every_place() {
    let good = good_programs();
    for (place, line) in places(&good).into_iter().zip([3, 4, 5, 8, 10, 12, 15, 31, 46]) {
        let bad = sheet(1, &replaced(&good, place, [8, 0, 0, 1]));
        let text = String::from_utf8(bad.clone()).expect("a sheet is text");
        assert_eq!(text.lines().nth(line - 1), Some("reject 0 0 1"));
        let (program, instruction) = place;
        let words = format!("program {program}, instruction {instruction}: an unused byte is 1, not 0");
        assert_eq!(said_of_sheet(&bad), format!("line {line}, {words}\n"));
    }
}

/// Where nothing is refused, or something else is, these words are not said.
#[test]
fn nothing_is_said_of_anything_else() {
    for case in cases().iter().filter(|case| case.expected.is_ok()) {
        assert_eq!(said_of_input(&input(&case.table, &case.image)), "", "case {}", case.name);
        assert_eq!(said_of_image(&case.image), "", "case {}", case.name);
        assert_eq!(said_of_sheet(&case.sheet), "", "case {}", case.name);
    }
    let bad = [9, 0, 0, 0];
    let mut offset = image(1, &[vec![bad]]);
    offset[4] = 0;
    for other in [vec![], vec![0; 5], offset, image(3, &[vec![bad]])] {
        assert_eq!(said_of_image(&other), "");
        assert_eq!(said_of_input(&input(&[1], &other)), "");
    }
    assert_eq!(said_of_input(&input(&[], &image(1, &[vec![bad]]))), "");
    assert_eq!(said_of_input(&[]), "");
    let bad = [1, 8, 0, 0];
    let unended = [sheet(1, &[vec![bad]]), b"end 0 0 0".to_vec()].concat();
    for other in [vec![], unended, sheet(1, &[vec![bad; 33]]), sheet(1, &vec![vec![bad]; 65])] {
        assert_eq!(said_of_sheet(&other), "");
    }
}

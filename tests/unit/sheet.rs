//! A sheet we can type: each sentence of document 02's request 1, and both sides of each comparison.

use material::assembler::{self, add, end, load, reject, set, skipequal, skipless, store, sub};
use material::assembler::{Instruction, R0, R1, R2, R7};
use material::bad::{self, following, good_programs, places, replaced, TYPED_WAYS, WAYS};
use material::bench_sheet;
use material::lessons::lessons;
use material::random::{self, Random, Shape};
use material::sheets;
use plain::image::{INSTRUCTIONS, LONGEST, PROGRAMS};
use plain::machine::{first_flaw, NAMES};
use plain::refusal::{self, DONE};
use plain::{image_of, sheet_of, Refusal, Text};

/// What an output holds before a call.
const UNTOUCHED: u8 = 0xEE;

/// A refusal, and the number of the line that is not allowed.
type Refused = (Refusal, u32);

/// What a call writes into an output of so many bytes, or its refusal. "A refusal touches nothing;
/// beyond the length nothing is touched."
fn written(call: fn(&[u8], &mut [u8]) -> Text, text: &[u8], room: usize) -> Result<Vec<u8>, Refused> {
    let mut out = vec![UNTOUCHED; room];
    let Text { refusal, length, line } = call(text, &mut out);
    let behind = out.split_off(length as usize);
    assert!(behind.iter().all(|&byte| byte == UNTOUCHED), "only the length is written");
    if refusal == DONE {
        assert_eq!(line, 0, "a line is told with 51 only");
        return Ok(out);
    }
    assert_eq!(length, 0, "a refusal has no length");
    assert_eq!(line != 0, refusal == refusal::LINE, "a line is told with 51 only");
    Err((refusal, line))
}

/// The image of a sheet, with room for every one.
fn image(sheet: impl AsRef<[u8]>) -> Result<Vec<u8>, Refused> {
    written(image_of, sheet.as_ref(), LONGEST + 1)
}

/// The sheet of an image, with room for every one.
fn sheet(image: &[u8]) -> Result<Vec<u8>, Refused> {
    written(sheet_of, image, plain::sheet::LONGEST + 1)
}

/// A refusal other than 51.
fn refused(refusal: Refusal) -> Result<Vec<u8>, Refused> {
    Err((refusal, 0))
}

/// "51 the first line that its place does not allow, with its number from 1."
fn not_allowed(line: u32) -> Result<Vec<u8>, Refused> {
    Err((refusal::LINE, line))
}

/// A sheet whose third line this is, without its newline.
fn with_line(line: impl AsRef<[u8]>) -> Vec<u8> {
    [b"rule 1\nprogram\n", line.as_ref(), b"\nend 0 0 0\n"].concat()
}

/// The line is no instruction and no "program".
fn assert_line_not_allowed(line: &str) {
    assert_eq!(image(with_line(line)), not_allowed(3), "{line:?}");
}

/// Both ways: the sheet is the image's, and the image is the sheet's.
fn assert_same(text: impl AsRef<[u8]>, of: &[u8]) {
    assert_eq!(image(&text).as_deref(), Ok(of));
    assert_eq!(sheet(of).as_deref(), Ok(text.as_ref()));
}

/// Programs that are all alike.
fn programs(count: usize, program: Vec<Instruction>) -> Vec<Vec<Instruction>> {
    vec![program; count]
}

// What a sheet is.

#[test]
fn names_are_the_documents_numbers() {
    assert_eq!(refusal::LINE.number, 51);
    assert_eq!(NAMES, ["end", "set", "load", "store", "add", "sub", "skipless", "skipequal", "reject"]);
}

/// "rule R", then for each program a line "program", then a line per instruction.
#[test]
fn case_2_as_one_would_type_it() {
    let text = "\
rule 2
program
set 0 0 0
load 1 0 0
set 2 0 1
add 1 1 2
store 0 1 0
program
set 0 0 0
load 1 0 0
set 2 0 1
load 3 2 0
sub 1 1 3
store 2 1 0
program
set 0 0 0
load 1 0 0
set 2 0 1
load 3 2 0
add 1 1 3
store 0 1 0
";
    #[rustfmt::skip]
    let of = [
        3, 0, 2, 0, 12, 0, 32, 0, 56, 0, 80, 0,
        1, 0, 0, 0, 2, 1, 0, 0, 1, 2, 0, 1, 4, 1, 1, 2, 3, 0, 1, 0,
        1, 0, 0, 0, 2, 1, 0, 0, 1, 2, 0, 1, 2, 3, 2, 0, 5, 1, 1, 3, 3, 2, 1, 0,
        1, 0, 0, 0, 2, 1, 0, 0, 1, 2, 0, 1, 2, 3, 2, 0, 4, 1, 1, 3, 3, 0, 1, 0,
    ];
    assert_same(text, &of);
}

/// A case whose instruction is bad has a sheet too, which gives what its image gives.
#[test]
fn every_case_and_lesson_has_its_sheet() {
    for case in bench_sheet::cases().into_iter().chain(lessons()) {
        match case.expected {
            Ok(_) => assert_same(&case.sheet, &case.image),
            Err(refusal) => {
                assert_eq!(image(&case.sheet), refused(refusal), "case {}", case.name);
                assert_eq!(sheet(&case.image), refused(refusal), "case {}", case.name);
            }
        }
    }
}

#[test]
fn each_name_is_its_operation() {
    let text = "\
rule 0
program
end 0 0 0
set 1 2 3
load 1 2 0
store 1 2 0
add 1 2 3
sub 1 2 3
skipless 1 2 2
skipequal 1 2 1
reject 1 0 0
";
    let program = vec![
        end(),
        set(R1, 0x0203),
        load(R1, R2),
        store(R1, R2),
        add(R1, R2, 3),
        sub(R1, R2, 3),
        skipless(R1, R2, 2),
        skipequal(R1, R2, 1),
        reject(1),
    ];
    assert_same(text, &assembler::image(0, &[program]));
}

/// "R is 0, 1 or 2": the raw byte, so 0 stays 0.
#[test]
fn rule_0_is_not_rule_1() {
    for rule in 0..=2 {
        assert_same(format!("rule {rule}\n"), &assembler::image(rule, &[]));
    }
}

#[test]
fn a_sheet_of_one_line_has_no_programs() {
    assert_same("rule 1\n", &[0, 0, 1, 0, 6, 0]);
}

#[test]
fn a_program_may_be_empty() {
    assert_same("rule 1\nprogram\n", &[1, 0, 1, 0, 8, 0, 8, 0]);
    let programs = [vec![], vec![end()], vec![]];
    assert_same("rule 1\nprogram\nprogram\nend 0 0 0\nprogram\n", &assembler::image(1, &programs));
}

/// "Its three bytes in decimal": each byte has one way to be written, and that one is read.
#[test]
fn every_byte_both_ways() {
    for b in 0..=255u8 {
        for c in 0..=255u8 {
            let image = assembler::image(1, &[vec![set(R7, u16::from_be_bytes([b, c]))]]);
            assert_same(format!("rule 1\nprogram\nset 7 {b} {c}\n"), &image);
        }
    }
}

#[test]
fn no_other_text_of_up_to_four_characters_is_a_byte() {
    let bytes: Vec<String> = (0..=255u8).map(|byte| byte.to_string()).collect();
    let characters = b"0123456789 -+a";
    let mut texts = vec![String::new()];
    for _ in 0..=4 {
        for text in &texts {
            let sheet = with_line(format!("set 0 {text} 9"));
            if bytes.contains(text) {
                assert!(image(sheet).is_ok(), "{text:?}");
            } else {
                assert_eq!(image(sheet), not_allowed(3), "{text:?}");
            }
        }
        let longer = |text: &String| characters.map(|character| format!("{text}{}", character as char));
        texts = texts.iter().flat_map(longer).collect();
    }
}

// 51: the first line that its place does not allow.

#[test]
fn a_missing_first_line_is_line_1() {
    assert_eq!(image(""), not_allowed(1));
}

#[test]
fn line_1_must_be_a_rule_line() {
    for line in ["", "program", "end 0 0 0", "set 0 0 0", "rule", "rule ", "rules 1", "rule1", "Rule 1", "1"]
    {
        assert_eq!(image(format!("{line}\n")), not_allowed(1), "{line:?}");
        assert_eq!(image(format!("{line}\nrule 1\n")), not_allowed(1), "{line:?}");
    }
}

#[test]
fn a_rule_over_2_is_not_allowed() {
    for rule in ["3", "9", "10", "12", "21", "22", "255", "256", "257", "258", "4294967297"] {
        assert_eq!(image(format!("rule {rule}\n")), not_allowed(1), "{rule}");
    }
}

#[test]
fn a_rule_line_has_one_space_and_no_leading_zero() {
    for line in
        ["rule  1", " rule 1", "rule 1 ", "rule\t1", "rule 01", "rule 00", "rule 1 1", "rule -0", "rule +1"]
    {
        assert_eq!(image(format!("{line}\n")), not_allowed(1), "{line:?}");
    }
}

#[test]
fn line_2_must_be_program() {
    for line in ["", " ", "end 0 0 0", "set 0 0 0", "rule 1", "Program", "program 0", "program ", " program"]
    {
        assert_eq!(image(format!("rule 1\n{line}\n")), not_allowed(2), "{line:?}");
        assert_eq!(image(format!("rule 1\n{line}\nprogram\n")), not_allowed(2), "{line:?}");
    }
}

/// "An instruction before the first program."
#[test]
fn an_instruction_needs_a_program() {
    assert_eq!(image("rule 1\nend 0 0 0\n"), not_allowed(2));
    assert!(image("rule 1\nprogram\nend 0 0 0\n").is_ok());
}

#[test]
fn one_rule_line_only() {
    assert_eq!(image("rule 1\nprogram\nrule 1\n"), not_allowed(3));
    assert_eq!(image("rule 1\nprogram\nend 0 0 0\nrule 1\n"), not_allowed(4));
}

#[test]
fn no_blank_line_anywhere() {
    assert_eq!(image("\nrule 1\nprogram\nend 0 0 0\n"), not_allowed(1));
    assert_eq!(image("rule 1\n\nprogram\nend 0 0 0\n"), not_allowed(2));
    assert_eq!(image("rule 1\nprogram\n\nend 0 0 0\n"), not_allowed(3));
    assert_eq!(image("rule 1\nprogram\nend 0 0 0\n\n"), not_allowed(4));
}

#[test]
fn no_carriage_return_anywhere() {
    assert_eq!(image("rule 1\r\nprogram\r\nend 0 0 0\r\n"), not_allowed(1));
    assert_eq!(image("rule 1\nprogram\r\nend 0 0 0\n"), not_allowed(2));
    assert_eq!(image("rule 1\nprogram\nend 0 0 0\r\n"), not_allowed(3));
    assert_eq!(image("rule 1\nprogram\rend 0 0 0\n"), not_allowed(2));
}

/// "An unended last one": whatever it says, also where it would be allowed with a newline.
#[test]
fn an_unended_last_line_is_not_allowed() {
    let sheet = "rule 1\nprogram\nend 0 0 0\nprogram\nset 0 0 12\n";
    for length in 0..sheet.len() {
        let cut = &sheet[..length];
        if cut.ends_with('\n') {
            assert!(image(cut).is_ok(), "{cut:?}");
        } else {
            assert_eq!(image(cut), not_allowed(cut.matches('\n').count() as u32 + 1), "{cut:?}");
        }
    }
    for last in [" ", "x", "\r", "\0", "program", "end 0 0 0", "rule 1"] {
        assert_eq!(image(format!("{sheet}{last}")), not_allowed(6), "{last:?}");
    }
}

#[test]
fn the_first_of_several_lines_is_told() {
    assert_eq!(image("rule 3\nprograms\n"), not_allowed(1));
    assert_eq!(image("rule 1\nprogram\nend 0 0 0\nend 0 0\nend\nprogram"), not_allowed(4));
}

#[test]
fn lines_are_counted_from_1_as_far_as_they_go() {
    for lines in [3, 255, 256, 65535, 65536, 70000] {
        let sheet = [&b"rule 1\n"[..], &b"program\n".repeat(lines - 2), b"programs\n"].concat();
        assert_eq!(image(sheet), not_allowed(lines as u32));
    }
}

#[test]
fn an_unknown_name_is_not_allowed() {
    for name in
        ["", "jump", "End", "END", "en", "ends", "skip", "skipequals", "skiples", "7", "rule", "program"]
    {
        assert_line_not_allowed(&format!("{name} 0 0 0"));
    }
    assert_line_not_allowed("program 0");
    assert_line_not_allowed("programs");
}

#[test]
fn an_instruction_has_three_numbers() {
    for line in
        ["end", "end ", "end 0", "end 0 0", "end 0 0 ", "end 0 0 0 0", "end 0 0 0 ", "end000", "0 0 0 0"]
    {
        assert_line_not_allowed(line);
    }
    assert!(image(with_line("end 0 0 0")).is_ok());
}

#[test]
fn single_spaces_and_nothing_else_between_words() {
    for line in
        [" end 0 0 0", "end  0 0 0", "end 0  0 0", "end 0 0  0", "end\t0 0 0", "end 0,0,0", "end 0 0 0  "]
    {
        assert_line_not_allowed(line);
    }
}

/// Bytes over 255, also those that are small again in 8, 16, 32 or 64 bits.
#[test]
fn a_number_over_255_is_not_allowed() {
    let over =
        ["256", "257", "260", "300", "999", "1000", "2550", "65536", "4294967296", "18446744073709551616"];
    for number in over {
        assert_line_not_allowed(&format!("set 0 0 {number}"));
        assert_line_not_allowed(&format!("set 0 {number} 0"));
        assert_line_not_allowed(&format!("set {number} 0 0"));
        assert_line_not_allowed(&format!("end 0 0 {number}"));
    }
    assert!(image(with_line("set 0 255 255")).is_ok());
}

#[test]
fn a_number_of_a_thousand_digits_is_not_allowed() {
    for digit in ["0", "1", "9"] {
        assert_line_not_allowed(&format!("set 0 0 {}", digit.repeat(1000)));
        assert_line_not_allowed(&format!("set {} 0 0", digit.repeat(1000)));
    }
}

/// "0" is a number, "00" and "07" are not.
#[test]
fn no_leading_zeros() {
    for number in ["00", "000", "01", "07", "010", "0255"] {
        assert_line_not_allowed(&format!("set 0 0 {number}"));
        assert_line_not_allowed(&format!("set 0 {number} 0"));
        assert_line_not_allowed(&format!("set {number} 0 0"));
    }
    assert!(image(with_line("set 0 0 0")).is_ok());
    assert!(image(with_line("set 0 10 100")).is_ok());
}

#[test]
fn a_number_is_decimal_digits_alone() {
    for number in ["", "-", "-1", "-0", "+1", "1.", "0x1", "1e1", "a", "1a", "٣", "1\0", ":", "/"] {
        assert_line_not_allowed(&format!("set 0 0 {number}"));
        assert_line_not_allowed(&format!("set 0 {number} 0"));
    }
}

// 2, 3, 42 to 44 and 10, each looked for over the whole sheet before the next.

#[test]
fn over_64_programs_are_refused() {
    for (count, good) in [(63, true), (64, true), (65, false), (256, false), (321, false)] {
        let programs = programs(count, vec![end()]);
        let sheet = assembler::sheet(1, &programs);
        if good {
            assert_same(sheet, &assembler::image(1, &programs));
        } else {
            assert_eq!(image(sheet), refused(refusal::HEADER), "{count} programs");
        }
    }
}

#[test]
fn a_program_over_32_instructions_is_refused() {
    for long in [0, 1, PROGRAMS - 1] {
        for (length, good) in [(31, true), (32, true), (33, false), (64, false), (288, false)] {
            let mut programs = programs(PROGRAMS, vec![]);
            programs[long] = vec![end(); length];
            let sheet = assembler::sheet(1, &programs);
            if good {
                assert_same(sheet, &assembler::image(1, &programs));
            } else {
                assert_eq!(image(sheet), refused(refusal::OFFSETS), "{length} in program {long}");
            }
        }
    }
}

/// Document 01's rules of a good instruction, each with a line that only just keeps it and one that
/// only just breaks it. The line is the second of three instructions of the first of two programs.
#[test]
fn a_bad_instruction_is_refused() {
    #[rustfmt::skip]
    let lines = [
        ("end 0 0 0", refusal::UNUSED, ["end 1 0 0", "end 0 1 0", "end 0 0 1"]),
        ("set 7 255 255", refusal::REGISTER, ["set 8 255 255", "set 8 0 0", "set 255 0 0"]),
        ("load 7 7 0", refusal::REGISTER, ["load 8 7 0", "load 7 8 0", "load 8 8 1"]),
        ("load 7 7 0", refusal::UNUSED, ["load 7 7 1", "load 0 0 7", "load 7 7 255"]),
        ("store 7 7 0", refusal::REGISTER, ["store 8 7 0", "store 7 8 0", "store 8 8 1"]),
        ("store 7 7 0", refusal::UNUSED, ["store 7 7 1", "store 0 0 7", "store 7 7 255"]),
        ("add 7 7 7", refusal::REGISTER, ["add 8 7 7", "add 7 8 7", "add 7 7 8"]),
        ("sub 7 7 7", refusal::REGISTER, ["sub 8 7 7", "sub 7 8 7", "sub 7 7 8"]),
        ("skipless 7 7 1", refusal::REGISTER, ["skipless 8 7 1", "skipless 7 8 1", "skipless 8 7 2"]),
        ("skipless 7 7 1", refusal::SKIP, ["skipless 7 7 2", "skipless 0 0 2", "skipless 7 7 255"]),
        ("skipequal 7 7 1", refusal::REGISTER, ["skipequal 8 7 1", "skipequal 7 8 1", "skipequal 8 8 255"]),
        ("skipequal 7 7 1", refusal::SKIP, ["skipequal 7 7 2", "skipequal 0 0 2", "skipequal 7 7 255"]),
        ("reject 255 0 0", refusal::UNUSED, ["reject 255 1 0", "reject 255 0 1", "reject 0 8 8"]),
    ];
    let around = |line| format!("rule 1\nprogram\nend 0 0 0\n{line}\nend 0 0 0\nprogram\nend 0 0 0\n");
    for (good, way, bad) in lines {
        assert!(image(around(good)).is_ok(), "{good}");
        for line in bad {
            assert_eq!(image(around(line)), refused(way.at(0, 1)), "{line}");
        }
    }
}

/// At every place that a bad instruction can have, from the sheet as from the image.
#[test]
fn a_bad_instruction_is_named_by_its_place() {
    let good = good_programs();
    for place in places(&good) {
        for way in WAYS {
            for instruction in bad::instructions(way, following(&good, place)) {
                let bad = replaced(&good, place, instruction);
                let expected = refused(way.at(place.0, place.1));
                assert_eq!(sheet(&assembler::image(0, &bad)), expected, "{instruction:?}");
                if TYPED_WAYS.contains(&way) {
                    assert_eq!(image(assembler::sheet(0, &bad)), expected, "{instruction:?}");
                }
            }
        }
    }
}

/// "A skip at instruction i of m needs i+1+c ≤ m": m is the program's own, whatever follows it.
#[test]
fn a_skip_ends_in_its_own_program() {
    let skips = |c| format!("rule 1\nprogram\nend 0 0 0\nskipless 0 0 {c}\nprogram\nend 0 0 0\nend 0 0 0\n");
    assert!(image(skips(0)).is_ok());
    assert_eq!(image(skips(1)), refused(refusal::SKIP.at(0, 1)));
}

#[test]
fn an_output_shorter_than_the_image_is_refused() {
    for programs in [vec![], vec![vec![]], vec![vec![end(), set(R0, 9)], vec![end()]]] {
        let (sheet, image) = (assembler::sheet(2, &programs), assembler::image(2, &programs));
        for room in 0..image.len() {
            assert_eq!(written(image_of, &sheet, room), refused(refusal::TOO_SHORT), "room {room}");
        }
        for room in image.len()..image.len() + 3 {
            assert_eq!(written(image_of, &sheet, room).as_ref(), Ok(&image), "room {room}");
        }
    }
}

/// Everything wrong at once, and then put right, one thing after another, in the order of the checks.
/// Each stands behind those that are looked for later.
#[test]
fn the_first_check_that_fails_decides() {
    let bad: Instruction = [0, 0, 0, 1];
    let mut programs = vec![vec![bad], vec![end(); INSTRUCTIONS + 1]];
    programs.resize(PROGRAMS + 1, vec![]);
    let no_room = |sheet: &[u8]| written(image_of, sheet, 0);

    let unended = [assembler::sheet(1, &programs), b"program".to_vec()].concat();
    assert_eq!(no_room(&unended), not_allowed(1 + PROGRAMS as u32 + 1 + 1 + INSTRUCTIONS as u32 + 1 + 1));
    assert_eq!(no_room(&assembler::sheet(1, &programs)), refused(refusal::HEADER));
    programs.pop();
    assert_eq!(no_room(&assembler::sheet(1, &programs)), refused(refusal::OFFSETS));
    programs[1].pop();
    assert_eq!(no_room(&assembler::sheet(1, &programs)), refused(refusal::UNUSED));
    programs[0].pop();
    assert_eq!(no_room(&assembler::sheet(1, &programs)), refused(refusal::TOO_SHORT));
    assert_eq!(image(assembler::sheet(1, &programs)), Ok(assembler::image(1, &programs)));
}

/// A bad instruction of a program that is too long, or of one too many, is not looked at yet.
#[test]
fn each_check_looks_at_the_whole_sheet_before_the_next() {
    let bad: Instruction = [1, 8, 0, 0];
    let too_long = assembler::sheet(1, &[vec![bad; INSTRUCTIONS + 1]]);
    assert_eq!(image(too_long), refused(refusal::OFFSETS));
    let too_many = assembler::sheet(1, &programs(PROGRAMS + 1, vec![bad; INSTRUCTIONS + 1]));
    assert_eq!(image(&too_many), refused(refusal::HEADER));
    let line = too_many.iter().filter(|&&byte| byte == b'\n').count() as u32 + 1;
    assert_eq!(image([&too_many[..], b"set 8 0 256\n"].concat()), not_allowed(line));
}

// From an image: 1 to 3, 41 to 44, then 10.

#[test]
fn a_bad_image_is_refused_as_by_every_call() {
    let good = assembler::image(1, &[vec![set(R1, 1), store(R0, R1)], vec![set(R1, 1)]]);
    let changed = |place: usize, byte: u8| {
        let mut image = good.clone();
        image[place] = byte;
        image
    };
    assert_eq!(sheet(&good).map(|sheet| sheet.len()), Ok(7 + 8 + 10 + 12 + 8 + 10));
    assert_eq!(sheet(&[]), refused(refusal::IMAGE_SIZE));
    assert_eq!(sheet(&good[..5]), refused(refusal::IMAGE_SIZE));
    assert_eq!(sheet(&[0; LONGEST + 1]), refused(refusal::IMAGE_SIZE));
    for (place, byte) in [(0, 65), (1, 1), (2, 3), (3, 1)] {
        assert_eq!(sheet(&changed(place, byte)), refused(refusal::HEADER));
    }
    assert_eq!(sheet(&[&good[..], &[0]].concat()), refused(refusal::OFFSETS));
    for (place, byte) in [(4, 14), (6, 8), (6, 19), (8, 26)] {
        assert_eq!(sheet(&changed(place, byte)), refused(refusal::OFFSETS));
    }
    assert_eq!(sheet(&changed(10, 9)), refused(refusal::OPERATION.at(0, 0)));
    assert_eq!(sheet(&changed(15, 8)), refused(refusal::REGISTER.at(0, 1)));
    assert_eq!(sheet(&changed(17, 1)), refused(refusal::UNUSED.at(0, 1)));
    assert_eq!(sheet(&changed(18, 6)), refused(refusal::SKIP.at(1, 0)));
}

#[test]
fn an_output_shorter_than_the_sheet_is_refused() {
    for programs in [vec![], vec![vec![]], vec![vec![end(), set(R0, 9)], vec![end()]]] {
        let (sheet, image) = (assembler::sheet(0, &programs), assembler::image(0, &programs));
        for room in 0..sheet.len() {
            assert_eq!(written(sheet_of, &image, room), refused(refusal::TOO_SHORT), "room {room}");
        }
        for room in sheet.len()..sheet.len() + 3 {
            assert_eq!(written(sheet_of, &image, room).as_ref(), Ok(&sheet), "room {room}");
        }
    }
}

#[test]
fn a_bad_image_is_refused_before_a_short_output() {
    assert_eq!(written(sheet_of, &[0; 5], 0), refused(refusal::IMAGE_SIZE));
    let bad = assembler::image(1, &[vec![[9, 0, 0, 0]]]);
    assert_eq!(written(sheet_of, &bad, 0), refused(refusal::OPERATION));
}

// The longest sheet.

/// The bytes of an instruction's line.
fn line_bytes([operation, a, b, c]: Instruction) -> usize {
    format!("{} {a} {b} {c}\n", NAMES[usize::from(operation)]).len()
}

/// The longest line of a good instruction of which so many follow in its program. Over 32 only the
/// digits of a byte matter.
fn longest_line(following: usize) -> usize {
    let bytes: Vec<u8> = (0..=33).chain([99, 100, 255]).collect();
    let mut program = vec![end(); 1 + following];
    let mut longest = 0;
    for operation in 0..NAMES.len() as u8 {
        for &a in &bytes {
            for &b in &bytes {
                for &c in &bytes {
                    program[0] = [operation, a, b, c];
                    if first_flaw(program.as_flattened()).is_none() {
                        longest = longest.max(line_bytes(program[0]));
                    }
                }
            }
        }
    }
    longest
}

/// Every program of every length, made of its longest lines: none comes to more than the longest.
#[test]
fn no_good_image_has_a_longer_sheet() {
    let mut longest_program = 0;
    let mut program = "program\n".len();
    for following in 0..INSTRUCTIONS {
        program += longest_line(following);
        longest_program = longest_program.max(program);
    }
    assert_eq!(longest_program, 542);
    assert_eq!("rule 2\n".len() + PROGRAMS * longest_program, 34695);
    assert_eq!(plain::sheet::LONGEST, 34695);
}

#[test]
fn the_longest_sheet_is_one() {
    assert_eq!(sheets::longest().len(), 34695);
    assert_same(sheets::longest(), &sheets::longest_image());
}

// "Each way undoes the other."

#[test]
fn random_images_come_back() {
    let mut bytes = 0;
    for seed in 0..500 {
        let random = &mut Random::new(seed);
        let (programs, instructions) = (random.between(0, PROGRAMS), random.between(1, INSTRUCTIONS));
        let shape = Shape { cells: 256, busy_cells: 256, programs, instructions };
        let (rule, programs) = (random.below(3) as u8, random::programs(random, shape));
        let image = assembler::image(rule, &programs);
        assert_same(sheet(&image).expect("a good image"), &image);
        bytes += image.len();
    }
    assert!(bytes > 100_000, "{bytes} bytes of images are not many");
}

/// Of a sheet with any one byte changed, dropped or added, one that is accepted is that of its image,
/// byte by byte; so no sheet has a second way to be written near it.
#[test]
fn a_byte_changed_dropped_or_added() {
    let good = b"\
rule 0
program
set 1 25 0
skipless 0 1 1
add 7 0 3
program
reject 9 0 0
end 0 0 0
";
    let (mut accepted, mut refused) = (0, 0);
    let mut try_one = |damaged: Vec<u8>| match image(&damaged) {
        Ok(image) => {
            assert_eq!(sheet(&image), Ok(damaged));
            accepted += 1;
        }
        Err(_) => refused += 1,
    };
    for place in 0..good.len() {
        let (before, behind) = good.split_at(place);
        try_one([before, &behind[1..]].concat());
        for byte in 0..=255 {
            try_one([before, &[byte], &behind[1..]].concat());
            try_one([before, &[byte], behind].concat());
        }
    }
    assert!(accepted > 2 * good.len() && refused > 40_000, "{accepted} accepted, {refused} refused");
}

// Any bytes at all get an answer.

#[test]
fn long_sheets_that_are_none() {
    const MEGABYTE: usize = 1 << 20;
    for byte in [0, b' ', b'0', b'r', b'\r', 0xFF] {
        assert_eq!(image(vec![byte; MEGABYTE]), not_allowed(1), "byte {byte}");
    }
    assert_eq!(image(vec![b'\n'; MEGABYTE]), not_allowed(1));
    let lines = |sheet: &[u8]| sheet.iter().filter(|&&byte| byte == b'\n').count() as u32;
    let late = sheets::last_line_bad(MEGABYTE);
    assert!(late.len() >= MEGABYTE);
    assert_eq!(image(&late), not_allowed(lines(&late)));
    let endless = sheets::endless_line(MEGABYTE);
    assert!(endless.len() >= MEGABYTE);
    assert_eq!(image(&endless), not_allowed(lines(&endless) + 1));
}

#[test]
fn a_megabyte_of_good_lines_has_too_many_programs() {
    let sheet = [&b"rule 1\n"[..], &b"program\n".repeat(1 << 17)].concat();
    assert_eq!(image(sheet), refused(refusal::HEADER));
    let sheet = [&b"rule 1\nprogram\n"[..], &b"end 0 0 0\n".repeat(1 << 17)].concat();
    assert_eq!(image(sheet), refused(refusal::OFFSETS));
}

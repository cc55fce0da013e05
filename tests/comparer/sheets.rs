//! Sheets and images through the two calls of sheets: good ones, which come back by the other call,
//! damaged ones, and sheets at a limit. Each is lent with outputs that are long enough, exactly as long
//! as what is written, and shorter.

use crate::calls::{Answer, Call};
use crate::damage::damaged_image;
use crate::lent::Lent;
use crate::made_up;
use crate::pair::{Difference, Pair};
use archive::{bytes, words};
use material::assembler::{self, end, Instruction};
use material::case::Program;
use material::random::{self, Random, Shape};
use material::sheets;
use plain::image::{INSTRUCTIONS, PROGRAMS};
use plain::machine::NAMES;
use plain::refusal::DONE;
use plain::sheet;

/// What an output holds before a call.
const UNTOUCHED: u8 = 0xEE;
/// An output that is long enough for every sheet, and so for every image.
const LONG_ENOUGH: usize = sheet::LONGEST;
const MEGABYTE: usize = 1 << 20;

/// A good sheet, damage to it and to its image, and a sheet at a limit.
pub fn play(random: &mut Random, pair: &mut Pair) -> Result<(), Difference> {
    let (rule, programs) = (random.below(3) as u8, good_programs(random));
    let (sheet, image) = (assembler::sheet(rule, &programs), assembler::image(rule, &programs));
    read(random, pair, &sheet)?;
    write(random, pair, &image)?;
    for _ in 0..random.between(4, 12) {
        let damaged = damaged_sheet(random, &sheet);
        read(random, pair, &damaged)?;
    }
    for _ in 0..random.between(2, 6) {
        let damaged = damaged_image(random, &image);
        write(random, pair, &damaged)?;
    }
    let limit = sheet_at_a_limit(random);
    read(random, pair, &limit)
}

/// Empty buffers: what the two calls do not take stays so.
pub fn nothing_lent() -> Lent {
    Lent {
        image: bytes(&[]),
        table: words(&[]),
        guards: words(&[]),
        area: words(&[]),
        list: words(&[]),
        fresh: bytes(&[]),
        sheet: bytes(&[]),
        out: bytes(&[]),
    }
}

/// Reads a sheet. If that is done, its image gives that very sheet back.
fn read(random: &mut Random, pair: &mut Pair, sheet: &[u8]) -> Result<(), Difference> {
    if let Some(image) = written(random, pair, Call::ImageOf, sheet)? {
        let back = written(random, pair, Call::SheetOf, &image)?;
        assert!(back.as_deref() == Some(sheet), "a sheet that was read comes back, byte by byte");
    }
    Ok(())
}

/// Writes the sheet of an image. If that is done, the sheet gives that very image back.
fn write(random: &mut Random, pair: &mut Pair, image: &[u8]) -> Result<(), Difference> {
    if let Some(sheet) = written(random, pair, Call::SheetOf, image)? {
        let back = written(random, pair, Call::ImageOf, &sheet)?;
        assert!(back.as_deref() == Some(image), "an image that was written comes back, byte by byte");
    }
    Ok(())
}

/// What a call writes for a text, unless it is refused. It is made with outputs of several lengths,
/// the last of them long enough.
fn written(
    random: &mut Random,
    pair: &mut Pair,
    call: Call,
    text: &[u8],
) -> Result<Option<Vec<u8>>, Difference> {
    let length = call_into(pair, call, text, LONG_ENOUGH)?.map_or(0, |written| written.len());
    let shorter = if length > 0 { vec![random.below(length), length - 1] } else { vec![] };
    for room in shorter {
        let written = call_into(pair, call, text, room)?;
        assert!(written.is_none(), "{room} bytes are too few for {length}");
    }
    let longer = length + random.between(1, 20);
    call_into(pair, call, text, longer)?;
    call_into(pair, call, text, length)
}

/// What a call writes for a text into an output of so many bytes, unless it is refused. "A refusal
/// touches nothing; beyond the length nothing is touched."
fn call_into(pair: &mut Pair, call: Call, text: &[u8], room: usize) -> Result<Option<Vec<u8>>, Difference> {
    let (sheet, image) = if let Call::ImageOf = call { (text, &[][..]) } else { (&[][..], text) };
    let out = bytes(&vec![UNTOUCHED; room]);
    pair.lend(Lent { sheet: bytes(sheet), image: bytes(image), out, ..nothing_lent() });
    let Answer::Text(answer) = pair.call(call)? else {
        unreachable!("the calls of sheets give a length and a line");
    };
    let (written, behind) = pair.lent().out.lent().split_at(answer.length as usize);
    assert!(behind.iter().all(|&byte| byte == UNTOUCHED), "beyond the length nothing is touched");
    Ok((answer.refusal == DONE).then(|| written.to_vec()))
}

/// Good programs: few or many, short or long.
fn good_programs(random: &mut Random) -> Vec<Program> {
    let instructions = if random.percent(10) { INSTRUCTIONS } else { random.between(1, 12) };
    let shape = Shape { cells: 256, busy_cells: 256, programs: made_up::programs(random), instructions };
    random::programs(random, shape)
}

/// A good sheet with one thing wrong, or with one that only looks wrong.
fn damaged_sheet(random: &mut Random, good: &[u8]) -> Vec<u8> {
    if random.percent(60) {
        damaged_bytes(random, good)
    } else {
        damaged_lines(random, good)
    }
}

/// One byte changed, added or dropped; or the sheet cut off, its last newline too; or bytes behind it.
fn damaged_bytes(random: &mut Random, good: &[u8]) -> Vec<u8> {
    let (before, behind) = good.split_at(random.below(good.len()));
    let byte = any_byte(random);
    match random.below(8) {
        0 | 1 => [before, &[byte], &behind[1..]].concat(),
        2 | 3 => [before, &[byte], behind].concat(),
        4 => [before, &behind[1..]].concat(),
        5 => before.to_vec(),
        6 => good[..good.len() - 1].to_vec(),
        _ => [good, &vec![byte; random.between(1, 3)]].concat(),
    }
}

/// Two lines swapped, a line dropped, one doubled, or an odd one put in.
fn damaged_lines(random: &mut Random, good: &[u8]) -> Vec<u8> {
    let mut lines: Vec<&[u8]> = good.split_inclusive(|&byte| byte == b'\n').collect();
    let (one, other) = (random.below(lines.len()), random.below(lines.len()));
    match random.below(4) {
        0 => lines.swap(one, other),
        1 => drop(lines.remove(one)),
        2 => lines.insert(other, lines[one]),
        _ => lines.insert(one + random.below(2), odd_line(random)),
    }
    lines.concat()
}

/// A byte that a sheet may have somewhere, mostly; otherwise any.
fn any_byte(random: &mut Random) -> u8 {
    if random.percent(70) {
        random.pick(b"0000123456789   \n\nadeglmoprstu")
    } else {
        random.byte()
    }
}

/// A line that is good in some places or almost.
fn odd_line(random: &mut Random) -> &'static [u8] {
    random.pick(&[
        b"\n",
        b" \n",
        b"\r\n",
        b"program\n",
        b"program \n",
        b"programs\n",
        b"rule 0\n",
        b"rule 3\n",
        b"rule 00\n",
        b"end 0 0 0\n",
        b"end 0 0 1\n",
        b"end 0 0\n",
        b"end 0 0 0 0\n",
        b"end 0  0 0\n",
        b"End 0 0 0\n",
        b"set 7 255 255\n",
        b"set 8 0 0\n",
        b"set 0 256 0\n",
        b"set 0 00 0\n",
        b"set 0 01 0\n",
        b"set 0 4294967296 0\n",
        b"reject 255 0 0\n",
        b"reject -1 0 0\n",
        b"skipequal 0 0 255\n",
        b"skipequals 0 0 0\n",
        b"skipless 0 0 0\n",
        b"addto 0 0 0\n",
    ])
}

/// Sheets that are as long or as short as can be, or a little longer; and what is no sheet at all.
fn sheet_at_a_limit(random: &mut Random) -> Vec<u8> {
    match random.below(16) {
        0 => vec![],
        1 => vec![0; random.pick(&[1, 7, 8, 100, 65536])],
        2 => (0..random.between(1, 300)).map(|_| random.byte()).collect(),
        3 => sheets::longest(),
        4 | 5 => {
            let count = random.pick(&[PROGRAMS - 1, PROGRAMS, PROGRAMS + 1, 256, 257, 320]);
            all_alike(random, count, 1)
        }
        6 | 7 => {
            let length = random.pick(&[INSTRUCTIONS - 1, INSTRUCTIONS, INSTRUCTIONS + 1, 256, 257, 288]);
            one_long(random, length)
        }
        8 => all_alike(random, PROGRAMS + 1, INSTRUCTIONS + 1),
        9 => [&all_alike(random, PROGRAMS + 1, INSTRUCTIONS + 1)[..], odd_line(random)].concat(),
        10 | 11 => any_instructions(random),
        12 => {
            let digits = random.pick(b"019");
            let number = vec![digits; random.pick(&[3, 4, 5, 10, 20, 1000])];
            [b"rule 1\nprogram\nset 0 ", &number[..], b" 0\n"].concat()
        }
        13 => sheets::endless_line(random.pick(&[0, 1, 100, 65536])),
        14 => sheets::last_line_bad(random.pick(&[0, 65536])),
        _ => megabyte(random),
    }
}

/// So many programs of so many instructions that are all alike: good, or bad.
fn all_alike(random: &mut Random, programs: usize, instructions: usize) -> Vec<u8> {
    let instruction = random.pick(&[end(), [0, 0, 0, 1]]);
    assembler::sheet(random.below(3) as u8, &vec![vec![instruction; instructions]; programs])
}

/// Some programs, one of which has so many instructions: all good, or one of them bad.
fn one_long(random: &mut Random, instructions: usize) -> Vec<u8> {
    let mut programs = vec![vec![end()]; random.between(1, 5)];
    let long = random.below(programs.len());
    programs[long] = vec![end(); instructions];
    if random.percent(30) {
        let place = random.below(instructions);
        programs[long][place] = any_instruction(random);
    }
    assembler::sheet(random.below(3) as u8, &programs)
}

/// Programs of instructions whose lines are allowed: most are good, some are not.
fn any_instructions(random: &mut Random) -> Vec<u8> {
    let mut program = || (0..random.below(4)).map(|_| any_instruction(random)).collect();
    let programs: Vec<Program> = (0..3).map(|_| program()).collect();
    assembler::sheet(1, &programs)
}

/// Any operation, zeros behind it, and then one of the three bytes at or past its limit.
fn any_instruction(random: &mut Random) -> Instruction {
    let mut instruction = [random.below(NAMES.len()) as u8, 0, 0, 0];
    instruction[random.between(1, 3)] = random.pick(&[0, 0, 1, 2, 7, 8, 31, 32, 255]);
    instruction
}

/// A megabyte of something. Sheets of short lines have more of them than 16 bits can count, and may
/// end with a line that is not allowed.
fn megabyte(random: &mut Random) -> Vec<u8> {
    let last: &[u8] = random.pick(&[b"", b"programs\n"]);
    let repeated = |first: &[u8], line: &[u8]| [first, &line.repeat(MEGABYTE / line.len()), last].concat();
    match random.below(9) {
        0 => sheets::last_line_bad(MEGABYTE),
        1 => sheets::endless_line(MEGABYTE),
        2 => repeated(b"rule 1\n", b"program\n"),
        3 => repeated(b"rule 1\nprogram\n", b"end 0 0 0\n"),
        4 => repeated(b"rule 1\n", b"program\nset 0 0 0\nset 1 2 3\n"),
        5 => repeated(b"rule 1\nprogram\nset ", b"0"),
        6 => repeated(b"rule 1\nprogram\nset ", b" 0"),
        7 => vec![random.pick(b"\0\n r"); MEGABYTE],
        _ => (0..MEGABYTE).map(|_| random.byte()).collect(),
    }
}

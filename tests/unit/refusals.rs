//! Every row of "What each refusal says", in every way to earn it, for every call that can.

use material::assembler::{end, image, load, set, store, R0, R1};
use material::bad::{self, following, good_programs, places, replaced, WAYS};
use plain::area::{words, DETAIL, READS, READ_COUNT, SLOT_WORDS, STATE, STORES, STORE_COUNT};
use plain::area::{CARRIED, COMMITTED, FAULTED, GATHERED, REJECTED, WAITING};
use plain::guards::full_range;
use plain::refusal::{self, DONE};
use plain::steps::{RAW, RAW_WITH_WAR, WAW};
use plain::{gather, next_image, open, order, program, program_refusal, settle, why};
use plain::{Cause, Count, Refusal, Step};

const CELLS: usize = 3;

/// All that the calls are lent.
struct Lent {
    image: Vec<u8>,
    table: Vec<u32>,
    guards: Vec<u32>,
    area: Vec<u32>,
    list: Vec<u32>,
    fresh: Vec<u8>,
    out: Vec<u8>,
}

impl Lent {
    /// An opened batch of two programs (x = 1; loads x) and room for everything.
    fn opened() -> Lent {
        Lent {
            image: two_programs(),
            table: vec![5; CELLS],
            guards: full_range(CELLS),
            area: vec![0; words(CELLS, 2)],
            list: vec![9; 2],
            fresh: image(2, &[vec![end()]]),
            out: vec![9; 100],
        }
    }

    /// The same batch, with both programs in these states.
    fn in_states(states: [u32; 2]) -> Lent {
        let mut lent = Lent::opened();
        for (number, state) in states.into_iter().enumerate() {
            *lent.slot_word(number, STATE) = state;
        }
        lent
    }

    /// The same batch, run: program 0 is committed, program 1 carried for RAW.
    fn settled() -> Lent {
        let mut lent = Lent::opened();
        assert_eq!([lent.gather(0), lent.gather(1)], [DONE, DONE]);
        assert_eq!([lent.settle(0), lent.settle(1)], [DONE, DONE]);
        assert_eq!([*lent.slot_word(1, STATE), *lent.slot_word(1, DETAIL)], [CARRIED, RAW]);
        lent
    }

    fn slot_word(&mut self, number: usize, word: usize) -> &mut u32 {
        let place = words(self.table.len(), number) + word;
        &mut self.area[place]
    }

    fn open(&mut self) -> Refusal {
        self.unless_refused(|lent| open(&lent.image, &lent.table, &lent.guards, &mut lent.area))
    }

    fn gather(&mut self, number: usize) -> Refusal {
        self.unless_refused(|lent| {
            of_step(gather(&lent.image, &lent.table, &lent.guards, &mut lent.area, number))
        })
    }

    fn settle(&mut self, number: usize) -> Refusal {
        self.unless_refused(|lent| {
            of_step(settle(&lent.image, &mut lent.table, &lent.guards, &mut lent.area, number))
        })
    }

    fn order(&mut self) -> Refusal {
        self.unless_refused(|lent| {
            of_count(order(&lent.image, &lent.table, &lent.guards, &lent.area, &mut lent.list))
        })
    }

    fn next_image(&mut self) -> Refusal {
        self.unless_refused(|lent| {
            of_count(next_image(
                &lent.image,
                &lent.table,
                &lent.guards,
                &lent.area,
                &lent.fresh,
                &mut lent.out,
            ))
        })
    }

    fn why(&mut self, number: usize) -> Refusal {
        self.unless_refused(|lent| of_cause(why(&lent.image, &lent.table, &lent.guards, &lent.area, number)))
    }

    /// "A refusal changes no lent memory."
    fn unless_refused(&mut self, call: impl Fn(&mut Lent) -> Refusal) -> Refusal {
        let before = (self.table.clone(), self.area.clone(), self.list.clone(), self.out.clone());
        let refusal = call(self);
        let after = (&self.table, &self.area, &self.list, &self.out);
        assert!(refusal == DONE || (&before.0, &before.1, &before.2, &before.3) == after);
        refusal
    }

    /// All six calls that are lent image, table, guards and area refuse so.
    fn assert_all_refuse(mut self, refusal: Refusal) {
        assert_eq!(self.open(), refusal);
        self.assert_all_but_opening_refuse(refusal);
    }

    fn assert_all_but_opening_refuse(mut self, refusal: Refusal) {
        assert_eq!(self.gather(0), refusal);
        assert_eq!(self.settle(0), refusal);
        assert_eq!(self.order(), refusal);
        assert_eq!(self.next_image(), refusal);
        assert_eq!(self.why(0), refusal);
    }
}

// An answer's refusal. "A refusal returns its number, 0 for every other result."

fn of_step(Step { refusal, state, detail }: Step) -> Refusal {
    assert!(refusal == DONE || (state, detail) == (0, 0));
    refusal
}

fn of_count(Count { refusal, count }: Count) -> Refusal {
    assert!(refusal == DONE || count == 0);
    refusal
}

fn of_cause(cause: Cause) -> Refusal {
    let refusal = cause.refusal;
    assert!(refusal == DONE || cause == Cause { refusal, ..Cause::default() });
    refusal
}

fn two_programs() -> Vec<u8> {
    image(1, &[vec![set(R1, 1), store(R0, R1)], vec![load(R1, R0)]])
}

/// A change to a good image.
fn changed(change: impl Fn(&mut Vec<u8>)) -> Vec<u8> {
    let mut image = two_programs();
    change(&mut image);
    image
}

/// An image gives this refusal at every call, and that of a fresh image where it is the fresh one.
fn assert_image_refused(image: &[u8], refusal: Refusal) {
    assert_eq!(program_refusal(image, 0), refusal);
    assert!(program(image, 0).is_empty());
    Lent { image: image.to_vec(), ..Lent::opened() }.assert_all_refuse(refusal);
    let mut lent = Lent { fresh: image.to_vec(), ..Lent::in_states([COMMITTED, CARRIED]) };
    assert_eq!(lent.next_image(), refusal.of_fresh());
}

/// The names that the tests below use stand for the document's numbers; so do those of the states
/// and of the reasons to carry a program.
#[test]
fn names_are_the_documents_numbers() {
    let numbers = |refusals: &[Refusal]| refusals.iter().map(|refusal| refusal.number).collect::<Vec<_>>();
    let image = [refusal::IMAGE_SIZE, refusal::HEADER, refusal::OFFSETS];
    let instruction = [refusal::OPERATION, refusal::REGISTER, refusal::UNUSED, refusal::SKIP];
    let others = [
        refusal::TABLE_SIZE,
        refusal::AREA_SIZE,
        refusal::AREA,
        refusal::NUMBER,
        refusal::STATE,
        refusal::TOO_SHORT,
        refusal::TOO_MANY,
        refusal::NO_ORDER,
        refusal::NOT_CARRIED,
        refusal::GUARDS,
        refusal::REASON,
    ];
    assert_eq!(DONE.number, 0);
    assert_eq!(numbers(&image), [1, 2, 3]);
    assert_eq!(numbers(&instruction), [41, 42, 43, 44]);
    assert_eq!(numbers(&others), [5, 6, 7, 8, 9, 10, 11, 12, 13, 14, 15]);
    assert_eq!(numbers(&image.map(Refusal::of_fresh)), [21, 22, 23]);
    assert_eq!(numbers(&instruction.map(Refusal::of_fresh)), [61, 62, 63, 64]);
    assert_eq!([WAITING, GATHERED, REJECTED, FAULTED, COMMITTED, CARRIED], [0, 1, 2, 3, 4, 5]);
    assert_eq!([WAW, RAW, RAW_WITH_WAR], [1, 2, 3]);
}

#[test]
fn row_0_done() {
    let mut lent = Lent::opened();
    assert_eq!(program_refusal(&lent.image, 1), DONE);
    assert_eq!(program(&lent.image, 1), load(R1, R0));
    assert_eq!(lent.open(), DONE);
    assert_eq!([lent.gather(1), lent.gather(0)], [DONE, DONE]);
    assert_eq!([lent.settle(1), lent.settle(0)], [DONE, DONE]);
    assert_eq!((lent.order(), lent.next_image(), lent.why(1)), (DONE, DONE, DONE));
    assert_eq!(lent.table, [1, 5, 5]);
    assert_eq!(lent.list, [0, 9], "beyond the committed count the list is untouched");
    let next = image(2, &[vec![load(R1, R0)], vec![end()]]);
    assert!(lent.out.starts_with(&next));
    assert!(lent.out[next.len()..].iter().all(|&byte| byte == 9), "beyond the image the output is untouched");
}

#[test]
fn row_1_image_size() {
    assert_image_refused(&[], refusal::IMAGE_SIZE);
    assert_image_refused(&[0; 5], refusal::IMAGE_SIZE);
    assert_image_refused(&[0; 8327], refusal::IMAGE_SIZE);
}

#[test]
fn row_2_header() {
    assert_image_refused(&changed(|image| image[0] = 65), refusal::HEADER);
    assert_image_refused(&changed(|image| image[1] = 1), refusal::HEADER);
    assert_image_refused(&changed(|image| image[2] = 3), refusal::HEADER);
    assert_image_refused(&changed(|image| image[3] = 1), refusal::HEADER);
    assert_image_refused(&[65, 0, 0, 0, 0, 0], refusal::HEADER);
}

#[test]
fn row_3_offsets() {
    assert_image_refused(&[1, 0, 0, 0, 8, 0], refusal::OFFSETS);
    assert_image_refused(&changed(|image| image[4] += 4), refusal::OFFSETS);
    assert_image_refused(&changed(|image| image[6] = 8), refusal::OFFSETS);
    assert_image_refused(&changed(|image| image[6] += 1), refusal::OFFSETS);
    assert_image_refused(&changed(|image| image[8] += 4), refusal::OFFSETS);
    assert_image_refused(&changed(|image| image.push(0)), refusal::OFFSETS);
    assert_image_refused(&image(0, &[vec![end(); 33]]), refusal::OFFSETS);
}

/// "Return program and instruction too": here program 1 and instruction 1.
#[test]
fn rows_41_to_44_instructions() {
    for way in WAYS {
        for instruction in bad::instructions(way, 0) {
            assert_image_refused(&image(0, &[vec![], vec![end(), instruction]]), way.at(1, 1));
        }
    }
}

/// At the first, a middle and the last instruction of the first, a middle and the last program, and
/// so 61 to 64 where the image is the fresh one.
#[test]
fn rows_41_to_44_and_61_to_64_at_every_place() {
    let good = good_programs();
    for place in places(&good) {
        for way in WAYS {
            for instruction in bad::instructions(way, following(&good, place)) {
                let bad = image(2, &replaced(&good, place, instruction));
                assert_image_refused(&bad, way.at(place.0, place.1));
            }
        }
    }
}

#[test]
fn row_5_table_size() {
    for cells in [0, 257] {
        let (table, guards) = (vec![0; cells], full_range(cells));
        let lent = Lent { table, guards, area: vec![0; words(cells, 2)], ..Lent::opened() };
        lent.assert_all_refuse(refusal::TABLE_SIZE);
    }
}

/// "14 guard list not T pairs": one word too few or too many, one pair too few or too many, no pair, and one
/// word a cell.
#[test]
fn row_14_guards() {
    let pairs = 2 * CELLS;
    for words in [pairs - 1, pairs + 1, pairs - 2, pairs + 2, 0, CELLS] {
        Lent { guards: vec![0; words], ..Lent::opened() }.assert_all_refuse(refusal::GUARDS);
    }
}

/// "After 5", and so before 6: what the guards say is not looked at.
#[test]
fn row_14_stands_between_5_and_6() {
    let bad = || Lent { guards: vec![], area: vec![9; 1], ..Lent::opened() };
    bad().assert_all_refuse(refusal::GUARDS);
    Lent { table: vec![], ..bad() }.assert_all_refuse(refusal::TABLE_SIZE);
    Lent { guards: full_range(CELLS), ..bad() }.assert_all_refuse(refusal::AREA_SIZE);
    for words in [[0, 0], [1, 0], [u32::MAX, 0]] {
        let mut lent = Lent { guards: words.repeat(CELLS), ..Lent::settled() };
        assert_eq!((lent.order(), lent.next_image(), lent.why(1)), (DONE, DONE, DONE));
        assert_eq!(lent.open(), DONE);
    }
}

#[test]
fn row_6_area_size() {
    for words in [0, words(CELLS, 2) - 1, words(CELLS, 2) + 1] {
        Lent { area: vec![0; words], ..Lent::opened() }.assert_all_refuse(refusal::AREA_SIZE);
    }
}

#[test]
fn row_7_area() {
    let slot = words(CELLS, 1);
    let counted_cell = |count: usize, cell: usize| {
        move |area: &mut [u32]| {
            area[slot + count] = 32;
            area[slot + cell + 31] = CELLS as u32;
        }
    };
    let bad: [&dyn Fn(&mut [u32]); 7] = [
        &|area| area[0] = 3,
        &|area| area[2 * CELLS - 1] = 3,
        &|area| area[slot + STATE] = 6,
        &|area| area[slot + READ_COUNT] = 33,
        &|area| area[slot + STORE_COUNT] = 33,
        &counted_cell(READ_COUNT, READS),
        &counted_cell(STORE_COUNT, STORES),
    ];
    for spoil in bad {
        let mut lent = Lent::opened();
        spoil(&mut lent.area);
        lent.assert_all_but_opening_refuse(refusal::AREA);
        let mut lent = Lent::opened();
        spoil(&mut lent.area);
        assert_eq!(lent.open(), DONE);
    }
}

#[test]
fn row_7_looks_at_nothing_else() {
    let mut lent = Lent::opened();
    let slot = words(CELLS, 1);
    lent.area[..2 * CELLS].fill(2);
    lent.area[slot + DETAIL] = u32::MAX;
    lent.area[slot + READS..slot + SLOT_WORDS].fill(u32::MAX);
    assert_eq!(lent.gather(1), DONE);
}

#[test]
fn row_8_number() {
    for number in [2, usize::MAX] {
        assert_eq!(program_refusal(&two_programs(), number), refusal::NUMBER);
        assert_eq!(Lent::opened().gather(number), refusal::NUMBER);
        assert_eq!(Lent::opened().settle(number), refusal::NUMBER);
        assert_eq!(Lent::opened().why(number), refusal::NUMBER);
        assert_eq!(Lent::settled().why(number), refusal::NUMBER);
    }
}

#[test]
fn row_9_states() {
    for state in GATHERED..=CARRIED {
        assert_eq!(Lent::in_states([state, WAITING]).gather(0), refusal::STATE);
        assert_eq!(Lent::in_states([state, WAITING]).settle(0), refusal::STATE);
        assert_eq!(Lent::in_states([state, GATHERED]).settle(1), DONE);
    }
    for state in GATHERED + 1..=CARRIED {
        assert_eq!(Lent::in_states([state, GATHERED]).settle(0), refusal::STATE);
    }
    for state in [WAITING, GATHERED] {
        assert_eq!(Lent::in_states([COMMITTED, state]).order(), refusal::STATE);
        assert_eq!(Lent::in_states([COMMITTED, state]).next_image(), refusal::STATE);
    }
}

/// "9 while any state is 0 or 1", whoever's it is, and whatever why would say.
#[test]
fn row_9_while_one_program_is_not_settled() {
    for state in [WAITING, GATHERED] {
        for number in [0, 1] {
            assert_eq!(Lent::in_states([COMMITTED, state]).why(number), refusal::STATE);
            assert_eq!(Lent::in_states([state, COMMITTED]).why(number), refusal::STATE);
        }
        let mut lent = Lent::settled();
        *lent.slot_word(0, STATE) = state;
        assert_eq!(lent.why(1), refusal::STATE, "also when this program is carried");
        *lent.slot_word(1, DETAIL) = WAW;
        assert_eq!(lent.why(1), refusal::STATE, "also when its detail is wrong");
    }
}

#[test]
fn row_10_too_short() {
    let settled = || Lent::in_states([COMMITTED, CARRIED]);
    assert_eq!(Lent { list: vec![9; 1], ..settled() }.order(), refusal::TOO_SHORT);
    assert_eq!(Lent { list: vec![9; 2], ..settled() }.order(), DONE);
    let next = 2 * 2 + 6 + 8;
    assert_eq!(Lent { out: vec![9; next - 1], ..settled() }.next_image(), refusal::TOO_SHORT);
    assert_eq!(Lent { out: vec![9; next], ..settled() }.next_image(), DONE);
}

#[test]
fn row_11_too_many() {
    let fresh = |programs: usize| image(0, &vec![vec![]; programs]);
    let settled = |programs: usize| Lent { fresh: fresh(programs), ..Lent::in_states([CARRIED, CARRIED]) };
    assert_eq!(Lent { out: vec![], ..settled(63) }.next_image(), refusal::TOO_MANY);
    assert_eq!(Lent { out: vec![9; 8326], ..settled(62) }.next_image(), DONE);
}

#[test]
fn row_12_no_order() {
    let mut knot = Lent::in_states([COMMITTED, COMMITTED]);
    for number in [0, 1] {
        *knot.slot_word(number, READ_COUNT) = 1;
        *knot.slot_word(number, STORE_COUNT) = 1;
        *knot.slot_word(number, READS) = number as u32;
        *knot.slot_word(number, STORES) = 1 - number as u32;
    }
    assert_eq!(knot.order(), refusal::NO_ORDER);
    knot.list.pop();
    assert_eq!(knot.order(), refusal::TOO_SHORT);
}

/// Rejected, faulted and committed programs are not carried, whatever their slots and details say.
#[test]
fn row_13_not_carried() {
    for state in REJECTED..CARRIED {
        assert_eq!(Lent::in_states([COMMITTED, state]).why(1), refusal::NOT_CARRIED);
        let mut lent = Lent::settled();
        *lent.slot_word(1, STATE) = state;
        assert_eq!(lent.why(1), refusal::NOT_CARRIED, "state {state} with the slot of a carried program");
    }
    assert_eq!(Lent::settled().why(0), refusal::NOT_CARRIED);
}

#[test]
fn row_15_a_detail_that_is_not_the_reason() {
    assert_eq!(Lent::settled().why(1), DONE);
    for detail in [0, WAW, RAW_WITH_WAR, 4, RAW + 256, u32::MAX] {
        let mut lent = Lent::settled();
        *lent.slot_word(1, DETAIL) = detail;
        assert_eq!(lent.why(1), refusal::REASON, "detail {detail}");
    }
}

/// RAW alone is a reason under Rule 1 only: the same slot and marks under another rule.
#[test]
fn row_15_looks_at_the_rule() {
    for (rule, expected) in [(0, DONE), (1, DONE), (2, refusal::REASON)] {
        let mut lent = Lent::settled();
        lent.image[2] = rule;
        assert_eq!(lent.why(1), expected, "rule {rule}");
    }
}

/// "15 its detail is not the reason that its slot, the marks and the rule give": nor is any detail
/// where they give none.
#[test]
fn row_15_no_reason_at_all() {
    for detail in [0, WAW, RAW, RAW_WITH_WAR] {
        let mut nothing_read = Lent::settled();
        *nothing_read.slot_word(1, DETAIL) = detail;
        *nothing_read.slot_word(1, READ_COUNT) = 0;
        assert_eq!(nothing_read.why(1), refusal::REASON, "detail {detail}, nothing read");
        for mark in [0, 2] {
            let mut own_mark = Lent::settled();
            *own_mark.slot_word(1, DETAIL) = detail;
            own_mark.area[0] = mark;
            assert_eq!(own_mark.why(1), refusal::REASON, "detail {detail}, mark {mark}");
        }
        let mut number_0 = Lent::in_states([CARRIED, CARRIED]);
        *number_0.slot_word(0, DETAIL) = detail;
        assert_eq!(number_0.why(0), refusal::REASON, "detail {detail}, program 0");
    }
}

#[test]
fn the_first_row_that_holds_decides() {
    assert_image_refused(&changed(|image| (image[2], image[4]) = (3, 0)), refusal::HEADER);
    assert_image_refused(&changed(|image| (image[4], image[10]) = (0, 9)), refusal::OFFSETS);
    let bad = changed(|image| image[14] = 9);
    let mut lent =
        Lent { image: bad.clone(), area: vec![9; 1], guards: vec![], table: vec![], ..Lent::opened() };
    assert_eq!(lent.gather(9), refusal::OPERATION.at(0, 1));
    assert_eq!(program_refusal(&bad, 9), refusal::OPERATION.at(0, 1));
    let mut lent = Lent { area: vec![9; 1], table: vec![], ..Lent::opened() };
    assert_eq!(lent.gather(9), refusal::TABLE_SIZE);
    let mut lent = Lent { list: vec![], ..Lent::in_states([COMMITTED, WAITING]) };
    assert_eq!(lent.order(), refusal::STATE);
    let mut lent = Lent { fresh: bad.clone(), ..Lent::in_states([COMMITTED, WAITING]) };
    assert_eq!(lent.next_image(), refusal::STATE);
    let mut lent = Lent { fresh: bad, out: vec![], ..Lent::in_states([COMMITTED, CARRIED]) };
    assert_eq!(lent.next_image(), refusal::OPERATION.of_fresh().at(0, 1));
    lent.image[14] = 10;
    assert_eq!(lent.next_image(), refusal::OPERATION.at(0, 1), "the image is looked at before the fresh one");
    let mut lent = Lent::in_states([COMMITTED, WAITING]);
    assert_eq!(lent.why(2), refusal::NUMBER);
    lent.area[0] = 3;
    assert_eq!(lent.why(2), refusal::AREA);
}

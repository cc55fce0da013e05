//! Cases 1 to 14 of the bench sheet, run through the calls and through the batch program; and the
//! lessons' batches and the guarded heater, run through the calls.

use material::assembler::input;
use material::bench_sheet::cases;
use material::case::{Case, Outcome};
use material::heater::heater;
use material::lessons::lessons;
use plain::area::{self, GATHERED};
use plain::batch::printed;
use plain::image::PROGRAMS;
use plain::refusal::DONE;
use plain::{gather, open, order, settle, Refusal};

/// Opens, gathers and settles a case in number order; its outcome, and the area at the end.
fn run(case: &Case) -> Result<(Outcome, Vec<u32>), Refusal> {
    let programs = usize::from(case.image[0]);
    let mut table = case.table.clone();
    let mut area = vec![7; area::words(table.len(), programs)];
    let refusal = open(&case.image, &table, &case.guards, &mut area);
    if refusal != DONE {
        return Err(refusal);
    }
    let mut slots = Vec::new();
    for number in 0..programs {
        let step = gather(&case.image, &table, &case.guards, &mut area, number);
        slots.push((step.state, step.detail));
    }
    for number in 0..programs {
        if slots[number].0 == GATHERED {
            let step = settle(&case.image, &mut table, &case.guards, &mut area, number);
            slots[number] = (step.state, step.detail);
        }
    }
    let mut list = [0; PROGRAMS];
    let listed = order(&case.image, &table, &case.guards, &area, &mut list);
    assert_eq!(listed.refusal, DONE);
    let order = list[..listed.count as usize].to_vec();
    Ok((Outcome { slots, order, table }, area))
}

fn named(name: &str) -> Case {
    cases().into_iter().find(|case| case.name == name).expect("the sheet has this case")
}

fn assert_comes_out_as_expected(case: &Case) {
    match (run(case), &case.expected) {
        (Ok((outcome, _)), Ok(expected)) => {
            assert_eq!(outcome.slots, expected.slots, "case {}", case.name);
            assert_eq!(outcome.order, expected.order, "case {}", case.name);
            assert_eq!(outcome.table, expected.table, "case {}", case.name);
        }
        (Err(refusal), Err(expected)) => assert_eq!(refusal, *expected, "case {}", case.name),
        _ => panic!("case {}: a refusal and an outcome", case.name),
    }
}

#[test]
fn every_case_comes_out_as_the_sheet_says() {
    cases().iter().for_each(assert_comes_out_as_expected);
}

#[test]
fn every_lesson_comes_out_as_it_says() {
    lessons().iter().for_each(assert_comes_out_as_expected);
}

#[test]
fn the_heater_comes_out_as_it_says() {
    assert_comes_out_as_expected(&heater());
}

#[test]
fn the_printed_example_of_case_2() {
    let case = named("02");
    let example = "batch 2 3 2\n0 committed 0\n1 committed 0\n2 carried 1\norder 1 0\n0 10\n1 5\n";
    assert_eq!(printed(&input(&case.table, &case.image)), example);
}

#[test]
fn an_empty_order_prints_order() {
    let case = named("07");
    assert_eq!(case.image.len(), 6);
    assert_eq!(printed(&input(&case.table, &case.image)), "batch 3 0 1\norder\n0 1\n1 2\n2 3\n");
}

#[test]
fn case_13_reads_0_and_2_and_stores_3() {
    let (_, area) = run(&named("13")).ok().expect("case 13 runs");
    let slot = area::slot(&area, 4, 0);
    assert_eq!(area::reads(slot), [0, 2]);
    assert_eq!(area::stores(slot), [3]);
}

#[test]
fn the_program_refuses_what_it_must() {
    let case = named("14b");
    assert_eq!(printed(&input(&case.table, &case.image)), "refused 44\n");
    for input in [&[][..], &[1], &[0, 0], &[1, 1], &[1, 0, 9, 9, 9], &[2, 0, 1, 1, 1, 1, 2, 2, 2]] {
        assert_eq!(printed(input), "refused 5\n");
    }
    assert_eq!(printed(&[1, 0, 9, 9, 9, 9]), "refused 1\n");
}

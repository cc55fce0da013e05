//! What the programs `why` and `guarded_why` print, for each way in which a program can end.

use material::assembler::{guarded_input, guards, image, input, load, set, store, R0, R1};
use material::bench_sheet::cases;
use material::heater::heater;
use plain::{batch, explain};

/// What the program prints for a case of the bench sheet.
fn printed(name: &str) -> String {
    let case = cases().into_iter().find(|case| case.name == name).expect("the sheet has this case");
    explain::printed(&input(&case.table, &case.image))
}

#[test]
fn committed() {
    let page = "\
0 committed
  No earlier program stores a cell that it reads or stores, so its stores are in the table.
";
    assert_eq!(printed("11a"), page);
}

#[test]
fn committed_before_an_earlier_program() {
    let pages = "\
0 committed
  No earlier program stores a cell that it reads or stores, so its stores are in the table.
1 committed
  It read cell 1 as it was when the batch was opened, while program 0 stores it,
  so it comes before program 0 (0 -> 1), and its stores are in the table.
2 committed
  It read cell 1 as it was when the batch was opened, while program 0 stores it,
  so it comes before program 0 (0 -> 2), and its stores are in the table.
";
    assert_eq!(printed("04"), pages);
}

/// Two programs are carried: the second of them is number 1 of the next batch.
#[test]
fn carried_for_raw_and_for_waw() {
    let pages = "\
0 committed
  No earlier program stores a cell that it reads or stores, so its stores are in the table.
1 carried raw cell 0 program 0
  It read cell 0 as it was when the batch was opened, while program 0, which comes first, stores it.
  Its reservations stay; it runs again in the next batch, as number 0, and ends within 1 more batch.
2 carried waw cell 0 program 0
  It stores cell 0, and so does program 0, which comes first: the two cannot both count in one batch.
  Its reservations stay; it runs again in the next batch, as number 1, and ends within 2 more batches.
";
    assert_eq!(printed("01"), pages);
}

#[test]
fn carried_for_raw_with_war() {
    let pages = "\
0 committed
  No earlier program stores a cell that it reads or stores, so its stores are in the table.
1 committed
  No earlier program stores a cell that it reads or stores, so its stores are in the table.
2 carried raw cell 1 program 0 war cell 2 program 1
  It would have to come before program 0, which stores cell 1 that it read as it was (RAW, 0 -> 2),
  and after program 1, which read cell 2 that it stores (WAR, 2 -> 1): the two can close a circle.
  Its reservations stay; it runs again in the next batch, as number 0, and ends within 1 more batch.
";
    assert_eq!(printed("05"), pages);
}

#[test]
fn rejected() {
    let pages = "\
0 rejected code 7
  It rejected with code 7, so it stores nothing, reserves nothing and is not carried.
1 committed
  No earlier program stores a cell that it reads or stores, so its stores are in the table.
";
    assert_eq!(printed("10"), pages);
}

#[test]
fn faulted_at_a_store() {
    let page = "\
0 faulted store at 1
  Its instruction 1, counted from 0, stores to a cell outside the table, whose last cell is 3.
  It stores nothing, reserves nothing and is not carried.
";
    assert_eq!(printed("08a"), page);
}

#[test]
fn faulted_at_a_load() {
    let page = "\
0 faulted load at 2
  Its instruction 2, counted from 0, loads a cell outside the table, whose last cell is 0.
  It stores nothing, reserves nothing and is not carried.
";
    let programs = [vec![set(R0, 0), set(R1, 65535), load(R0, R1), store(R1, R0)]];
    assert_eq!(explain::printed(&input(&[9], &image(2, &programs))), page);
}

/// The numbers are read as the guard reads them, with their sign; the page is that of `guarded_why`.
#[test]
fn faulted_at_a_guard() {
    let heater = heater();
    let pages = "\
0 faulted guard at 4
  Its instruction 4, counted from 0, stores -25 to cell 0, whose guard asks for at least -20 and at most 45.
  It stores nothing, reserves nothing and is not carried.
1 committed
  No earlier program stores a cell that it reads or stores, so its stores are in the table.
2 faulted guard at 2
  Its instruction 2, counted from 0, stores 0 to cell 2, whose guard asks for at least 1 and at most 0.
  It stores nothing, reserves nothing and is not carried.
3 committed
  No earlier program stores a cell that it reads or stores, so its stores are in the table.
";
    assert_eq!(explain::printed_guarded(&guarded_input(&heater.table, &heater.guards, &heater.image)), pages);
}

/// The value is that of the run on the opening table, although program 0 has since stored another there.
#[test]
fn the_value_at_a_guard_is_that_of_the_opening_table() {
    let programs = [vec![set(R1, 5), store(R0, R1)], vec![load(R1, R0), set(R0, 1), store(R0, R1)]];
    let list = guards(&[(i32::MIN, i32::MAX), (i32::MIN, -2)]);
    let input = guarded_input(&[u32::MAX, 0], &list, &image(2, &programs));
    let said = "stores -1 to cell 1, whose guard asks for at least -2147483648 and at most -2.\n";
    assert!(explain::printed_guarded(&input).contains(said));
}

#[test]
fn a_guarded_page_under_the_full_range_is_that_of_why() {
    for case in cases() {
        let guarded = guarded_input(&case.table, &case.guards, &case.image);
        let unguarded = input(&case.table, &case.image);
        assert_eq!(explain::printed_guarded(&guarded), explain::printed(&unguarded), "case {}", case.name);
    }
}

#[test]
fn no_programs_print_nothing() {
    assert_eq!(printed("07"), "");
}

#[test]
fn refused_input_is_what_batch_prints() {
    let case = cases().pop().expect("the last case is refused");
    let of_case = input(&case.table, &case.image);
    for input in [&of_case[..], &[], &[1], &[0, 0], &[1, 1], &[1, 0, 9, 9, 9], &[1, 0, 9, 9, 9, 9]] {
        let refused = explain::printed(input);
        assert!(refused.starts_with("refused "));
        assert_eq!(refused, batch::printed(input));
    }
}

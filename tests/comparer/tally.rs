//! What was seen: how often each call gave each refusal, at which places it named a bad instruction, how
//! often each outcome came, and what of a guard its stores met.

use crate::calls::{Answer, Call};
use crate::lent::Lent;
use crate::met::{self, MEETINGS};
use crate::places::{names_an_instruction, Place};
use material::bad::{TYPED_WAYS, WAYS};
use plain::area::{CARRIED, COMMITTED, FAULTED, GATHERED, REJECTED};
use plain::machine::{FAULT_AT_GUARD, FAULT_AT_LOAD, FAULT_AT_STORE};
use plain::refusal::{self, DONE};
use plain::steps::{RAW, RAW_WITH_WAR, WAW};
use plain::Refusal;
use std::collections::{BTreeMap, BTreeSet};
use std::fmt;

/// Each call with the numbers of the refusals that it can give: document 01, "What each refusal says",
/// and requests 1 to 3 and 5 of document 02.
fn refusals() -> [(&'static str, BTreeSet<u32>); 10] {
    let of_image = [&[refusal::IMAGE_SIZE, refusal::HEADER, refusal::OFFSETS], &WAYS[..]].concat();
    let program = [&[DONE], &of_image[..], &[refusal::NUMBER]].concat();
    let open = [&[DONE], &of_image[..], &[refusal::TABLE_SIZE, refusal::GUARDS, refusal::AREA_SIZE]].concat();
    let later = [&open[..], &[refusal::AREA, refusal::STATE]].concat();
    let step = [&later[..], &[refusal::NUMBER]].concat();
    let why = [&step[..], &[refusal::NOT_CARRIED, refusal::REASON]].concat();
    let order = [&later[..], &[refusal::TOO_SHORT, refusal::NO_ORDER]].concat();
    let of_fresh: Vec<Refusal> = of_image.iter().map(|refusal| refusal.of_fresh()).collect();
    let next_image = [&later[..], &[refusal::TOO_SHORT, refusal::TOO_MANY], &of_fresh].concat();
    let of_sheet = [&[refusal::LINE, refusal::HEADER, refusal::OFFSETS], &TYPED_WAYS[..]].concat();
    let image_of = [&[DONE], &of_sheet[..], &[refusal::TOO_SHORT]].concat();
    let sheet_of = [&[DONE], &of_image[..], &[refusal::TOO_SHORT]].concat();
    let calls = [
        ("program", program.clone()),
        ("program_refusal", program),
        ("open", open),
        ("gather", step.clone()),
        ("settle", step),
        ("why", why),
        ("order", order),
        ("next_image", next_image),
        ("image_of", image_of),
        ("sheet_of", sheet_of),
    ];
    calls.map(|(call, refusals)| (call, refusals.iter().map(|refusal| refusal.number).collect()))
}

/// What may come of a call that is done, or of one that does not allow a line.
const OUTCOMES: [&str; 19] = [
    "gathered",
    "rejected",
    "faulted at a load",
    "faulted at a store",
    "faulted at a guard",
    "committed",
    "carried for WAW",
    "carried for RAW",
    "carried for RAW with WAR",
    "why: WAW",
    "why: RAW",
    "why: RAW with WAR",
    "order empty",
    "order rising",
    "order not rising",
    "line 1 is not allowed",
    "line 2 is not allowed",
    "a later line is not allowed",
    "the last line is unended",
];

#[derive(Default)]
pub struct Tally {
    refusals: BTreeMap<(&'static str, u32), u64>,
    places: BTreeMap<(&'static str, u32, Place), u64>,
    outcomes: BTreeMap<&'static str, u64>,
    meetings: BTreeMap<&'static str, u64>,
}

impl Tally {
    /// Notes a call, its answer, and the memory after it.
    pub fn note(&mut self, call: Call, answer: &Answer, lent: &Lent) {
        let refusal = refusal_of(call, answer, lent);
        *self.refusals.entry((name(call), refusal.number)).or_default() += 1;
        if let Some(place) = Place::named(call, refusal, lent) {
            *self.places.entry((name(call), refusal.number, place)).or_default() += 1;
        }
        if let Some(outcome) = outcome(refusal, answer, call, lent) {
            *self.outcomes.entry(outcome).or_default() += 1;
        }
        if let (Call::Gather(number), DONE) = (call, refusal) {
            for meeting in met::meetings(number, lent) {
                *self.meetings.entry(meeting).or_default() += 1;
            }
        }
    }

    pub fn calls(&self) -> u64 {
        self.refusals.values().sum()
    }

    /// What can come and never came.
    pub fn never_seen(&self) -> Vec<String> {
        let mut never = Vec::new();
        for (call, numbers) in refusals() {
            let unseen = numbers.iter().filter(|&&number| self.seen(call, number) == 0);
            never.extend(unseen.map(|number| format!("{call} with refusal {number}")));
            for number in numbers.into_iter().filter(|&number| names_an_instruction(number)) {
                let unseen = Place::all().filter(|&place| !self.places.contains_key(&(call, number, place)));
                never.extend(unseen.map(|place| format!("{call} with refusal {number}, {place}")));
            }
        }
        let unseen = OUTCOMES.iter().filter(|outcome| !self.outcomes.contains_key(*outcome));
        never.extend(unseen.map(|outcome| outcome.to_string()));
        let unseen = MEETINGS.iter().filter(|meeting| !self.meetings.contains_key(*meeting));
        never.extend(unseen.map(|meeting| format!("a program that {meeting}")));
        never
    }

    fn seen(&self, call: &'static str, number: u32) -> u64 {
        self.refusals.get(&(call, number)).copied().unwrap_or(0)
    }

    /// How often any call gave this refusal at this place.
    fn seen_at(&self, number: u32, place: Place) -> u64 {
        let here = self.places.iter().filter(|(&(_, is, at), _)| is == number && at == place);
        here.map(|(_, times)| times).sum()
    }
}

/// The numbers that some call can give.
fn all_numbers() -> BTreeSet<u32> {
    refusals().into_iter().flat_map(|(_, numbers)| numbers).collect()
}

fn name(call: Call) -> &'static str {
    match call {
        Call::Program(_) => "program",
        Call::ProgramRefusal(_) => "program_refusal",
        Call::Open => "open",
        Call::Gather(_) => "gather",
        Call::Settle(_) => "settle",
        Call::Why(_) => "why",
        Call::Order => "order",
        Call::NextImage => "next_image",
        Call::ImageOf => "image_of",
        Call::SheetOf => "sheet_of",
    }
}

/// A program's part does not tell whether it was refused; the second call on the same two does.
fn refusal_of(call: Call, answer: &Answer, lent: &Lent) -> Refusal {
    match (call, answer) {
        (Call::Program(number), _) => plain::program_refusal(lent.image.lent(), number),
        (_, Answer::Refusal(refusal)) => *refusal,
        (_, Answer::Step(step)) => step.refusal,
        (_, Answer::Cause(cause)) => cause.refusal,
        (_, Answer::Count(count)) => count.refusal,
        (_, Answer::Text(text)) => text.refusal,
        (_, Answer::Part(_)) => unreachable!("only a program is a part"),
    }
}

fn outcome(refusal: Refusal, answer: &Answer, call: Call, lent: &Lent) -> Option<&'static str> {
    match (call, answer) {
        (_, Answer::Text(text)) if refusal == refusal::LINE => Some(outcome_of_line(text.line, lent)),
        _ if refusal != DONE => None,
        (_, Answer::Step(step)) => Some(outcome_of_step(step.state, step.detail)),
        (_, Answer::Cause(cause)) => Some(outcome_of_why(cause.reason)),
        (Call::Order, Answer::Count(listed)) => Some(match &lent.list.lent()[..listed.count as usize] {
            [] => "order empty",
            order if order.is_sorted() => "order rising",
            _ => "order not rising",
        }),
        _ => None,
    }
}

fn outcome_of_step(state: u32, detail: u32) -> &'static str {
    match (state, detail, detail / 256) {
        (GATHERED, ..) => "gathered",
        (REJECTED, ..) => "rejected",
        (FAULTED, _, FAULT_AT_LOAD) => "faulted at a load",
        (FAULTED, _, FAULT_AT_STORE) => "faulted at a store",
        (FAULTED, _, FAULT_AT_GUARD) => "faulted at a guard",
        (COMMITTED, ..) => "committed",
        (CARRIED, WAW, _) => "carried for WAW",
        (CARRIED, RAW, _) => "carried for RAW",
        (CARRIED, RAW_WITH_WAR, _) => "carried for RAW with WAR",
        _ => unreachable!("no step ends so"),
    }
}

fn outcome_of_why(reason: u32) -> &'static str {
    match reason {
        WAW => "why: WAW",
        RAW => "why: RAW",
        RAW_WITH_WAR => "why: RAW with WAR",
        _ => unreachable!("no program is carried for anything else"),
    }
}

/// Behind the last newline there is an unended line, or none at all, which an empty sheet is refused for.
fn outcome_of_line(line: u32, lent: &Lent) -> &'static str {
    let sheet = lent.sheet.lent();
    let ended = sheet.iter().filter(|&&byte| byte == b'\n').count();
    match line {
        _ if line as usize > ended && !sheet.is_empty() => "the last line is unended",
        1 => "line 1 is not allowed",
        2 => "line 2 is not allowed",
        _ => "a later line is not allowed",
    }
}

impl fmt::Display for Tally {
    fn fmt(&self, text: &mut fmt::Formatter) -> fmt::Result {
        self.print_refusals(text)?;
        self.print_places(text)?;
        for outcome in OUTCOMES {
            writeln!(text, "{:>9} {outcome}", self.outcomes.get(outcome).copied().unwrap_or(0))?;
        }
        writeln!(text, "\nprograms that, when they were gathered,")?;
        for meeting in MEETINGS {
            writeln!(text, "{:>9} {meeting}", self.meetings.get(meeting).copied().unwrap_or(0))?;
        }
        Ok(())
    }
}

impl Tally {
    /// A row for each refusal, a column for each call.
    fn print_refusals(&self, text: &mut fmt::Formatter) -> fmt::Result {
        let calls = refusals();
        write!(text, "refusal")?;
        for (call, _) in &calls {
            write!(text, " {call:>15}")?;
        }
        writeln!(text)?;
        for number in all_numbers() {
            write!(text, "{number:>7}")?;
            for (call, numbers) in &calls {
                if numbers.contains(&number) {
                    write!(text, " {:>15}", self.seen(call, number))?;
                } else {
                    write!(text, " {:>15}", "")?;
                }
            }
            writeln!(text)?;
        }
        writeln!(text)
    }

    /// A row for each place, a column for each refusal that names one.
    fn print_places(&self, text: &mut fmt::Formatter) -> fmt::Result {
        let mut numbers = all_numbers();
        numbers.retain(|&number| names_an_instruction(number));
        write!(text, "{:>38}", "refused for the")?;
        for number in &numbers {
            write!(text, " {number:>7}")?;
        }
        writeln!(text)?;
        for place in Place::all() {
            write!(text, "{:>38}", place.to_string())?;
            for &number in &numbers {
                write!(text, " {:>7}", self.seen_at(number, place))?;
            }
            writeln!(text)?;
        }
        writeln!(text)
    }
}

//! The archive's calls for Rust. The archive is x86-64 code, and this process may be on another
//! machine. So driver.c, which links the archive, runs as a child, under an emulator where need be,
//! and each call goes to it and comes back as one frame.

mod buffer;
mod frame;

pub use buffer::{bytes, words, Buffer};
pub use frame::Measure;

use frame::{Call, Frame, Lent, Name, Results};
use plain::{Cause, Count, Refusal, Step, Text};
use std::io::{self, Read, Write};
use std::ops::Range;
use std::process::{Child, ChildStdin, ChildStdout, Command, Stdio};

/// The archive, and how it is called.
pub struct Archive {
    driver: Child,
    calls: ChildStdin,
    answers: ChildStdout,
    /// A buffer of length 0 is passed as a null pointer; otherwise as a pointer between its fences.
    pub null_when_empty: bool,
    /// What is measured at each call.
    pub measure: Measure,
    /// What was measured at the last call, if anything was.
    pub measured: Option<u64>,
}

impl Archive {
    /// Starts the driver: a command and its arguments.
    pub fn start(driver: &[String]) -> Archive {
        let (command, arguments) = driver.split_first().expect("the command that runs the driver");
        let mut driver = Command::new(command)
            .args(arguments)
            .stdin(Stdio::piped())
            .stdout(Stdio::piped())
            .spawn()
            .expect("the driver can be started");
        let calls = driver.stdin.take().expect("a pipe to the driver");
        let answers = driver.stdout.take().expect("a pipe from the driver");
        Archive { driver, calls, answers, null_when_empty: false, measure: Measure::Nothing, measured: None }
    }

    fn call(&mut self, call: Call, number: usize, lent: &mut [Lent]) -> Results {
        let mut frame = Frame::new(call, number, self.null_when_empty, self.measure, lent);
        let mut bytes = frame.to_bytes();
        if self.exchange(&mut bytes).is_err() {
            let status = self.driver.wait().expect("the driver's status");
            panic!("the driver ended in the middle of a call: {status} (SIGALRM: the call took too long)");
        }
        frame.take(&bytes);
        frame.hand_back(lent);
        self.measured = frame.measured();
        frame.results()
    }

    /// Sends a frame, and puts the one that comes back in its place; both have the same length.
    fn exchange(&mut self, bytes: &mut [u8]) -> io::Result<()> {
        self.calls.write_all(bytes)?;
        self.answers.read_exact(bytes)
    }
}

// Every buffer is lent for changes, also where the header says const: it comes back as the call
// left it, fences and all, so that a change where none may be is seen.
impl Archive {
    /// Where the program lies in the image; 0..0 on a refusal.
    pub fn program(&mut self, image: &mut Buffer<u8>, number: usize) -> Range<usize> {
        let [start, length, ..] = self.call(Call::Program, number, &mut [(Name::Image, image)]);
        start as usize..start.wrapping_add(length) as usize
    }

    pub fn program_refusal(&mut self, image: &mut Buffer<u8>, number: usize) -> Refusal {
        refusal(self.call(Call::ProgramRefusal, number, &mut [(Name::Image, image)]))
    }

    pub fn open(
        &mut self,
        image: &mut Buffer<u8>,
        table: &mut Buffer<u32>,
        guards: &mut Buffer<u32>,
        area: &mut Buffer<u32>,
    ) -> Refusal {
        refusal(self.batch_call(Call::Open, image, table, guards, area, 0))
    }

    pub fn gather(
        &mut self,
        image: &mut Buffer<u8>,
        table: &mut Buffer<u32>,
        guards: &mut Buffer<u32>,
        area: &mut Buffer<u32>,
        number: usize,
    ) -> Step {
        step(self.batch_call(Call::Gather, image, table, guards, area, number))
    }

    pub fn settle(
        &mut self,
        image: &mut Buffer<u8>,
        table: &mut Buffer<u32>,
        guards: &mut Buffer<u32>,
        area: &mut Buffer<u32>,
        number: usize,
    ) -> Step {
        step(self.batch_call(Call::Settle, image, table, guards, area, number))
    }

    pub fn why(
        &mut self,
        image: &mut Buffer<u8>,
        table: &mut Buffer<u32>,
        guards: &mut Buffer<u32>,
        area: &mut Buffer<u32>,
        number: usize,
    ) -> Cause {
        cause(self.batch_call(Call::Why, image, table, guards, area, number))
    }

    /// A call that is lent image, table, guards and area alone.
    fn batch_call(
        &mut self,
        call: Call,
        image: &mut Buffer<u8>,
        table: &mut Buffer<u32>,
        guards: &mut Buffer<u32>,
        area: &mut Buffer<u32>,
        number: usize,
    ) -> Results {
        self.call(
            call,
            number,
            &mut [(Name::Table, table), (Name::Guards, guards), (Name::Area, area), (Name::Image, image)],
        )
    }

    pub fn order(
        &mut self,
        image: &mut Buffer<u8>,
        table: &mut Buffer<u32>,
        guards: &mut Buffer<u32>,
        area: &mut Buffer<u32>,
        list: &mut Buffer<u32>,
    ) -> Count {
        let lent: &mut [Lent] = &mut [
            (Name::Table, table),
            (Name::Guards, guards),
            (Name::Area, area),
            (Name::List, list),
            (Name::Image, image),
        ];
        count(self.call(Call::Order, 0, lent))
    }

    pub fn next_image(
        &mut self,
        image: &mut Buffer<u8>,
        table: &mut Buffer<u32>,
        guards: &mut Buffer<u32>,
        area: &mut Buffer<u32>,
        fresh: &mut Buffer<u8>,
        out: &mut Buffer<u8>,
    ) -> Count {
        let lent: &mut [Lent] = &mut [
            (Name::Table, table),
            (Name::Guards, guards),
            (Name::Area, area),
            (Name::Image, image),
            (Name::Fresh, fresh),
            (Name::Out, out),
        ];
        count(self.call(Call::NextImage, 0, lent))
    }

    pub fn image_of(&mut self, sheet: &mut Buffer<u8>, out: &mut Buffer<u8>) -> Text {
        text(self.call(Call::ImageOf, 0, &mut [(Name::Sheet, sheet), (Name::Out, out)]))
    }

    pub fn sheet_of(&mut self, image: &mut Buffer<u8>, out: &mut Buffer<u8>) -> Text {
        text(self.call(Call::SheetOf, 0, &mut [(Name::Image, image), (Name::Out, out)]))
    }
}

// The driver widens each result of 32 bits without a change, so nothing is cut off here. Where an
// answer holds a refusal, its three numbers come first.

fn refusal([number, program, instruction, ..]: Results) -> Refusal {
    Refusal { number: number as u32, program: program as u32, instruction: instruction as u32 }
}

fn step(results: Results) -> Step {
    let [_, _, _, state, detail, ..] = results.map(|result| result as u32);
    Step { refusal: refusal(results), state, detail }
}

fn cause(results: Results) -> Cause {
    let [_, _, _, reason, cell, program, war_cell, war_program] = results.map(|result| result as u32);
    Cause { refusal: refusal(results), reason, cell, program, war_cell, war_program }
}

fn text(results: Results) -> Text {
    let [_, _, _, length, line, ..] = results.map(|result| result as u32);
    Text { refusal: refusal(results), length, line }
}

fn count(results: Results) -> Count {
    let [_, _, _, count, ..] = results.map(|result| result as u32);
    Count { refusal: refusal(results), count }
}

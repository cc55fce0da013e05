//! A call as it goes to the driver and comes back: a head of 64-bit words, low byte first, and then
//! all lent memory. driver.c has the same layout in C.

use crate::buffer::Carried;

#[derive(Clone, Copy)]
pub enum Call {
    Program,
    ProgramRefusal,
    Open,
    Gather,
    Settle,
    Why,
    Order,
    NextImage,
    ImageOf,
    SheetOf,
}

/// The buffers' names, in the order in which they lie in a frame: words first, which keeps them aligned.
#[derive(Clone, Copy)]
pub enum Name {
    Table,
    Guards,
    Area,
    List,
    Image,
    Fresh,
    Sheet,
    Out,
}

/// What the driver measures beside making the call.
#[derive(Clone, Copy)]
pub enum Measure {
    Nothing,
    /// Bytes of stack below the caller's frame.
    Stack,
    /// Instructions that the processor went through.
    Instructions,
}

/// The numbers that a call returns, at most eight; 0 behind the last.
pub type Results = [u64; RETURNED];
const RETURNED: usize = 8;

pub type Lent<'a> = (Name, &'a mut dyn Carried);

/// The words of the head.
const BYTES: usize = 0;
const CALL: usize = 1;
const NUMBER: usize = 2;
const NULL_WHEN_EMPTY: usize = 3;
const MEASURE: usize = 4;
const RESULTS: usize = 5;
const MEASURED: usize = RESULTS + RETURNED;
const LENT: usize = MEASURED + 1;
const HEAD: usize = LENT + 2 * (Name::Out as usize + 1);

/// A frame under way, and what the driver has said in it.
pub struct Frame {
    head: [u64; HEAD],
    memory: Vec<u8>,
}

impl Frame {
    pub fn new(call: Call, number: usize, null_when_empty: bool, measure: Measure, lent: &[Lent]) -> Frame {
        let mut head = [0; HEAD];
        let mut memory = Vec::new();
        for (name, buffer) in lent {
            let place = LENT + 2 * *name as usize;
            head[place] = (memory.len() + buffer.fence_bytes()) as u64;
            head[place + 1] = buffer.length() as u64;
            buffer.append_to(&mut memory);
        }
        head[BYTES] = (size_of_val(&head) + memory.len()) as u64;
        head[CALL] = call as u64;
        head[NUMBER] = number as u64;
        head[NULL_WHEN_EMPTY] = null_when_empty as u64;
        head[MEASURE] = measure as u64;
        Frame { head, memory }
    }

    pub fn to_bytes(&self) -> Vec<u8> {
        let mut bytes: Vec<u8> = self.head.iter().flat_map(|word| word.to_le_bytes()).collect();
        bytes.extend(&self.memory);
        bytes
    }

    /// Takes over what came back. Only the results may have changed in the head: it lies before the
    /// first fence.
    pub fn take(&mut self, bytes: &[u8]) {
        let (head, memory) = bytes.split_at(size_of_val(&self.head));
        for (place, (word, bytes)) in self.head.iter_mut().zip(head.chunks_exact(8)).enumerate() {
            let came = u64::from_le_bytes(bytes.try_into().expect("eight bytes"));
            assert!(
                came == *word || (RESULTS..LENT).contains(&place),
                "a call wrote far outside its buffers"
            );
            *word = came;
        }
        self.memory.copy_from_slice(memory);
    }

    /// Gives the lent memory back.
    pub fn hand_back(&self, lent: &mut [Lent]) {
        let mut memory = &self.memory[..];
        for (_, buffer) in lent {
            memory = buffer.take_from(memory);
        }
    }

    pub fn results(&self) -> Results {
        std::array::from_fn(|place| self.head[RESULTS + place])
    }

    pub fn measured(&self) -> Option<u64> {
        let measured = self.head[MEASURE] != Measure::Nothing as u64;
        measured.then(|| self.head[MEASURED])
    }
}

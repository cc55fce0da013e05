//! The memory that is lent to the calls, each buffer between two fences.

const FENCE: usize = 16;

/// A buffer in the middle of a longer one. What lies around it is never lent and must not change.
#[derive(Clone, PartialEq)]
pub struct Buffer<T> {
    all: Vec<T>,
}

impl<T: Copy + PartialEq> Buffer<T> {
    fn between(fence: T, lent: &[T]) -> Buffer<T> {
        let fences = [fence; FENCE];
        Buffer { all: [&fences[..], lent, &fences[..]].concat() }
    }

    pub fn lent(&self) -> &[T] {
        &self.all[FENCE..self.all.len() - FENCE]
    }

    pub fn lent_mut(&mut self) -> &mut [T] {
        let end = self.all.len() - FENCE;
        &mut self.all[FENCE..end]
    }

    /// Where this buffer first differs from another of the same length, counted from the first
    /// lent element: below 0 or past the end it is a fence's.
    pub fn first_difference(&self, other: &Buffer<T>) -> Option<isize> {
        let place = self.all.iter().zip(&other.all).position(|(one, other)| one != other)?;
        Some(place as isize - FENCE as isize)
    }
}

pub fn bytes(lent: &[u8]) -> Buffer<u8> {
    Buffer::between(0xA5, lent)
}

pub fn words(lent: &[u32]) -> Buffer<u32> {
    Buffer::between(0xA5A5_A5A5, lent)
}

/// A buffer that a frame carries, with its fences.
pub trait Carried {
    /// How many elements are lent.
    fn length(&self) -> usize;
    /// How many bytes of the fence lie before them.
    fn fence_bytes(&self) -> usize;
    fn append_to(&self, memory: &mut Vec<u8>);
    /// Takes everything from the front of the memory; returns the rest.
    fn take_from<'a>(&mut self, memory: &'a [u8]) -> &'a [u8];
}

impl Carried for Buffer<u8> {
    fn length(&self) -> usize {
        self.lent().len()
    }

    fn fence_bytes(&self) -> usize {
        FENCE
    }

    fn append_to(&self, memory: &mut Vec<u8>) {
        memory.extend(&self.all);
    }

    fn take_from<'a>(&mut self, memory: &'a [u8]) -> &'a [u8] {
        let (own, rest) = memory.split_at(self.all.len());
        self.all.copy_from_slice(own);
        rest
    }
}

impl Carried for Buffer<u32> {
    fn length(&self) -> usize {
        self.lent().len()
    }

    fn fence_bytes(&self) -> usize {
        FENCE * size_of::<u32>()
    }

    fn append_to(&self, memory: &mut Vec<u8>) {
        memory.extend(self.all.iter().flat_map(|word| word.to_le_bytes()));
    }

    fn take_from<'a>(&mut self, memory: &'a [u8]) -> &'a [u8] {
        let (own, rest) = memory.split_at(self.all.len() * size_of::<u32>());
        for (word, bytes) in self.all.iter_mut().zip(own.chunks_exact(size_of::<u32>())) {
            *word = u32::from_le_bytes(bytes.try_into().expect("four bytes"));
        }
        rest
    }
}

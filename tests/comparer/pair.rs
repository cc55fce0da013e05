//! The two sides: the same memory lent to both, the same call made on both, everything compared.

use crate::calls::{on_archive, on_plain, Answer, Call};
use crate::lent::Lent;
use crate::tally::Tally;
use archive::Archive;
use std::fmt;

pub struct Pair<'a> {
    plain: Lent,
    other: Lent,
    archive: &'a mut Archive,
    tally: &'a mut Tally,
    calls: usize,
}

/// A call after which the two sides are not the same.
pub struct Difference {
    place: usize,
    call: Call,
    answers: [Answer; 2],
    memory: Option<(&'static str, isize)>,
}

impl<'a> Pair<'a> {
    pub fn new(lent: Lent, archive: &'a mut Archive, tally: &'a mut Tally) -> Pair<'a> {
        Pair { other: lent.clone(), plain: lent, archive, tally, calls: 0 }
    }

    /// What is lent at present, the same on both sides.
    pub fn lent(&self) -> &Lent {
        &self.plain
    }

    /// Lends something else from now on.
    pub fn lend(&mut self, lent: Lent) {
        self.other = lent.clone();
        self.plain = lent;
    }

    /// Makes a call on both sides.
    pub fn call(&mut self, call: Call) -> Result<Answer, Difference> {
        let answer = on_plain(call, &mut self.plain);
        let other = on_archive(self.archive, call, &mut self.other);
        self.calls += 1;
        self.tally.note(call, &answer, &self.plain);
        if answer == other && self.plain == self.other {
            return Ok(answer);
        }
        let memory = self.plain.first_difference(&self.other);
        Err(Difference { place: self.calls, call, answers: [answer, other], memory })
    }
}

impl fmt::Display for Difference {
    fn fmt(&self, text: &mut fmt::Formatter) -> fmt::Result {
        let [plain, archive] = &self.answers;
        write!(text, "call {} of the sequence, {:?}: ", self.place, self.call)?;
        if plain != archive {
            write!(text, "the archive answers {archive:?}, not {plain:?}")?;
        } else {
            write!(text, "both answer {plain:?}")?;
        }
        match self.memory {
            Some((buffer, place)) => write!(text, "; the memory differs, first at {buffer}[{place}]"),
            None => write!(text, "; the memory is the same"),
        }
    }
}

//! What is timed: a journal loaded, and rounds of calls of one kind.

use crate::calls::Call;

/// A kind of calls; each number that comes beside it makes one call of it.
#[derive(Clone, Copy, Debug, PartialEq, Eq)]
pub enum Kind {
    /// No call at all: the load alone.
    Load,
    /// A row appended to a version, as often as there are numbers.
    Append { base: u32, len: u32 },
    /// A row put in at each place.
    Insert { base: u32, level: u8, len: u32 },
    /// The reading at each position.
    Reading { version: u32 },
    /// So many readings from each place on.
    Span { version: u32, len: u32 },
    /// The summary of so many readings from each place on.
    Summary { version: u32, len: u32 },
}

#[derive(Clone, Copy, Debug)]
pub struct Ask<'a> {
    pub kind: Kind,
    pub numbers: &'a [u32],
    pub rounds: u32,
}

impl Ask<'_> {
    /// How many calls there are in all rounds.
    pub fn count(&self) -> usize {
        self.numbers.len() * self.rounds as usize
    }

    pub fn calls(&self) -> Vec<Call> {
        match self.kind {
            Kind::Load => Vec::new(),
            Kind::Append { base, len } => self.numbers.iter().map(|_| Call::Append { base, len: len as usize }).collect(),
            Kind::Insert { base, level, len } => {
                self.numbers.iter().map(|&place| Call::Insert { base, place, level, len: len as usize }).collect()
            }
            Kind::Reading { version } => self.numbers.iter().map(|&position| Call::Reading { version, position }).collect(),
            Kind::Span { version, len } => {
                self.numbers.iter().map(|&a| Call::Span { version, a, b: a.wrapping_add(len) }).collect()
            }
            Kind::Summary { version, len } => {
                self.numbers.iter().map(|&a| Call::Summary { version, a, b: a.wrapping_add(len) }).collect()
            }
        }
    }
}

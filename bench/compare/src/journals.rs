//! Journals to load: so many inserts, each at the end of the newest version.

/// Numbers that only look drawn, the same in each run (a multiply and an add; the upper bits are given).
pub struct Drawn(u64);

impl Drawn {
    pub fn new(seed: u64) -> Self {
        Self(seed)
    }

    pub fn next(&mut self) -> u32 {
        self.0 = self.0.wrapping_mul(6_364_136_223_846_793_005).wrapping_add(1_442_695_040_888_963_407);
        (self.0 >> 33) as u32
    }

    pub fn below(&mut self, bound: u32) -> u32 {
        self.next() % bound
    }
}

#[derive(Clone, Copy, PartialEq, Eq)]
pub enum Levels {
    /// The zero bits at the end of the block's number from 1: half of the blocks have level 0, a quarter level 1, and so on.
    Drawn,
    /// No block has a level.
    Zero,
}

impl Levels {
    pub fn of(self, number: u32) -> u8 {
        match self {
            Self::Drawn => number.trailing_zeros().min(15) as u8,
            Self::Zero => 0,
        }
    }
}

/// How many readings a row has.
pub const ROW: u32 = 8;

/// The head of a journal of counts.
pub const HEAD: [u8; 3] = [1, 1, 1];

/// A journal of so many inserts of rows of eight counts, of which one in sixteen is missing, each at the end.
pub fn journal(blocks: u32, levels: Levels) -> Vec<u8> {
    written(blocks, 65_535, |k| (k, levels.of(k + 1)))
}

/// The same, each at a drawn place and with a drawn level, and of few different counts, so that many have the same rank.
pub fn journal_of_places(blocks: u32) -> Vec<u8> {
    let mut drawn = Drawn::new(3);
    written(blocks, 9, |k| (drawn.below(k + 1), drawn.below(1 << 15).trailing_ones().min(15) as u8))
}

/// Insert number k goes to the newest version, at the place and with the level that are given for it. Its counts are of so many different ones.
fn written(blocks: u32, counts: u32, mut given: impl FnMut(u32) -> (u32, u8)) -> Vec<u8> {
    let mut drawn = Drawn::new(1);
    let mut bytes = HEAD.to_vec();
    for k in 0..blocks {
        let (place, level) = given(k);
        bytes.push(2);
        bytes.extend((k as u16).to_be_bytes());
        bytes.extend((place as u16).to_be_bytes());
        bytes.push(level);
        bytes.extend((ROW as u16).to_be_bytes());
        for _ in 0..ROW {
            let reading = if drawn.below(16) == 0 { i16::MIN } else { (drawn.below(counts) as i32 - counts as i32 / 2) as i16 };
            bytes.push(5);
            bytes.extend(reading.to_be_bytes());
        }
    }
    bytes
}

//! What a call of a script told, and how that is written and read.

use std::fmt;

/// The bytes of an outcome.
pub const OUTCOME: usize = 10;

const DONE: u8 = 0;
const REFUSED: u8 = 1;
const NOTHING: u8 = 2;

/// An outcome as it is written, whoever wrote it.
#[derive(Clone, Copy, Debug, PartialEq, Eq)]
pub struct Outcome {
    tag: u8,
    number: u8,
    place: u16,
    told: [u16; 3],
}

impl Outcome {
    pub fn done(told: [u16; 3]) -> Self {
        Self { tag: DONE, number: 0, place: 0, told }
    }

    pub fn refused(number: u8, place: u16) -> Self {
        Self { tag: REFUSED, number, place, told: [0; 3] }
    }

    pub fn nothing() -> Self {
        Self { tag: NOTHING, number: 0, place: 0, told: [0; 3] }
    }

    pub fn is_done(&self) -> bool {
        self.tag == DONE
    }

    pub fn is_nothing(&self) -> bool {
        self.tag == NOTHING
    }

    /// The number of a refusal.
    pub fn refusal(&self) -> Option<u8> {
        (self.tag == REFUSED).then_some(self.number)
    }

    /// The words x, y and z.
    pub fn told(&self) -> [u16; 3] {
        self.told
    }

    pub fn bytes(&self) -> [u8; OUTCOME] {
        let mut bytes = [0; OUTCOME];
        bytes[0] = self.tag;
        bytes[1] = self.number;
        let [x, y, z] = self.told;
        for (place, word) in bytes[2..].chunks_exact_mut(2).zip([self.place, x, y, z]) {
            place.copy_from_slice(&word.to_le_bytes());
        }
        bytes
    }

    pub fn read(bytes: &[u8; OUTCOME]) -> Self {
        let word = |at: usize| u16::from_le_bytes([bytes[at], bytes[at + 1]]);
        Self { tag: bytes[0], number: bytes[1], place: word(2), told: [word(4), word(6), word(8)] }
    }
}

impl fmt::Display for Outcome {
    fn fmt(&self, f: &mut fmt::Formatter<'_>) -> fmt::Result {
        let [x, y, z] = self.told;
        match self.tag {
            DONE => write!(f, "done, x {x}, y {y}, z {z}")?,
            REFUSED => write!(f, "refused, {} at {}", self.number, self.place)?,
            NOTHING => write!(f, "nothing was done")?,
            tag => write!(f, "unlawful tag {tag}")?,
        }
        // A side that is wrong may write what no lawful outcome has.
        let plain = match self.tag {
            DONE => Self::done(self.told),
            REFUSED => Self::refused(self.number, self.place),
            _ => Self::nothing(),
        };
        if *self != plain {
            write!(f, " (with stray words: {:02X?})", self.bytes())?;
        }
        Ok(())
    }
}

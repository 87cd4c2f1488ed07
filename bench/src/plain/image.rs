//! An actor store over a ControlBlock image.

use super::store::{Values, is_forbidden, lawful};
use super::{Fault, Half, Reason, Store};

const FRAME_ID: u16 = 0x7501;
const FRAME_ID_AT: usize = 0;
const FRAME_LENGTH_AT: usize = 2;
const PAGE_COUNT_AT: usize = 25;
const HEAD: usize = 128;
const PAGE: usize = 28;
const MAX_PAGES: usize = 16;
const MAX_BLOCK: usize = HEAD + PAGE * MAX_PAGES;
const FIRST_FIELD: usize = HEAD + 4;
const FIELD: usize = 4;
const ACTORS_PER_PAGE: usize = 4;

/// A store over a block, which knows the actors from 1 up to four for each page.
pub struct Image {
    /// The block, kept byte for byte, in room for the largest one.
    block: [u8; MAX_BLOCK],
    pages: usize,
}

impl Image {
    pub fn open(bytes: &[u8]) -> Result<Self, Fault> {
        let pages = lawful_pages(bytes).ok_or(Reason::UnlawfulImage)?;
        let mut block = [0; MAX_BLOCK];
        block[..bytes.len()].copy_from_slice(bytes);
        let image = Self { block, pages };
        if image.holds_forbidden() {
            return Err(Reason::UnlawfulImage.into());
        }
        Ok(image)
    }

    fn actors(&self) -> usize {
        ACTORS_PER_PAGE * self.pages
    }

    fn holds_forbidden(&self) -> bool {
        (0..self.actors()).any(|index| {
            let at = field_at(index);
            is_forbidden(self.value_at(at)) || is_forbidden(self.value_at(at + 2))
        })
    }

    /// Where an actor's field stands, if the image knows the actor.
    fn find(&self, actor: u16) -> Option<usize> {
        let index = usize::from(actor).checked_sub(1)?;
        (index < self.actors()).then(|| field_at(index))
    }

    fn value_at(&self, at: usize) -> i16 {
        i16::from_le_bytes([self.block[at], self.block[at + 1]])
    }
}

/// Where the field of the actor `index + 1` stands: its actual value, then its target.
fn field_at(index: usize) -> usize {
    let (page, field) = (index / ACTORS_PER_PAGE, index % ACTORS_PER_PAGE);
    FIRST_FIELD + PAGE * page + FIELD * field
}

/// How many pages a block has, if its head and its length are lawful.
fn lawful_pages(bytes: &[u8]) -> Option<usize> {
    let pages = usize::from(*bytes.get(PAGE_COUNT_AT)?);
    let length = HEAD + PAGE * pages;
    let lawful = (1..=MAX_PAGES).contains(&pages)
        && bytes.len() == length
        && word_at(bytes, FRAME_ID_AT) == FRAME_ID
        && usize::from(word_at(bytes, FRAME_LENGTH_AT)) == length;
    lawful.then_some(pages)
}

fn word_at(bytes: &[u8], at: usize) -> u16 {
    u16::from_le_bytes([bytes[at], bytes[at + 1]])
}

impl Store for Image {
    fn read(&self, actor: u16) -> Option<Values> {
        let at = self.find(actor)?;
        Some(Values { actual: self.value_at(at), target: self.value_at(at + 2) })
    }

    fn put(&mut self, actor: u16, half: Half, value: i16) -> Result<(), Fault> {
        let field = self.find(actor).ok_or(Reason::UnknownActor)?;
        let value = lawful(value)?;
        let at = match half {
            Half::Actual => field,
            Half::Target => field + 2,
        };
        self.block[at..at + 2].copy_from_slice(&value.to_le_bytes());
        Ok(())
    }
}

//! What hubs are opened over: lawful tables and images, and unlawful ones.

use super::Source;
use crate::random::Random;

const HEAD: usize = 128;
const PAGE: usize = 28;
const MAX_TABLE: usize = 256;

/// The versions whose major part is not 2 are refused.
pub fn version(random: &mut Random) -> u16 {
    if random.percent(3) {
        return random.pick(&[0x0000, 0x0102, 0x0300, 0x0002, 0x2002, 0xFFFF]);
    }
    0x0200 | u16::from(random.byte())
}

pub fn source(random: &mut Random) -> Source {
    if random.percent(55) { Source::Table(table(random)) } else { Source::Image(image(random)) }
}

/// The actors that an image of this block knows, if the block is lawful.
pub fn image_actors(block: &[u8]) -> Vec<u16> {
    let pages = block.get(25).copied().unwrap_or(0);
    (1..=4 * u16::from(pages)).collect()
}

fn table(random: &mut Random) -> Vec<u16> {
    let count = match random.below(3) {
        0 => random.between(1, 6),
        1 => random.between(1, MAX_TABLE),
        _ => random.pick(&[1, 2, 63, 64, 65, 100, 255, 256]),
    };
    let mut entries = distinct(random, count);
    if random.percent(5) {
        spoil_table(random, &mut entries);
    }
    entries
}

fn distinct(random: &mut Random, count: usize) -> Vec<u16> {
    let mut entries: Vec<u16> = if random.percent(50) {
        (1..=count as u16).collect()
    } else {
        // Steps of at most 255 keep 256 entries below 65,536.
        let mut actor = 0;
        (0..count)
            .map(|_| {
                actor += random.between(1, 255) as u16;
                actor
            })
            .collect()
    };
    if random.percent(10) && !entries.contains(&u16::MAX) {
        let last = entries.len() - 1;
        entries[last] = u16::MAX;
    }
    if random.percent(80) {
        random.shuffle(&mut entries);
    }
    entries
}

fn spoil_table(random: &mut Random, entries: &mut Vec<u16>) {
    match random.below(5) {
        0 => entries.clear(),
        1 => {
            let count = MAX_TABLE + random.between(1, 3);
            *entries = (1..=count as u16).collect();
        }
        2 => spoil_entry(random, entries, |_| 0),
        3 => spoil_entry(random, entries, |other| other),
        _ => {
            spoil_entry(random, entries, |_| 0);
            spoil_entry(random, entries, |other| other);
        }
    }
}

/// Replaces one entry by what is made of another one (or of itself).
fn spoil_entry(random: &mut Random, entries: &mut [u16], spoil: fn(u16) -> u16) {
    let other = random.pick(entries);
    let index = random.below(entries.len());
    entries[index] = spoil(other);
}

fn image(random: &mut Random) -> Vec<u8> {
    let pages = random.between(1, 16);
    let mut block = lawful_image(random, pages);
    if random.percent(8) {
        spoil_image(random, &mut block, pages);
    }
    block
}

/// A lawful block of so many pages, all values 0.
pub fn blank_image(pages: usize) -> Vec<u8> {
    let mut block = vec![0; HEAD + PAGE * pages];
    put_head(&mut block, pages);
    block
}

fn put_head(block: &mut [u8], pages: usize) {
    let length = block.len() as u16;
    put_word(block, 0, 0x7501);
    put_word(block, 2, length);
    block[25] = pages as u8;
}

fn lawful_image(random: &mut Random, pages: usize) -> Vec<u8> {
    let length = HEAD + PAGE * pages;
    let mut block = random.bytes(length);
    put_head(&mut block, pages);
    for place in 0..8 * pages {
        let any = random.word().cast_signed().clamp(-32_767, 32_766);
        let value = random.pick(&[0, 1, -1, -32_767, 32_766, any, any, any]);
        put_word(&mut block, value_at(place), value.cast_unsigned());
    }
    block
}

/// Where the values of the actors stand, one after the other: two for each actor, eight on a page.
fn value_at(place: usize) -> usize {
    HEAD + 4 + PAGE * (place / 8) + 2 * (place % 8)
}

fn put_word(block: &mut [u8], at: usize, word: u16) {
    block[at..at + 2].copy_from_slice(&word.to_le_bytes());
}

fn spoil_image(random: &mut Random, block: &mut Vec<u8>, pages: usize) {
    let length = block.len();
    match random.below(9) {
        0 => put_word(block, 0, random.pick(&[0x7500, 0x0175, 0x8601, 0])),
        1 => put_word(block, 2, (length - 1) as u16),
        2 => block[25] = random.pick(&[0, 17, 255, (pages + 1) as u8]),
        3 => block.truncate(length - 1),
        4 => block.push(0),
        5 => block.truncate(random.below(length)),
        6 => {
            // A page too many for any image, though all of the block agrees on it.
            block.resize(HEAD + PAGE * 17, 0);
            put_word(block, 2, (HEAD + PAGE * 17) as u16);
            block[25] = 17;
        }
        7 => {
            // No page, and a head that agrees.
            block.truncate(HEAD);
            put_word(block, 2, HEAD as u16);
            block[25] = 0;
        }
        _ => {
            let forbidden = random.pick(&[0x8000, 0x7FFF]);
            put_word(block, value_at(random.below(8 * pages)), forbidden);
        }
    }
}

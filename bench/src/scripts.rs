//! Random scripts. Each is written while it is played on the plain hub, so that it can answer the packets that the
//! hub composes and can aim at the edges of what the hub holds.

mod author;
pub mod payloads;
mod stores;

use crate::outcome::OUTCOME;
use crate::plain::{Fault, Hub, Store};
use crate::play::{open_on_image, open_on_table};
use crate::random::Random;
use crate::script::{Call, Operation};
use author::Author;

pub use stores::blank_image;

/// What a hub is opened over.
#[derive(Clone, Debug)]
pub enum Source {
    Table(Vec<u16>),
    Image(Vec<u8>),
}

/// A script, with all that its play is given.
#[derive(Clone, Debug)]
pub struct Script {
    pub version: u16,
    pub source: Source,
    pub calls: Vec<u8>,
    pub times: u32,
    /// How many bytes there are for the outcomes.
    pub room: usize,
}

/// The calls of a script, and the room that their outcomes take.
pub struct Written {
    pub calls: Vec<u8>,
    pub room: usize,
}

pub fn random_script(random: &mut Random) -> Script {
    let version = stores::version(random);
    let source = stores::source(random);
    let written = match &source {
        Source::Table(entries) => written_on(random, open_on_table(version, entries), entries),
        Source::Image(block) => written_on(random, open_on_image(version, block), &stores::image_actors(block)),
    };
    let times = times(random);
    let room = OUTCOME + written.room;
    with_its_end(random, Script { version, source, calls: written.calls, times, room })
}

/// A script of one switch that is told so often that the numbers of its packets begin anew.
pub fn long_script(random: &mut Random) -> Script {
    let (version, actor) = (0x0201, 9);
    let hub = open_on_table(version, &[actor]).expect("a lawful table and version");
    let mut author = Author::new(random, hub, &[actor]);
    author.write_past_the_last_number();
    let Written { calls, room } = author.written();
    Script { version, source: Source::Table(vec![actor]), calls, times: 1, room: OUTCOME + room }
}

fn written_on<S: Store>(random: &mut Random, opened: Result<Hub<S>, Fault>, known: &[u16]) -> Written {
    match opened {
        Ok(hub) => {
            let mut author = Author::new(random, hub, known);
            author.write();
            author.written()
        }
        Err(_) => unplayed(),
    }
}

/// Calls that are not to be made, since nothing was opened.
fn unplayed() -> Written {
    let mut calls = Vec::new();
    Call::new(Operation::Enrol).a(7).data(&[1, 0]).write(&mut calls);
    Call::new(Operation::Flags).a(7).write(&mut calls);
    Written { calls, room: 2 * OUTCOME }
}

fn times(random: &mut Random) -> u32 {
    match random.below(100) {
        0 => 0,
        1..15 => random.between(2, 4) as u32,
        _ => 1,
    }
}

/// Some scripts end within a call, and some have not enough room for their outcomes.
fn with_its_end(random: &mut Random, mut script: Script) -> Script {
    if random.percent(8) {
        let cut = random.below(40).min(script.calls.len());
        script.calls.truncate(script.calls.len() - cut);
    }
    if random.percent(4) {
        let stray = random.between(1, 9);
        script.calls.extend(random.bytes(stray));
    }
    script.room = match random.below(100) {
        0..2 => random.below(30),
        2..8 => random.below(script.room),
        _ => script.room + random.below(50),
    };
    script
}

//! The two sides of the bench, each as one play of a script.

use crate::scripts::{Script, Source};
use crate::{play, proved};

/// A play over a store that is opened from a list of these: version, list, script, times, room for the outcomes.
type Play<T> = fn(u16, &[T], &[u8], u32, &mut [u8]) -> usize;

/// One of the two hubs, under the same script play. The plays are called through pointers, so that neither can be
/// compiled into the code that calls it.
#[derive(Clone, Copy)]
pub struct Side {
    pub name: &'static str,
    on_table: Play<u16>,
    on_image: Play<u8>,
}

pub const PLAIN: Side = Side { name: "plain", on_table: play::play_on_table, on_image: play::play_on_image };
pub const PROVED: Side = Side { name: "proved", on_table: proved::play_on_table, on_image: proved::play_on_image };

impl Side {
    /// Plays a script into `out`, and tells how many of its bytes hold outcomes.
    pub fn play(&self, script: &Script, out: &mut [u8]) -> usize {
        let Script { version, source, calls, times, .. } = script;
        match source {
            Source::Table(entries) => (self.on_table)(*version, entries, calls, *times, out),
            Source::Image(block) => (self.on_image)(*version, block, calls, *times, out),
        }
    }
}

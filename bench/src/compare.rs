//! Plays scripts on both hubs, and tells the first difference.

use std::fmt;
use std::ops::Range;
use std::time::{Duration, Instant};

use crate::coverage::Coverage;
use crate::outcome::{OUTCOME, Outcome};
use crate::random::Random;
use crate::script::{Call, Calls, Operation};
use crate::scripts::{Script, Source, long_script, payloads, random_script};
use crate::side::{PLAIN, PROVED, Side};

/// What `out` holds before a play, so that a stray write shows.
const UNTOUCHED: u8 = 0x5C;

/// So many calls are compared at least.
const CALLS: u64 = 3_000_000;

/// No longer than this a script is made smaller.
const PATIENCE: Duration = Duration::from_secs(60);

/// Of a script with more calls than this only the bytes are shown.
const SHOWN_CALLS: usize = 500;

/// Compares both hubs on random scripts, and tells what these have covered.
pub fn compare_all(seed: u64) -> Result<Coverage, Box<Difference>> {
    let mut random = Random::new(seed);
    let mut coverage = Coverage::new();
    while coverage.calls() < CALLS {
        compare_one(&random_script(&mut random), &mut coverage)?;
    }
    compare_one(&long_script(&mut random), &mut coverage)?;
    Ok(coverage)
}

fn compare_one(script: &Script, coverage: &mut Coverage) -> Result<(), Box<Difference>> {
    let (plain, proved) = played_by_both(script);
    if plain != proved {
        let smallest = smallest(script.clone());
        return Err(Box::new(Difference::on(smallest)));
    }
    coverage.count(script, plain.outcomes());
    Ok(())
}

/// What a side made of a script.
#[derive(PartialEq, Eq)]
struct Played {
    used: usize,
    out: Vec<u8>,
}

impl Played {
    fn by(side: &Side, script: &Script) -> Self {
        let mut out = vec![UNTOUCHED; script.room];
        let used = side.play(script, &mut out);
        Self { used, out }
    }

    fn outcomes(&self) -> &[u8] {
        &self.out[..self.used.min(self.out.len())]
    }
}

fn played_by_both(script: &Script) -> (Played, Played) {
    (Played::by(&PLAIN, script), Played::by(&PROVED, script))
}

fn differs(script: &Script) -> bool {
    let (plain, proved) = played_by_both(script);
    plain != proved
}

/// The opening and the calls of a script, each with the place of its outcome.
pub fn entries(script: &Script) -> impl Iterator<Item = (Entry<'_>, Range<usize>)> {
    let calls = Calls::of(&script.calls).map(Entry::Call);
    std::iter::once(Entry::Opening(&script.source)).chain(calls).scan(0, |at, entry| {
        let place = *at..*at + OUTCOME + entry.buffer_length();
        *at = place.end;
        Some((entry, place))
    })
}

pub enum Entry<'s> {
    Opening(&'s Source),
    Call(Call<'s>),
}

impl Entry<'_> {
    fn buffer_length(&self) -> usize {
        match self {
            Self::Opening(_) => 0,
            Self::Call(call) => call.buffer_length(),
        }
    }
}

impl fmt::Display for Entry<'_> {
    fn fmt(&self, f: &mut fmt::Formatter<'_>) -> fmt::Result {
        match self {
            Self::Opening(_) => write!(f, "the opening"),
            Self::Call(Call { operation, fate, a, b, c, data }) => {
                let name = Operation::of(*operation);
                write!(f, "{name:?} ({operation}), fate {fate}, a {a}, b {b}, c {c}, data {}", Hexadecimal(data))
            }
        }
    }
}

// Making a script smaller.

/// A script that still differs, and (unless it takes too long to find that out) would not if any one of its calls
/// or any one byte of their payloads were left out.
fn smallest(mut script: Script) -> Script {
    let end = Instant::now() + PATIENCE;
    keep_if_differs(&mut script, |smaller| smaller.times = 1);
    keep_if_differs(&mut script, |smaller| smaller.room = entries(smaller).last().map_or(0, |(_, place)| place.end));
    leave_out_calls(&mut script, end);
    shorten_payloads(&mut script, end);
    script
}

/// Leaves out runs of calls, ever shorter ones.
fn leave_out_calls(script: &mut Script, end: Instant) {
    let mut size = count_calls(script).div_ceil(2);
    while size > 0 && Instant::now() < end {
        let before = count_calls(script);
        let mut first = 0;
        while first < count_calls(script) && Instant::now() < end {
            if !keep_if_differs(script, |smaller| leave_out(smaller, first..first + size)) {
                first += size;
            }
        }
        // What could not go alone may go now that others are gone.
        if size > 1 || count_calls(script) == before {
            size /= 2;
        }
    }
}

/// Cuts messages and single bytes out of payloads.
fn shorten_payloads(script: &mut Script, end: Instant) {
    for index in 0..count_calls(script) {
        for size in [256, 64, 16, 8, 6, 4, 1] {
            let mut first = 0;
            while payload_length(script, index) >= first + size && Instant::now() < end {
                if !keep_if_differs(script, |smaller| cut_payload(smaller, index, first..first + size)) {
                    first += 1;
                }
            }
        }
    }
}

fn payload_length(script: &Script, index: usize) -> usize {
    match Calls::of(&script.calls).nth(index) {
        Some(call) if Operation::of(call.operation) == Operation::Take => call.data.len(),
        _ => 0,
    }
}

/// Cuts bytes out of the payload of one call, whose FrameLength follows.
fn cut_payload(script: &mut Script, index: usize, gone: Range<usize>) {
    let mut calls = Vec::new();
    for (count, call) in Calls::of(&script.calls).enumerate() {
        let mut data = call.data.to_vec();
        if count == index {
            data.drain(gone.clone());
            payloads::fill_in_length(&mut data);
        }
        Call { data: &data, ..call }.write(&mut calls);
    }
    script.calls = calls;
}

/// Makes a change to a script if it differs still with it.
fn keep_if_differs(script: &mut Script, change: impl FnOnce(&mut Script)) -> bool {
    let mut changed = script.clone();
    change(&mut changed);
    let keep = differs(&changed);
    if keep {
        *script = changed;
    }
    keep
}

fn count_calls(script: &Script) -> usize {
    Calls::of(&script.calls).count()
}

fn leave_out(script: &mut Script, gone: Range<usize>) {
    let mut calls = Vec::new();
    for (index, call) in Calls::of(&script.calls).enumerate() {
        if !gone.contains(&index) {
            call.write(&mut calls);
        }
    }
    script.calls = calls;
}

// Telling a difference.

/// A script on which the hubs differ.
pub struct Difference {
    script: Script,
    plain: Played,
    proved: Played,
}

impl Difference {
    fn on(script: Script) -> Self {
        let (plain, proved) = played_by_both(&script);
        Self { script, plain, proved }
    }

    /// The first entry whose outcome differs, with its index. None if only the bytes behind the outcomes do.
    fn first(&self) -> Option<(usize, Entry<'_>, Range<usize>)> {
        let (plain, proved) = (self.plain.outcomes(), self.proved.outcomes());
        entries(&self.script)
            .enumerate()
            .find(|(_, (_, place))| plain.get(place.clone()) != proved.get(place.clone()))
            .map(|(index, (entry, place))| (index, entry, place))
    }
}

impl fmt::Display for Difference {
    fn fmt(&self, f: &mut fmt::Formatter<'_>) -> fmt::Result {
        let Script { version, source, calls, times, room } = &self.script;
        writeln!(f, "the hubs differ")?;
        match source {
            Source::Table(entries) => writeln!(f, "table   {entries:?}")?,
            Source::Image(block) => writeln!(f, "image   {}", Hexadecimal(block))?,
        }
        writeln!(f, "version {version:#06X}")?;
        writeln!(f, "times   {times}, room for outcomes {room}")?;
        writeln!(f, "script  {}", Hexadecimal(calls))?;
        let shown = if count_calls(&self.script) > SHOWN_CALLS { 0 } else { SHOWN_CALLS };
        for (index, call) in Calls::of(calls).take(shown).enumerate() {
            writeln!(f, "  call {:3}  {}", index + 1, Entry::Call(call))?;
        }
        match self.first() {
            Some((index, entry, place)) => {
                writeln!(f, "first difference: call {index} (0 is the opening): {entry}")?;
                for (side, played) in [(PLAIN, &self.plain), (PROVED, &self.proved)] {
                    let told = played.outcomes().get(place.clone());
                    writeln!(f, "  {:7} {}", side.name, Told(told))?;
                }
            }
            None => writeln!(f, "first difference: behind the outcomes")?,
        }
        write!(f, "bytes of outcomes: plain {}, proved {}", self.plain.used, self.proved.used)
    }
}

/// An outcome, with its buffer, as it was written, if it was.
struct Told<'o>(Option<&'o [u8]>);

impl fmt::Display for Told<'_> {
    fn fmt(&self, f: &mut fmt::Formatter<'_>) -> fmt::Result {
        let Some((outcome, buffer)) = self.0.and_then(|bytes| bytes.split_first_chunk()) else {
            return write!(f, "no outcome");
        };
        write!(f, "{}", Outcome::read(outcome))?;
        if !buffer.is_empty() {
            write!(f, "; buffer {}", Hexadecimal(buffer))?;
        }
        Ok(())
    }
}

struct Hexadecimal<'b>(&'b [u8]);

impl fmt::Display for Hexadecimal<'_> {
    fn fmt(&self, f: &mut fmt::Formatter<'_>) -> fmt::Result {
        self.0.iter().try_for_each(|byte| write!(f, "{byte:02X}"))
    }
}

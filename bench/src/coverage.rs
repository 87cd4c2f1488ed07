//! Counts what the compared calls were and what they told.

use std::collections::BTreeMap;
use std::fmt;

use crate::compare::{Entry, entries};
use crate::outcome::{OUTCOME, Outcome};
use crate::script::{Call, Operation};
use crate::scripts::{Script, Source};

/// The refusals that a hub or a store can give.
const LAST_NUMBER: u8 = 22;

/// What the calls of one kind told.
#[derive(Default)]
struct Row {
    calls: u64,
    done: u64,
    nothing: u64,
    refused: BTreeMap<u8, u64>,
}

impl Row {
    fn count(&mut self, outcome: Outcome) {
        self.calls += 1;
        if let Some(number) = outcome.refusal() {
            *self.refused.entry(number).or_default() += 1;
        } else if outcome.is_nothing() {
            self.nothing += 1;
        } else {
            self.done += 1;
        }
    }
}

pub struct Coverage {
    scripts: u64,
    tables: Row,
    images: Row,
    /// By operation.
    calls: [Row; Operation::ALL.len()],
    /// Of the payloads that were taken: events, awaited answers, stale answers.
    sorts: [u64; 3],
    messages: u64,
    /// Payloads of less than 16 bytes, of 1,472 and of more.
    short: u64,
    longest: u64,
    too_long: u64,
}

impl Coverage {
    pub fn new() -> Self {
        Self {
            scripts: 0,
            tables: Row::default(),
            images: Row::default(),
            calls: Default::default(),
            sorts: [0; 3],
            messages: 0,
            short: 0,
            longest: 0,
            too_long: 0,
        }
    }

    /// How many calls have been compared, openings not counted.
    pub fn calls(&self) -> u64 {
        self.calls.iter().map(|row| row.calls).sum()
    }

    /// Counts the calls of a script whose outcomes are there.
    pub fn count(&mut self, script: &Script, outcomes: &[u8]) {
        self.scripts += 1;
        for (entry, place) in entries(script) {
            let Some(outcome) = outcomes.get(place).and_then(|told| told.first_chunk::<OUTCOME>()) else {
                break;
            };
            let outcome = Outcome::read(outcome);
            match entry {
                Entry::Opening(Source::Table(_)) => self.tables.count(outcome),
                Entry::Opening(Source::Image(_)) => self.images.count(outcome),
                Entry::Call(call) => self.count_call(&call, outcome),
            }
        }
    }

    fn count_call(&mut self, call: &Call, outcome: Outcome) {
        let operation = Operation::of(call.operation);
        self.calls[operation as usize].count(outcome);
        if operation == Operation::Take {
            self.count_payload(call.data.len(), outcome);
        }
    }

    fn count_payload(&mut self, length: usize, outcome: Outcome) {
        match length {
            0..16 => self.short += 1,
            1472 => self.longest += 1,
            1473.. => self.too_long += 1,
            _ => {}
        }
        if outcome.is_done() {
            let [sort, understood, _] = outcome.told();
            if let Some(count) = self.sorts.get_mut(usize::from(sort)) {
                *count += 1;
            }
            self.messages += u64::from(understood);
        }
    }

    fn rows(&self) -> impl Iterator<Item = &Row> {
        [&self.tables, &self.images].into_iter().chain(&self.calls)
    }

    /// The refusals that no call has given.
    pub fn missing(&self) -> Vec<u8> {
        (1..=LAST_NUMBER).filter(|number| !self.rows().any(|row| row.refused.contains_key(number))).collect()
    }
}

impl fmt::Display for Coverage {
    fn fmt(&self, f: &mut fmt::Formatter<'_>) -> fmt::Result {
        writeln!(f, "{:<18}{:>9}{:>9}{:>9}  refused: number x count", "call", "calls", "done", "nothing")?;
        line(f, "open on a table", &self.tables)?;
        line(f, "open on an image", &self.images)?;
        for (operation, row) in Operation::ALL.iter().zip(&self.calls) {
            line(f, &format!("{operation:?}"), row)?;
        }
        let [events, answers, stale] = self.sorts;
        writeln!(
            f,
            "taken: {events} events, {answers} awaited answers, {stale} stale ones; {} messages understood",
            self.messages
        )?;
        writeln!(
            f,
            "payloads of less than 16 bytes: {}; of 1,472: {}; of more: {}",
            self.short, self.longest, self.too_long
        )?;
        write!(f, "{} scripts, {} calls compared", self.scripts, self.calls())
    }
}

fn line(f: &mut fmt::Formatter<'_>, name: &str, row: &Row) -> fmt::Result {
    let refused: Vec<String> = row.refused.iter().map(|(number, count)| format!("{number} x {count}")).collect();
    let refused = refused.join(", ");
    writeln!(f, "{name:<18}{:>9}{:>9}{:>9}  {refused}", row.calls, row.done, row.nothing)
}

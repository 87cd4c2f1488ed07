//! What the hub keeps of one switch.

use super::list::List;
use super::message::CONTROL_MASK;
use super::{Fault, Reason};

pub const MAX_ACTORS: usize = 64;
const FIRST_CONTROL: u32 = 0x0000_0130;
const FIRST_NUMBER: u16 = 1;
/// Bit 8 of a control word, which no control word may lack.
const CONTROL_NEEDS: u32 = 1 << 8;

/// How far a switch has been told of an item.
#[derive(Clone, Copy, Debug, Default, PartialEq, Eq)]
pub enum Mark {
    /// The switch has it.
    #[default]
    Settled,
    /// It must be told.
    Due,
    /// It was told, and the answer has not come.
    UnderWay,
}

impl Mark {
    pub fn is_outstanding(self) -> bool {
        self != Self::Settled
    }

    fn change(&mut self) {
        *self = Self::Due;
    }

    fn compose(&mut self) {
        if *self == Self::Due {
            *self = Self::UnderWay;
        }
    }

    fn answer(&mut self) {
        if *self == Self::UnderWay {
            *self = Self::Settled;
        }
    }

    fn withhold(&mut self) {
        if *self == Self::UnderWay {
            *self = Self::Due;
        }
    }
}

/// A key press: the actor that it is for, and the key.
#[derive(Clone, Copy, Debug, PartialEq, Eq)]
pub struct Key {
    pub actor: u16,
    pub key: u8,
}

/// An actor that a switch lists, and how far the switch has been told of it.
#[derive(Clone, Copy, Default)]
struct Item {
    actor: u16,
    mark: Mark,
}

#[derive(Clone, Copy, Default)]
pub struct Switch {
    id: u16,
    items: List<Item, MAX_ACTORS>,
    control: u32,
    control_mark: Mark,
    next_number: u16,
    awaited: Option<u16>,
    open_slip: Option<u16>,
    flags: u32,
    latest_key: Option<Key>,
    reading: Option<i16>,
}

impl Switch {
    /// A switch that has been told nothing yet. It may list no more actors than `MAX_ACTORS`.
    pub fn new(id: u16, actors: &[u16]) -> Self {
        let mut items = List::new();
        for &actor in actors {
            items.push(Item { actor, mark: Mark::Due });
        }
        Self {
            id,
            items,
            control: FIRST_CONTROL,
            control_mark: Mark::Due,
            next_number: FIRST_NUMBER,
            ..Self::default()
        }
    }

    pub fn id(&self) -> u16 {
        self.id
    }

    pub fn lists(&self, actor: u16) -> bool {
        self.items.iter().any(|item| item.actor == actor)
    }

    pub fn actor_mark(&self, actor: u16) -> Result<Mark, Fault> {
        let item = self.items.iter().find(|item| item.actor == actor);
        item.map(|item| item.mark).ok_or(Reason::NotListed.into())
    }

    pub fn control_mark(&self) -> Mark {
        self.control_mark
    }

    pub fn control(&self) -> u32 {
        self.control
    }

    pub fn flags(&self) -> u32 {
        self.flags
    }

    pub fn latest_key(&self) -> Option<Key> {
        self.latest_key
    }

    pub fn reading(&self) -> Option<i16> {
        self.reading
    }

    pub fn has_outstanding(&self) -> bool {
        self.control_mark.is_outstanding() || self.outstanding_actors().next().is_some()
    }

    /// The actors that are outstanding, in list order.
    pub fn outstanding_actors(&self) -> impl Iterator<Item = u16> {
        self.items.iter().filter(|item| item.mark.is_outstanding()).map(|item| item.actor)
    }

    pub fn has_open_slip(&self) -> bool {
        self.open_slip.is_some()
    }

    pub fn next_number(&self) -> u16 {
        self.next_number
    }

    /// The actor's values have changed. Nothing happens if the switch does not list it.
    pub fn actor_changed(&mut self, actor: u16) {
        if let Some(item) = self.items.iter_mut().find(|item| item.actor == actor) {
            item.mark.change();
        }
    }

    pub fn set_control(&mut self, word: u32) -> Result<(), Fault> {
        if word & !CONTROL_MASK != 0 || word & CONTROL_NEEDS == 0 {
            return Err(Reason::ControlWord.into());
        }
        self.control = word;
        self.control_mark.change();
        Ok(())
    }

    /// The switch asks for everything.
    pub fn everything_changed(&mut self) {
        self.each_mark(Mark::change);
    }

    pub fn report_flags(&mut self, flags: u32) {
        self.flags = flags;
    }

    pub fn report_key(&mut self, key: Key) {
        self.latest_key = Some(key);
    }

    pub fn report_reading(&mut self, reading: Option<i16>) {
        self.reading = reading;
    }

    /// A packet with the next number and everything outstanding has been composed.
    pub fn composed(&mut self) {
        let number = self.next_number;
        self.each_mark(Mark::compose);
        self.awaited = Some(number);
        self.open_slip = Some(number);
        self.next_number = number.checked_add(1).unwrap_or(FIRST_NUMBER);
    }

    /// An answer to this number has come. Whether it was the awaited one.
    pub fn answered(&mut self, number: u16) -> bool {
        let awaited = self.awaited == Some(number);
        if awaited {
            self.each_mark(Mark::answer);
            self.awaited = None;
        }
        awaited
    }

    /// Closes the slip of this number. Whether it was open.
    pub fn close_slip(&mut self, number: u16) -> bool {
        let open = self.open_slip == Some(number);
        if open {
            self.open_slip = None;
        }
        open
    }

    /// The packet that was composed last has not gone out.
    pub fn withheld(&mut self) {
        self.each_mark(Mark::withhold);
        self.awaited = None;
    }

    fn each_mark(&mut self, step: fn(&mut Mark)) {
        for item in self.items.iter_mut() {
            step(&mut item.mark);
        }
        step(&mut self.control_mark);
    }
}

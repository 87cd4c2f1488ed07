//! The hub: it takes what switches send, keeps the actors' values, and tells every switch what it must be told.

use super::descriptor::{Descriptor, is_spoken};
use super::draft::Draft;
use super::list::List;
use super::message::{Message, Messages};
use super::switch::{Key, MAX_ACTORS, Switch};
use super::{Fault, Half, Mark, Reason, Store};

const MAX_SWITCHES: usize = 32;
/// RealValue and EditValue of one actor.
const ACTOR_LENGTH: usize = 12;
const CONTROL_LENGTH: usize = 8;
/// Bit 6 of a switch's flags: the switch asks for everything.
const INIT_REQUEST: u32 = 1 << 6;

/// The words that the hub writes into every descriptor.
#[derive(Clone, Copy, Debug)]
pub struct Site {
    pub version: u16,
    pub project: u16,
    pub firmware: u16,
    pub design: u16,
}

/// What a payload was to the hub.
#[derive(Clone, Copy, Debug, PartialEq, Eq)]
pub enum Sort {
    Event,
    /// The answer that was awaited.
    Answer,
    /// An answer that was not awaited.
    Stale,
}

#[derive(Clone, Copy, Debug, PartialEq, Eq)]
pub struct Taken {
    pub sort: Sort,
    /// How many of its messages are of a known kind.
    pub understood: usize,
}

/// A composed packet: how long it is, how many actors it carries, and the slip that is owed to the hub for it.
#[derive(Debug, PartialEq, Eq)]
pub struct Composed {
    pub length: usize,
    pub actors: usize,
    pub slip: Slip,
}

/// It says which packet was composed. It is handed in once, as sent or as withheld.
#[must_use = "the hub composes nothing for the switch until its slip is handed in"]
#[derive(Debug, PartialEq, Eq)]
pub struct Slip {
    switch: u16,
    number: u16,
}

impl Slip {
    pub fn number(&self) -> u16 {
        self.number
    }
}

pub struct Hub<S> {
    site: Site,
    switches: List<Switch, MAX_SWITCHES>,
    store: S,
}

impl<S: Store> Hub<S> {
    pub fn open(store: S, site: Site) -> Result<Self, Fault> {
        if !is_spoken(site.version) {
            return Err(Reason::MajorVersion.into());
        }
        Ok(Self { site, switches: List::new(), store })
    }

    pub fn enrol(&mut self, id: u16, actors: &[u16]) -> Result<(), Fault> {
        if id == 0 || self.position(id).is_some() {
            return Err(Reason::SwitchId.into());
        }
        if self.switches.is_full() {
            return Err(Reason::HubFull.into());
        }
        if actors.is_empty() || actors.len() > MAX_ACTORS {
            return Err(Reason::ListLength.into());
        }
        for (index, &actor) in actors.iter().enumerate() {
            if actor == 0 || actors[..index].contains(&actor) {
                return Err(Fault::at(Reason::ListEntry, index));
            }
            if self.store.read(actor).is_none() {
                return Err(Fault::at(Reason::UnknownActor, index));
            }
        }
        self.switches.push(Switch::new(id, actors));
        Ok(())
    }

    pub fn set_actual(&mut self, actor: u16, value: i16) -> Result<(), Fault> {
        self.set(actor, Half::Actual, value)
    }

    pub fn set_target(&mut self, actor: u16, value: i16) -> Result<(), Fault> {
        self.set(actor, Half::Target, value)
    }

    fn set(&mut self, actor: u16, half: Half, value: i16) -> Result<(), Fault> {
        self.store.put(actor, half, value)?;
        for switch in self.switches.iter_mut() {
            switch.actor_changed(actor);
        }
        Ok(())
    }

    pub fn set_control(&mut self, id: u16, word: u32) -> Result<(), Fault> {
        self.switch_mut(id)?.set_control(word)
    }

    /// Takes a payload that came from a switch: whole, or, if it is refused, not at all.
    pub fn take(&mut self, payload: &[u8]) -> Result<Taken, Fault> {
        let descriptor = Descriptor::read(payload)?;
        if descriptor.project != self.site.project {
            return Err(Fault::at(Reason::Project, Descriptor::PROJECT_AT));
        }
        let sender = self.position(descriptor.switch).ok_or(Fault::at(Reason::NotEnrolled, Descriptor::SWITCH_AT))?;
        let is_event = descriptor.package == 0;
        let understood = check(&self.switches[sender], is_event, payload)?;
        let sort = if is_event {
            self.apply(sender, payload);
            Sort::Event
        } else if self.switches[sender].answered(descriptor.package) {
            Sort::Answer
        } else {
            Sort::Stale
        };
        Ok(Taken { sort, understood })
    }

    /// Applies the messages of an event that has been checked.
    fn apply(&mut self, sender: usize, payload: &[u8]) {
        for (_, message) in Messages::of(payload).flatten() {
            match message {
                Message::EditValue { actor, value } => {
                    // A forbidden value is refused by the store, and is to do nothing.
                    let _ = self.set_target(actor, value);
                }
                Message::State { flags } => {
                    let switch = &mut self.switches[sender];
                    switch.report_flags(flags);
                    if flags & INIT_REQUEST != 0 {
                        switch.everything_changed();
                    }
                }
                Message::Event(key) => self.switches[sender].report_key(key),
                Message::Temperature { reading } => self.switches[sender].report_reading(reading),
                Message::Idle | Message::PassedOver => {}
            }
        }
    }

    /// Writes everything outstanding of a switch into the buffer. The bytes beyond the packet stay.
    pub fn compose(&mut self, id: u16, buffer: &mut [u8]) -> Result<Composed, Fault> {
        let index = self.position(id).ok_or(Reason::NotEnrolled)?;
        let switch = &mut self.switches[index];
        if switch.has_open_slip() {
            return Err(Reason::SlipOpen.into());
        }
        let actors = switch.outstanding_actors().count();
        let with_control = switch.control_mark().is_outstanding();
        if actors == 0 && !with_control {
            return Err(Reason::NothingOutstanding.into());
        }
        let length = packet_length(actors, with_control);
        if length > buffer.len() {
            return Err(Reason::BufferTooShort.into());
        }

        let number = switch.next_number();
        let descriptor = Descriptor {
            version: self.site.version,
            package: number,
            project: self.site.project,
            firmware: self.site.firmware,
            switch: id,
            design: self.site.design,
        };
        let mut draft = Draft::begin(buffer, &descriptor, length as u16);
        for actor in switch.outstanding_actors() {
            // A switch lists only actors that the store knows.
            let values = self.store.read(actor).unwrap_or_default();
            draft.real_value(actor, values.actual);
            draft.edit_value(actor, values.target);
        }
        if with_control {
            draft.control(switch.control());
        }
        switch.composed();
        Ok(Composed { length, actors, slip: Slip { switch: id, number } })
    }

    /// The packet of this slip has gone out. A slip that this hub does not have open comes back.
    pub fn sent(&mut self, slip: Slip) -> Result<(), (Fault, Slip)> {
        match self.close(&slip) {
            Some(_) => Ok(()),
            None => Err((Reason::NoSuchSlip.into(), slip)),
        }
    }

    /// The packet of this slip will not go out. A slip that this hub does not have open comes back.
    pub fn withheld(&mut self, slip: Slip) -> Result<(), (Fault, Slip)> {
        match self.close(&slip) {
            Some(switch) => {
                switch.withheld();
                Ok(())
            }
            None => Err((Reason::NoSuchSlip.into(), slip)),
        }
    }

    /// Closes a slip at its switch, if it is open there.
    fn close(&mut self, slip: &Slip) -> Option<&mut Switch> {
        let switch = self.switch_mut(slip.switch).ok()?;
        switch.close_slip(slip.number).then_some(switch)
    }

    pub fn actor_mark(&self, id: u16, actor: u16) -> Result<Mark, Fault> {
        self.switch(id)?.actor_mark(actor)
    }

    pub fn control_mark(&self, id: u16) -> Result<Mark, Fault> {
        Ok(self.switch(id)?.control_mark())
    }

    pub fn flags(&self, id: u16) -> Result<u32, Fault> {
        Ok(self.switch(id)?.flags())
    }

    pub fn latest_key(&self, id: u16) -> Result<Option<Key>, Fault> {
        Ok(self.switch(id)?.latest_key())
    }

    pub fn reading(&self, id: u16) -> Result<Option<i16>, Fault> {
        Ok(self.switch(id)?.reading())
    }

    pub fn has_outstanding(&self, id: u16) -> Result<bool, Fault> {
        Ok(self.switch(id)?.has_outstanding())
    }

    fn position(&self, id: u16) -> Option<usize> {
        self.switches.iter().position(|switch| switch.id() == id)
    }

    fn switch(&self, id: u16) -> Result<&Switch, Fault> {
        let found = self.switches.iter().find(|switch| switch.id() == id);
        found.ok_or(Reason::NotEnrolled.into())
    }

    fn switch_mut(&mut self, id: u16) -> Result<&mut Switch, Fault> {
        let found = self.switches.iter_mut().find(|switch| switch.id() == id);
        found.ok_or(Reason::NotEnrolled.into())
    }
}

/// Checks every message of a payload, and tells how many are understood. In an event a switch may speak only of
/// actors that it lists; that is told only if no message is at fault by itself.
fn check(sender: &Switch, is_event: bool, payload: &[u8]) -> Result<usize, Fault> {
    let mut understood = 0;
    let mut stranger = None;
    for message in Messages::of(payload) {
        let (at, message) = message?;
        if is_event && stranger.is_none() && message.claimed_actor().is_some_and(|actor| !sender.lists(actor)) {
            stranger = Some(at);
        }
        understood += usize::from(message.is_understood());
    }
    match stranger {
        Some(at) => Err(Fault::at(Reason::NotListed, at)),
        None => Ok(understood),
    }
}

fn packet_length(actors: usize, with_control: bool) -> usize {
    let control = if with_control { CONTROL_LENGTH } else { 0 };
    Descriptor::LENGTH + ACTOR_LENGTH * actors + control
}

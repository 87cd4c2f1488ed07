//! Plays a byte-coded script on the plain hub.

use crate::outcome::{OUTCOME, Outcome};
use crate::plain::{Composed, Fault, Hub, Image, Mark, Site, Slip, Sort, Store, Table};
use crate::script::{Call, Calls, Fate, Operation};

/// What every byte of a compose's buffer holds before the call.
pub const BUFFER_FILL: u8 = 0xA5;

pub fn site(version: u16) -> Site {
    Site { version, project: 0x1234, firmware: 0x0007, design: 0x0005 }
}

pub fn open_on_table(version: u16, entries: &[u16]) -> Result<Hub<Table>, Fault> {
    Hub::open(Table::open(entries)?, site(version))
}

pub fn open_on_image(version: u16, block: &[u8]) -> Result<Hub<Image>, Fault> {
    Hub::open(Image::open(block)?, site(version))
}

#[inline(never)]
pub fn play_on_table(version: u16, entries: &[u16], script: &[u8], times: u32, out: &mut [u8]) -> usize {
    play(|| open_on_table(version, entries), script, times, out)
}

#[inline(never)]
pub fn play_on_image(version: u16, block: &[u8], script: &[u8], times: u32, out: &mut [u8]) -> usize {
    play(|| open_on_image(version, block), script, times, out)
}

/// Plays a script so many times on the hub that is opened, and tells how many bytes of `out` hold outcomes of the
/// opening and of the last time.
fn play<S: Store>(open: impl FnOnce() -> Result<Hub<S>, Fault>, script: &[u8], times: u32, out: &mut [u8]) -> usize {
    let Some((opening, room)) = out.split_first_chunk_mut::<OUTCOME>() else {
        return 0;
    };
    let mut player = match open() {
        Ok(hub) => Player::new(hub),
        Err(fault) => {
            *opening = refused(fault).bytes();
            return OUTCOME;
        }
    };
    *opening = done().bytes();
    let mut used = 0;
    for _ in 0..times {
        used = player.play_once(script, room);
    }
    player.finish();
    OUTCOME + used
}

/// A hub, and the slip that the script has kept.
pub struct Player<S> {
    hub: Hub<S>,
    kept: Option<Slip>,
}

impl<S: Store> Player<S> {
    pub fn new(hub: Hub<S>) -> Self {
        Self { hub, kept: None }
    }

    pub fn hub(&self) -> &Hub<S> {
        &self.hub
    }

    /// Plays the script up to its end, or up to the first call whose outcome has no room. How much room was used.
    fn play_once(&mut self, script: &[u8], room: &mut [u8]) -> usize {
        let mut used = 0;
        for call in Calls::of(script) {
            let needed = OUTCOME + call.buffer_length();
            let Some(place) = room[used..].get_mut(..needed) else {
                break;
            };
            let (head, buffer) = place.split_at_mut(OUTCOME);
            let outcome = self.make(&call, buffer);
            head.copy_from_slice(&outcome.bytes());
            used += needed;
        }
        used
    }

    /// Makes one call. The buffer is for a compose, and has the length that the call gives it.
    pub fn make(&mut self, call: &Call, buffer: &mut [u8]) -> Outcome {
        let Call { a, b, .. } = *call;
        let value = b.cast_signed();
        let hub = &mut self.hub;
        match Operation::of(call.operation) {
            Operation::Nothing => Outcome::nothing(),
            Operation::Enrol => told(enrol(hub, call), |()| [0; 3]),
            Operation::SetActual => told(hub.set_actual(a, value), |()| [0; 3]),
            Operation::SetTarget => told(hub.set_target(a, value), |()| [0; 3]),
            Operation::SetControl => told(hub.set_control(a, call.control_word()), |()| [0; 3]),
            Operation::Take => told(hub.take(call.data), |taken| [sort(taken.sort), taken.understood as u16, 0]),
            Operation::Compose => self.compose(a, Fate::of(call.fate), buffer),
            Operation::HandIn => self.hand_in(Fate::of(call.fate)),
            Operation::HandElsewhere => self.hand_elsewhere(Fate::of(call.fate)),
            Operation::ActorMark => told(hub.actor_mark(a, b), |state| [mark(state), 0, 0]),
            Operation::ControlMark => told(hub.control_mark(a), |state| [mark(state), 0, 0]),
            Operation::Flags => told(hub.flags(a), |flags| [flags as u16, (flags >> 16) as u16, 0]),
            Operation::LatestKey => {
                told(hub.latest_key(a), |key| key.map_or([0; 3], |key| [key.actor, key.key.into(), 1]))
            }
            Operation::Reading => {
                told(hub.reading(a), |reading| reading.map_or([0; 3], |value| [value.cast_unsigned(), 0, 1]))
            }
            Operation::HasOutstanding => told(hub.has_outstanding(a), |any| [any.into(), 0, 0]),
        }
    }

    fn compose(&mut self, switch: u16, fate: Fate, buffer: &mut [u8]) -> Outcome {
        buffer.fill(BUFFER_FILL);
        let Composed { length, actors, slip } = match self.hub.compose(switch, buffer) {
            Ok(composed) => composed,
            Err(fault) => return refused(fault),
        };
        let outcome = Outcome::done([length as u16, actors as u16, slip.number()]);
        match fate {
            Fate::Kept if self.kept.is_none() => self.kept = Some(slip),
            Fate::Sent => expect_taken(self.hub.sent(slip)),
            Fate::Kept | Fate::Withheld => expect_taken(self.hub.withheld(slip)),
        }
        outcome
    }

    fn hand_in(&mut self, fate: Fate) -> Outcome {
        let Some(slip) = self.kept.take() else {
            return Outcome::nothing();
        };
        let result = hand(&mut self.hub, slip, fate);
        self.handed(result)
    }

    /// Hands the kept slip to a hub that never composed it.
    fn hand_elsewhere(&mut self, fate: Fate) -> Outcome {
        let Some(slip) = self.kept.take() else {
            return Outcome::nothing();
        };
        self.handed(hand_to_another(slip, fate))
    }

    /// The outcome of handing in a slip. One that comes back stays kept.
    fn handed(&mut self, result: Result<(), (Fault, Slip)>) -> Outcome {
        match result {
            Ok(()) => done(),
            Err((fault, slip)) => {
                self.kept = Some(slip);
                refused(fault)
            }
        }
    }

    /// Hands in a slip that is still kept.
    pub fn finish(&mut self) {
        if let Some(slip) = self.kept.take() {
            expect_taken(self.hub.withheld(slip));
        }
    }
}

fn enrol<S: Store>(hub: &mut Hub<S>, call: &Call) -> Result<(), Fault> {
    let mut list = [0; 65];
    let mut count = 0;
    for (place, actor) in list.iter_mut().zip(call.list()) {
        *place = actor;
        count += 1;
    }
    hub.enrol(call.a, &list[..count])
}

fn hand<S: Store>(hub: &mut Hub<S>, slip: Slip, fate: Fate) -> Result<(), (Fault, Slip)> {
    match fate {
        Fate::Sent => hub.sent(slip),
        Fate::Kept | Fate::Withheld => hub.withheld(slip),
    }
}

/// Not inlined, so that the other hub takes stack only while it is there.
#[inline(never)]
fn hand_to_another(slip: Slip, fate: Fate) -> Result<(), (Fault, Slip)> {
    match open_on_table(0x0200, &[1]) {
        Ok(mut another) => hand(&mut another, slip, fate),
        Err(fault) => Err((fault, slip)),
    }
}

/// A slip that is handed in to the hub that it is from, for the first time, is always taken.
fn expect_taken(result: Result<(), (Fault, Slip)>) {
    if let Err((fault, slip)) = result {
        unreachable!("the hub's own {slip:?} is refused: {fault:?}");
    }
}

fn done() -> Outcome {
    Outcome::done([0; 3])
}

fn refused(fault: Fault) -> Outcome {
    Outcome::refused(fault.number(), fault.place as u16)
}

fn told<T>(result: Result<T, Fault>, words: impl FnOnce(T) -> [u16; 3]) -> Outcome {
    match result {
        Ok(answer) => Outcome::done(words(answer)),
        Err(fault) => refused(fault),
    }
}

fn sort(sort: Sort) -> u16 {
    match sort {
        Sort::Event => 0,
        Sort::Answer => 1,
        Sort::Stale => 2,
    }
}

fn mark(mark: Mark) -> u16 {
    match mark {
        Mark::Settled => 0,
        Mark::Due => 1,
        Mark::UnderWay => 2,
    }
}

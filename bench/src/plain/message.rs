//! The messages behind a descriptor.

use super::descriptor::Descriptor;
use super::switch::Key;
use super::{Fault, Reason};

/// MessageLength, MessageID and ActorID.
pub const HEAD: usize = 4;
pub const STATE_MASK: u32 = 0x1F0F_18FF;
pub const CONTROL_MASK: u32 = 0x1F00_FFBF;
const KEY_MASK: u8 = 0x0F;

/// The six kinds of message.
#[derive(Clone, Copy, Debug, PartialEq, Eq)]
pub enum Kind {
    State,
    Control,
    EditValue,
    RealValue,
    Event,
    Temperature,
}

impl Kind {
    fn of(id: u8) -> Option<Self> {
        match id {
            0x01 => Some(Self::State),
            0x21 => Some(Self::Control),
            0x42 => Some(Self::EditValue),
            0x43 => Some(Self::RealValue),
            0x51 => Some(Self::Event),
            0x71 => Some(Self::Temperature),
            _ => None,
        }
    }

    pub fn id(self) -> u8 {
        match self {
            Self::State => 0x01,
            Self::Control => 0x21,
            Self::EditValue => 0x42,
            Self::RealValue => 0x43,
            Self::Event => 0x51,
            Self::Temperature => 0x71,
        }
    }

    pub fn length(self) -> usize {
        match self {
            Self::State | Self::Control | Self::Temperature => 8,
            Self::EditValue | Self::RealValue | Self::Event => 6,
        }
    }

    /// Whether a message of this kind is about an actor. If not, its ActorID is 0.
    fn is_of_an_actor(self) -> bool {
        matches!(self, Self::EditValue | Self::RealValue | Self::Event)
    }
}

/// What a message says to the hub, masked.
#[derive(Clone, Copy, Debug, PartialEq, Eq)]
pub enum Message {
    State {
        flags: u32,
    },
    EditValue {
        actor: u16,
        value: i16,
    },
    Event(Key),
    Temperature {
        reading: Option<i16>,
    },
    /// Control or RealValue: understood, but the hub has no use for what it says.
    Idle,
    /// Of no known kind.
    PassedOver,
}

impl Message {
    fn new(kind: Kind, actor: u16, data: &[u8]) -> Self {
        match kind {
            Kind::State => Self::State { flags: long(data) & STATE_MASK },
            Kind::EditValue => Self::EditValue { actor, value: signed(data) },
            Kind::Event => Self::Event(Key { actor, key: data[0] & KEY_MASK }),
            Kind::Temperature => Self::Temperature { reading: (data[2] == 1).then(|| signed(data)) },
            Kind::Control | Kind::RealValue => Self::Idle,
        }
    }

    pub fn is_understood(&self) -> bool {
        *self != Self::PassedOver
    }

    /// The actor that only a switch that lists it may speak of in an event.
    pub fn claimed_actor(&self) -> Option<u16> {
        match *self {
            Self::EditValue { actor, .. } | Self::Event(Key { actor, .. }) => Some(actor),
            _ => None,
        }
    }
}

fn signed(data: &[u8]) -> i16 {
    i16::from_le_bytes([data[0], data[1]])
}

fn long(data: &[u8]) -> u32 {
    u32::from_le_bytes([data[0], data[1], data[2], data[3]])
}

/// The messages of a payload in order, each with the offset of its first byte, up to the first that is refused.
pub struct Messages<'p> {
    payload: &'p [u8],
    at: usize,
}

impl<'p> Messages<'p> {
    pub fn of(payload: &'p [u8]) -> Self {
        Self { payload, at: Descriptor::LENGTH }
    }
}

impl Iterator for Messages<'_> {
    type Item = Result<(usize, Message), Fault>;

    fn next(&mut self) -> Option<Self::Item> {
        let at = self.at;
        let rest = self.payload.get(at..).filter(|rest| !rest.is_empty())?;
        match read(rest) {
            Ok((message, length)) => {
                self.at += length;
                Some(Ok((at, message)))
            }
            Err(reason) => {
                self.at = self.payload.len();
                Some(Err(Fault::at(reason, at)))
            }
        }
    }
}

/// The first message of the bytes, and its length.
fn read(bytes: &[u8]) -> Result<(Message, usize), Reason> {
    let &[length, id, low, high, ..] = bytes else {
        return Err(Reason::MessageLength);
    };
    let length = usize::from(length);
    if length < HEAD || length > bytes.len() {
        return Err(Reason::MessageLength);
    }
    let Some(kind) = Kind::of(id) else {
        return Ok((Message::PassedOver, length));
    };
    if length != kind.length() {
        return Err(Reason::KindLength);
    }
    let actor = u16::from_le_bytes([low, high]);
    if kind.is_of_an_actor() != (actor != 0) {
        return Err(Reason::KindActor);
    }
    Ok((Message::new(kind, actor, &bytes[HEAD..length]), length))
}

//! Refusals: why a call was refused, and where.

/// Why a call was refused. The discriminant is the refusal's number.
#[derive(Clone, Copy, Debug, PartialEq, Eq)]
#[repr(u8)]
pub enum Reason {
    PayloadLength = 1,
    FrameId = 2,
    FrameLength = 3,
    MajorVersion = 4,
    Project = 5,
    NotEnrolled = 6,
    MessageLength = 7,
    KindLength = 8,
    KindActor = 9,
    NotListed = 10,
    UnknownActor = 11,
    ForbiddenValue = 12,
    ControlWord = 13,
    SwitchId = 14,
    HubFull = 15,
    ListLength = 16,
    ListEntry = 17,
    SlipOpen = 18,
    NothingOutstanding = 19,
    BufferTooShort = 20,
    UnlawfulImage = 21,
    NoSuchSlip = 22,
}

/// A refusal: its reason and its place, which is a byte offset or a list index, else 0.
#[derive(Clone, Copy, Debug, PartialEq, Eq)]
pub struct Fault {
    pub reason: Reason,
    pub place: usize,
}

impl Fault {
    pub fn at(reason: Reason, place: usize) -> Self {
        Self { reason, place }
    }

    pub fn number(self) -> u8 {
        self.reason as u8
    }
}

/// A refusal whose place is 0.
impl From<Reason> for Fault {
    fn from(reason: Reason) -> Self {
        Self::at(reason, 0)
    }
}

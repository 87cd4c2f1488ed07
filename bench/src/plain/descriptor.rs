//! The descriptor at the head of every packet.

use super::{Fault, MAX_PAYLOAD, Reason};

const FRAME_ID: u16 = 0x8601;
const MAJOR_VERSION: u16 = 2;

/// The words of a descriptor, without FrameID and FrameLength, which say nothing of their own.
#[derive(Clone, Copy, Debug, PartialEq, Eq)]
pub struct Descriptor {
    pub version: u16,
    /// 0 in an event, else the number of the packet that this one is, or that it answers.
    pub package: u16,
    pub project: u16,
    pub firmware: u16,
    pub switch: u16,
    pub design: u16,
}

impl Descriptor {
    pub const LENGTH: usize = 16;
    pub const PROJECT_AT: usize = 8;
    pub const SWITCH_AT: usize = 12;
    const FRAME_ID_AT: usize = 0;
    const FRAME_LENGTH_AT: usize = 2;
    const VERSION_AT: usize = 4;

    pub fn read(payload: &[u8]) -> Result<Self, Fault> {
        if payload.len() > MAX_PAYLOAD {
            return Err(Reason::PayloadLength.into());
        }
        let Some(head) = payload.first_chunk::<{ Self::LENGTH }>() else {
            return Err(Reason::PayloadLength.into());
        };
        let word = |at: usize| u16::from_le_bytes([head[at], head[at + 1]]);
        if word(Self::FRAME_ID_AT) != FRAME_ID {
            return Err(Fault::at(Reason::FrameId, Self::FRAME_ID_AT));
        }
        if usize::from(word(Self::FRAME_LENGTH_AT)) != payload.len() {
            return Err(Fault::at(Reason::FrameLength, Self::FRAME_LENGTH_AT));
        }
        let version = word(Self::VERSION_AT);
        if !is_spoken(version) {
            return Err(Fault::at(Reason::MajorVersion, Self::VERSION_AT));
        }
        Ok(Self {
            version,
            package: word(6),
            project: word(Self::PROJECT_AT),
            firmware: word(10),
            switch: word(Self::SWITCH_AT),
            design: word(14),
        })
    }

    /// The descriptor's bytes at the head of a packet of this length.
    pub fn bytes(&self, length: u16) -> [u8; Self::LENGTH] {
        let words =
            [FRAME_ID, length, self.version, self.package, self.project, self.firmware, self.switch, self.design];
        let mut bytes = [0; Self::LENGTH];
        for (place, word) in bytes.chunks_exact_mut(2).zip(words) {
            place.copy_from_slice(&word.to_le_bytes());
        }
        bytes
    }
}

/// Whether packets of this version are understood: the major version decides, the minor one may be anything.
pub fn is_spoken(version: u16) -> bool {
    version >> 8 == MAJOR_VERSION
}

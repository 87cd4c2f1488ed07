//! Writing a packet into a buffer.

use super::descriptor::Descriptor;
use super::message::{HEAD, Kind};

/// A packet that is being written into a buffer that has room for it.
pub struct Draft<'b> {
    buffer: &'b mut [u8],
    length: usize,
}

impl<'b> Draft<'b> {
    /// Begins a packet that will have this length.
    pub fn begin(buffer: &'b mut [u8], descriptor: &Descriptor, length: u16) -> Self {
        let mut draft = Self { buffer, length: 0 };
        draft.write(&descriptor.bytes(length));
        draft
    }

    pub fn real_value(&mut self, actor: u16, value: i16) {
        self.message(Kind::RealValue, actor, value.to_le_bytes());
    }

    pub fn edit_value(&mut self, actor: u16, value: i16) {
        self.message(Kind::EditValue, actor, value.to_le_bytes());
    }

    pub fn control(&mut self, word: u32) {
        self.message(Kind::Control, 0, word.to_le_bytes());
    }

    fn message<const N: usize>(&mut self, kind: Kind, actor: u16, data: [u8; N]) {
        debug_assert_eq!(kind.length(), HEAD + N);
        let [low, high] = actor.to_le_bytes();
        self.write(&[kind.length() as u8, kind.id(), low, high]);
        self.write(&data);
    }

    fn write(&mut self, bytes: &[u8]) {
        let end = self.length + bytes.len();
        self.buffer[self.length..end].copy_from_slice(bytes);
        self.length = end;
    }
}

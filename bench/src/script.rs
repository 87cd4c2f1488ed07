//! Byte-coded scripts: the calls that one is made of, and how each is written and read.

/// What is called. The number is the operation's byte in a script.
#[derive(Clone, Copy, Debug, PartialEq, Eq)]
#[repr(u8)]
pub enum Operation {
    Nothing = 0,
    Enrol = 1,
    SetActual = 2,
    SetTarget = 3,
    SetControl = 4,
    Take = 5,
    Compose = 6,
    HandIn = 7,
    HandElsewhere = 8,
    ActorMark = 9,
    ControlMark = 10,
    Flags = 11,
    LatestKey = 12,
    Reading = 13,
    HasOutstanding = 14,
}

impl Operation {
    /// In the order of their numbers.
    pub const ALL: [Self; 15] = [
        Self::Nothing,
        Self::Enrol,
        Self::SetActual,
        Self::SetTarget,
        Self::SetControl,
        Self::Take,
        Self::Compose,
        Self::HandIn,
        Self::HandElsewhere,
        Self::ActorMark,
        Self::ControlMark,
        Self::Flags,
        Self::LatestKey,
        Self::Reading,
        Self::HasOutstanding,
    ];

    /// The operation of a byte. A byte of no operation does nothing.
    pub fn of(byte: u8) -> Self {
        Self::ALL.get(usize::from(byte)).copied().unwrap_or(Self::Nothing)
    }
}

/// What becomes of a slip.
#[derive(Clone, Copy, Debug, PartialEq, Eq)]
pub enum Fate {
    Kept,
    Sent,
    Withheld,
}

impl Fate {
    pub fn of(byte: u8) -> Self {
        match byte {
            0 => Self::Kept,
            1 => Self::Sent,
            _ => Self::Withheld,
        }
    }
}

/// One call of a script, as it is written: bytes and words that may be of no operation and no fate.
#[derive(Clone, Copy, Debug, PartialEq, Eq)]
pub struct Call<'s> {
    pub operation: u8,
    pub fate: u8,
    pub a: u16,
    pub b: u16,
    pub c: u16,
    pub data: &'s [u8],
}

/// The bytes of a call before its data.
pub const CALL_HEAD: usize = 10;

/// The largest buffer that a script composes into.
pub const MAX_BUFFER: usize = 1472;

/// No more words than these count in the list of an enrolment: one too many for any switch.
const MAX_LIST: usize = 65;

impl<'s> Call<'s> {
    pub fn new(operation: Operation) -> Self {
        Self { operation: operation as u8, fate: 0, a: 0, b: 0, c: 0, data: &[] }
    }

    pub fn fate(self, fate: u8) -> Self {
        Self { fate, ..self }
    }

    pub fn a(self, a: u16) -> Self {
        Self { a, ..self }
    }

    pub fn b(self, b: u16) -> Self {
        Self { b, ..self }
    }

    pub fn c(self, c: u16) -> Self {
        Self { c, ..self }
    }

    pub fn data(self, data: &'s [u8]) -> Self {
        Self { data, ..self }
    }

    /// How many bytes the buffer of this call has: none, if it is no compose.
    pub fn buffer_length(&self) -> usize {
        match Operation::of(self.operation) {
            Operation::Compose => usize::from(self.b).min(MAX_BUFFER),
            _ => 0,
        }
    }

    /// The control word of a setting.
    pub fn control_word(&self) -> u32 {
        u32::from(self.b) | u32::from(self.c) << 16
    }

    /// The words of an enrolment's list.
    pub fn list(&self) -> impl Iterator<Item = u16> {
        self.data.chunks_exact(2).map(|word| u16::from_le_bytes([word[0], word[1]])).take(MAX_LIST)
    }

    pub fn write(&self, script: &mut Vec<u8>) {
        script.extend([self.operation, self.fate]);
        for word in [self.a, self.b, self.c, self.data.len() as u16] {
            script.extend(word.to_le_bytes());
        }
        script.extend(self.data);
    }
}

/// The calls of a script. One that ends within a call ends there.
pub struct Calls<'s> {
    rest: &'s [u8],
}

impl<'s> Calls<'s> {
    pub fn of(script: &'s [u8]) -> Self {
        Self { rest: script }
    }
}

impl<'s> Iterator for Calls<'s> {
    type Item = Call<'s>;

    fn next(&mut self) -> Option<Call<'s>> {
        let (head, rest) = self.rest.split_first_chunk::<CALL_HEAD>()?;
        let word = |at: usize| u16::from_le_bytes([head[at], head[at + 1]]);
        let (data, rest) = rest.split_at_checked(usize::from(word(8)))?;
        self.rest = rest;
        Some(Call { operation: head[0], fate: head[1], a: word(2), b: word(4), c: word(6), data })
    }
}

//! What the hub asks of an actor store.

use super::{Fault, Reason};

/// Which of an actor's two values.
#[derive(Clone, Copy, Debug, PartialEq, Eq)]
pub enum Half {
    Actual,
    Target,
}

/// The two values of an actor.
#[derive(Clone, Copy, Debug, Default, PartialEq, Eq)]
pub struct Values {
    pub actual: i16,
    pub target: i16,
}

/// A store of actors. Which actors it knows is settled when it is opened.
pub trait Store {
    /// The values of an actor, or nothing if the store does not know it.
    fn read(&self, actor: u16) -> Option<Values>;

    /// Replaces one value of one actor.
    fn put(&mut self, actor: u16, half: Half, value: i16) -> Result<(), Fault>;
}

/// A switch ignores the two outermost numbers, so no store takes them.
pub fn is_forbidden(value: i16) -> bool {
    value == i16::MIN || value == i16::MAX
}

/// What every store does with a forbidden value, once it has found the actor.
pub fn lawful(value: i16) -> Result<i16, Fault> {
    if is_forbidden(value) {
        return Err(Reason::ForbiddenValue.into());
    }
    Ok(value)
}

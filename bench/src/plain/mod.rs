//! A hub for wall switches in ordinary Rust, written from the pages in `docs/` alone. It works in fixed memory,
//! with no heap, as the device that it is for has none to spare.

#![forbid(unsafe_code)]

mod descriptor;
mod draft;
mod fault;
mod hub;
mod image;
mod list;
mod message;
mod store;
mod switch;
mod table;
#[cfg(test)]
mod tests;

pub use fault::{Fault, Reason};
pub use hub::{Composed, Hub, Site, Slip, Sort};
pub use image::Image;
pub use store::{Half, Store};
pub use switch::Mark;
pub use table::Table;

/// A payload has no more bytes than this.
pub const MAX_PAYLOAD: usize = 1472;

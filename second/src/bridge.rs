//! The way to an archive: a process, the bridge, that has the archive linked
//! in and calls its functions. What goes between is told in bridge/bridge.c.

mod client;
mod double;
mod wire;

pub use client::{Bridge, TIME_LIMIT};
pub use double::{Fault, serve};

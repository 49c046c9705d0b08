//! Three modules of pdb 0.8.0 (omap, framedata, pe), with those that they stand on, built unchanged
//! from pdb's own files. Tables go in as bytes, through an in-memory MSF that pdb's own `open_msf`
//! reads, and come out as pdb's own types.

// pdb's files hold much that nothing here calls.
#![allow(dead_code, unused_imports, missing_docs, clippy::all)]

include!(concat!(env!("OUT_DIR"), "/root.rs"));

mod container;
mod tables;

pub use crate::common::*;
pub use crate::framedata::*;
pub use crate::omap::*;
pub use crate::pe::*;
#[cfg(feature = "fields")]
pub use crate::tables::Cursor;
pub use crate::tables::{Omap, Tables};
pub use fallible_iterator::FallibleIterator;

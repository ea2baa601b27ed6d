//! A plain reading of document 01 and of document 02's requests, to hold the
//! engine against.
//!
//! Every part follows the papers' own words and is written for reading. The
//! parts are public, so that a test can exchange one of them and see whether
//! it finds the slip. Two modules are helpers for tests, said once for all of
//! them: `draft` and `random`.

pub mod approach;
pub mod calls;
pub mod corners;
pub mod draft;
pub mod envelope;
pub mod job;
pub mod layout;
pub mod level;
pub mod memory;
pub mod number;
pub mod offset;
pub mod open;
pub mod program;
pub mod random;
pub mod reach;
pub mod reached;
pub mod refusal;
pub mod schedule;
pub mod stretch;

pub use calls::{
    Lookup, Outcome, Planned, Quantities, level, lookup, plan, planned, quantities, quantity,
};
pub use corners::{Corner, Corners, corners};
pub use layout::{Layout, Tried, layout};
pub use offset::offset;
pub use open::{OpenJob, add, keep, open, open_schedule, return_to, withdraw};
pub use reached::{Reached, open_reach, reach};
pub use refusal::Refusal;
pub use stretch::Stretch;

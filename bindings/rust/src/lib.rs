//! The barrier schedule engine from Rust: the calls of include/barrier.h, which is
//! the manual, safe to use, and what a program writes around them. README.md, beside
//! this crate's Cargo.toml, has a first program and says how the engine gets in.
//!
//! ```text
//! let job = Job { header, hazards: vec![headwall] }.encode();
//! let right = plan_side(&job, RIGHT)?;
//! for run in decode_schedule(&right.schedule)? {
//!     println!("{} to {} at NC-{}", run.start, run.end, run.level);
//! }
//! ```
//!
//! Lengths, offsets and stations are whole millimetres. A range [s, e) has the
//! millimetres s to e - 1, so its end station is not in it.
//!
//! The engine keeps no pointer after a call and allocates nothing: all memory
//! is the program's. What allocates here is what returns a `Vec`.
//!
//! The engine is proved; this crate is tested and not proved.

pub mod c;
mod calls;
mod constants;
mod job;
mod metres;
mod numbers;
mod open_job;
mod refusal;
mod schedule;
#[cfg(test)]
mod tests;
mod turning;
mod version;

pub use c::{Corner, Hazard};
pub use calls::*;
pub use constants::*;
pub use job::{Header, Job};
pub use metres::*;
pub use numbers::{put_number, Fault, Place};
pub use open_job::OpenJob;
pub use refusal::{Call, Refusal};
pub use schedule::*;
pub use turning::*;
pub use version::{version, Version};

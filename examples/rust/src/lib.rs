//! What the programs in here share.

pub mod printed;
pub mod show;

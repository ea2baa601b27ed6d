//! Which engine is linked.

use std::fmt;

use crate::{c, VERSION_MAJOR, VERSION_MINOR, VERSION_PATCH};

/// The version of an engine.
#[derive(Clone, Copy, Debug, PartialEq, Eq, PartialOrd, Ord)]
pub struct Version {
    pub major: u32,
    pub minor: u32,
    pub patch: u32,
}

impl Version {
    /// The one of this crate.
    pub const WRITTEN_FOR: Version = Version {
        major: VERSION_MAJOR,
        minor: VERSION_MINOR,
        patch: VERSION_PATCH,
    };

    /// Whether this crate may be linked with that engine: one with the same first
    /// number, and not an earlier one. With any other, no call may be made.
    pub fn fits(self) -> bool {
        self.serves(Version::WRITTEN_FOR)
    }

    pub(crate) fn serves(self, wanted: Version) -> bool {
        self.major == wanted.major && self >= wanted
    }
}

impl fmt::Display for Version {
    fn fmt(&self, f: &mut fmt::Formatter<'_>) -> fmt::Result {
        write!(f, "{}.{}.{}", self.major, self.minor, self.patch)
    }
}

/// The version of the engine that is linked. The linker does not see whether it
/// is the one that this crate was written for: ask it once, before other calls.
pub fn version() -> Version {
    // SAFETY: it takes nothing, and may be called at any time.
    let number = unsafe { c::barrier_version() };
    Version {
        major: number / 1_000_000,
        minor: number / 1_000 % 1_000,
        patch: number % 1_000,
    }
}

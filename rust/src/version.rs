//! The version of the library.

use core::fmt;

use crate::raw;

/// A version, printed as `0.2.0`.
#[derive(Clone, Copy, Debug, PartialEq, Eq, PartialOrd, Ord, Hash)]
pub struct Version {
    /// Changes where a call changes or goes.
    pub major: u64,
    /// Changes where a call comes.
    pub minor: u64,
    /// Changes where neither does.
    pub patch: u64,
}

impl fmt::Display for Version {
    fn fmt(&self, out: &mut fmt::Formatter<'_>) -> fmt::Result {
        write!(out, "{}.{}.{}", self.major, self.minor, self.patch)
    }
}

/// The version of the library that is linked, which is this package's where the two belong together.
///
/// ```
/// assert_eq!(spritbobbin::version().to_string(), env!("CARGO_PKG_VERSION"));
/// ```
pub fn version() -> Version {
    // Sound: nothing is lent.
    let number = unsafe { raw::spritbobbin_version() };
    Version { major: number / 1_000_000, minor: number / 1_000 % 1_000, patch: number % 1_000 }
}

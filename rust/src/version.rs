use std::fmt;

use crate::{image, Refusal};

/// This crate's version as the library counts it: major × 65536 + minor × 256 + patch.
///
/// ```
/// assert_eq!(dikothelm::VERSION, dikothelm::image::version());
/// ```
pub const VERSION: u32 = counted(env!("CARGO_PKG_VERSION_MAJOR"), env!("CARGO_PKG_VERSION_MINOR"), env!("CARGO_PKG_VERSION_PATCH"));

const fn counted(major: &str, minor: &str, patch: &str) -> u32 {
    decimal(major) * 65_536 + decimal(minor) * 256 + decimal(patch)
}

const fn decimal(digits: &str) -> u32 {
    let (mut value, mut place) = (0, 0);
    while place < digits.len() {
        value = 10 * value + (digits.as_bytes()[place] - b'0') as u32;
        place += 1;
    }
    value
}

/// Whether the linked library has this crate's major and minor version.
///
/// Every method that asks the library looks first, which costs a few instructions, and gives [`Refusal::OtherLibrary`] where it hasn't. A program that would
/// rather know at its start calls this there.
///
/// # Errors
/// [`OtherLibrary`](Refusal::OtherLibrary), whose text has both versions.
///
/// ```
/// # fn main() -> Result<(), dikothelm::Refusal> {
/// dikothelm::check_library()?;
/// # Ok(())
/// # }
/// ```
pub fn check_library() -> Result<(), Refusal> {
    if image::version() / 256 == VERSION / 256 {
        Ok(())
    } else {
        Err(Refusal::OtherLibrary)
    }
}

/// A version, to print.
pub(crate) struct Version(pub u32);

impl fmt::Display for Version {
    fn fmt(&self, f: &mut fmt::Formatter<'_>) -> fmt::Result {
        write!(f, "{}.{}.{}", self.0 / 65_536, self.0 / 256 % 256, self.0 % 256)
    }
}

//! The library's version.

use crate::ffi;

/// The version of the library that is linked: major, minor, patch. It is this
/// crate's own.
///
/// ```
/// let [major, minor, patch] = coronagamba::version();
/// assert_eq!(format!("{major}.{minor}.{patch}"), env!("CARGO_PKG_VERSION"));
/// ```
pub fn version() -> [u64; 3] {
    // SAFETY: the function takes nothing and gives a number.
    let version = unsafe { ffi::coronagamba_version() };
    [version >> 32, version >> 16 & 0xffff, version & 0xffff]
}

#[cfg(test)]
mod tests {
    use super::*;
    use crate::numbers::VERSION;

    /// Else the archive that is linked is older or newer than this crate.
    #[test]
    fn the_archive_is_of_this_version() {
        assert_eq!(version(), VERSION);
    }
}

//! Which archive is linked.
use crate::raw;

/// The version of the archive: major x 1,000,000 + minor x 1,000 + patch. That of the bindings is `CARGO_PKG_VERSION`.
#[inline]
pub fn version() -> u32 {
    // SAFETY: it is lent nothing.
    unsafe { raw::roq_version() }
}

//! The declarations of include/overlay.h, which build.rs makes of it. A pointer to fixed cells is a pointer to the first.

include!(concat!(env!("OUT_DIR"), "/sys.rs"));

/// A program links with the library of this version and with no other.
#[used]
static LINKED_VERSION: unsafe extern "C" fn() -> u32 = overlay_version_14;

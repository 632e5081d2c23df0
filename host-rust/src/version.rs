//! The version of this crate and of the archive that it is linked with.

use crate::sys;

/// The version of this crate.
pub const VERSION: &str = env!("CARGO_PKG_VERSION");

/// The version of the archive that is linked: its three numbers.
///
/// While the first number is 0, a change of the second may change a call, and a change of the third changes none. So the archive must have the first
/// two numbers of [`VERSION`]. [`CommandBucketer::new`] and [`split_opaque_span`], one of which is a program's first call of the library, compare them
/// and panic with both versions where they differ: such a program is built wrongly, and no input mends it.
///
/// [`CommandBucketer::new`]: crate::CommandBucketer::new
/// [`split_opaque_span`]: crate::split_opaque_span
#[must_use]
pub fn library_version() -> [u32; 3] {
    numbers(unsafe { sys::coarse_version() })
}

fn numbers(version: u32) -> [u32; 3] {
    [version >> 16, version >> 8 & 255, version & 255]
}

/// The number that a text of digits is.
const fn number(digits: &str) -> u32 {
    let digits = digits.as_bytes();
    let (mut number, mut i) = (0, 0);
    while i < digits.len() {
        number = 10 * number + (digits[i] - b'0') as u32;
        i += 1;
    }
    number
}

/// The first two numbers, as `coarse_version` has them but for the third.
const CALLS: u32 =
    number(env!("CARGO_PKG_VERSION_MAJOR")) << 8 | number(env!("CARGO_PKG_VERSION_MINOR"));

/// Whether the calls of an archive of this version are those that this crate was written for.
fn is_same(version: u32) -> bool {
    version >> 8 == CALLS
}

/// Panics where the archive is of another version.
#[inline]
pub(crate) fn compare() {
    let version = unsafe { sys::coarse_version() };
    if !is_same(version) {
        differs(version);
    }
}

#[cold]
fn differs(version: u32) -> ! {
    let [major, minor, patch] = numbers(version);
    panic!("the crate coarse {VERSION} is linked with libcoarse.a {major}.{minor}.{patch}: take both of one version (COARSE_LIB_DIR names the archive's folder)");
}

#[cfg(test)]
mod tests {
    use super::*;

    #[test]
    fn versions() {
        let [major, minor, patch] = library_version();
        assert_eq!(format!("{major}.{minor}.{patch}"), VERSION);
        assert_eq!(number("120"), 120);
        let version = unsafe { sys::coarse_version() };
        assert!(is_same(version) && is_same(version ^ 1));
        assert!(!is_same(version + 256) && !is_same(version + 65_536));
    }

    #[test]
    #[should_panic(expected = "is linked with libcoarse.a 3.2.1: take both of one version")]
    fn another_version() {
        differs(0x3_0201);
    }
}

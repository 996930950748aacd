//! The version of the archive that is linked, which must be that of this crate.
use core::fmt::{Display, Formatter, Result};

/// A version as the archive says it: byte 2 is the major number, byte 1 the minor one, byte 0 the patch.
#[derive(Clone, Copy, PartialEq)]
struct Version(u64);

/// The version of this crate.
const OWN: Version = Version::new(
    env!("CARGO_PKG_VERSION_MAJOR"),
    env!("CARGO_PKG_VERSION_MINOR"),
    env!("CARGO_PKG_VERSION_PATCH"),
);

impl Version {
    const fn new(major: &str, minor: &str, patch: &str) -> Version {
        Version(byte(major) << 16 | byte(minor) << 8 | byte(patch))
    }
}

const fn byte(digits: &str) -> u64 {
    match u8::from_str_radix(digits, 10) {
        Ok(byte) => byte as u64,
        Err(_) => panic!("each number of a version is below 256"),
    }
}

impl Display for Version {
    fn fmt(&self, f: &mut Formatter<'_>) -> Result {
        let (major, minor, patch) = (self.0 >> 16, self.0 >> 8 & 0xFF, self.0 & 0xFF);
        write!(f, "{major}.{minor}.{patch}")
    }
}

/// Ends the program where the archive's version, as it says it, is not this crate's.
pub(crate) fn check(archive: u64) {
    if archive != OWN.0 {
        refuse(Version(archive));
    }
}

#[cold]
fn refuse(archive: Version) -> ! {
    panic!(
        "the archive libfiddlefern.a that is linked has version {archive} and the crate fiddlefern has version {OWN}: \
         link that of {OWN}, which `make lib` builds in the repository; FIDDLEFERN_LIB_DIR names its folder"
    )
}

#[cfg(test)]
mod tests {
    extern crate std;
    use super::*;
    use std::panic::catch_unwind;
    use std::string::{String, ToString};

    /// What is said of an archive of this version; nothing where it is taken.
    fn said(archive: u64) -> Option<String> {
        let panic = catch_unwind(|| check(archive)).err()?;
        Some(*panic.downcast::<String>().expect("a sentence"))
    }

    #[test]
    fn versions_are_packed_and_shown() {
        assert_eq!(Version::new("1", "2", "3").0, 0x01_02_03);
        assert_eq!(Version::new("0", "255", "10").0, 0x00_FF_0A);
        assert_eq!(Version(0x0B_00_FF).to_string(), "11.0.255");
        assert_eq!(OWN.to_string(), env!("CARGO_PKG_VERSION"));
    }

    #[test]
    fn the_linked_archive_has_this_version() {
        assert_eq!(said(OWN.0), None);
        assert_eq!(said(crate::raw::version()), None);
    }

    /// One more and one less in each of the three numbers, and a bit above them.
    #[test]
    fn another_version_is_refused_with_a_sentence() {
        for step in [1, 1 << 8, 1 << 16, 1 << 24, 1 << 63] {
            for archive in [OWN.0.wrapping_add(step), OWN.0.wrapping_sub(step)] {
                let said = said(archive).expect("another version");
                let (archive, own) = (Version(archive), env!("CARGO_PKG_VERSION"));
                let start = std::format!(
                    "the archive libfiddlefern.a that is linked has version {archive} and"
                );
                assert!(said.starts_with(&start), "{said}");
                assert!(said.contains(&std::format!("fiddlefern has version {own}: ")));
                assert!(said.contains("`make lib`") && said.contains("FIDDLEFERN_LIB_DIR"));
            }
        }
    }
}

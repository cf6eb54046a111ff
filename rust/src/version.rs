//! The version of the header, here and in the library that is linked.

use core::error::Error;
use core::fmt;

use crate::ffi;

/// The version of include/barkpaddle.h that this crate goes with. Each change of the header raises
/// it.
pub const VERSION: u64 = 7;

/// The version of include/barkpaddle.h that the linked library goes with.
#[must_use]
pub fn library_version() -> u64 {
    ffi::barkpaddle_version()
}

/// Says whether the linked library goes with this crate. BARKPADDLE_LIB_DIR may name any archive;
/// whoever sets it asks this before anything else.
///
/// ```
/// barkpaddle::check_version().expect("the library is this crate's own");
/// assert_eq!(barkpaddle::library_version(), barkpaddle::VERSION);
/// # Ok::<(), barkpaddle::Refusal>(())
/// ```
///
/// # Errors
///
/// [`WrongVersion`] where [`library_version`] isn't [`VERSION`].
pub fn check_version() -> Result<(), WrongVersion> {
    compare(library_version())
}

fn compare(library: u64) -> Result<(), WrongVersion> {
    if library == VERSION { Ok(()) } else { Err(WrongVersion { library, wanted: VERSION }) }
}

/// The linked library goes with another header than this crate.
#[derive(Debug, Clone, Copy, PartialEq, Eq, Hash)]
#[non_exhaustive]
pub struct WrongVersion {
    /// The library's version.
    pub library: u64,
    /// The one that this crate goes with: [`VERSION`].
    pub wanted: u64,
}

impl fmt::Display for WrongVersion {
    fn fmt(&self, out: &mut fmt::Formatter<'_>) -> fmt::Result {
        let Self { library, wanted } = self;
        write!(
            out,
            "libbarkpaddle.a has version {library}, and the crate barkpaddle needs {wanted}: link \
             the archive that `tools/staticlib` makes in the crate's own repository, \
             or set BARKPADDLE_LIB_DIR to the folder that has it"
        )
    }
}

impl Error for WrongVersion {}

#[cfg(test)]
mod tests {
    extern crate std;
    use std::string::ToString;

    use super::*;

    #[test]
    fn another_version_is_told_with_both_numbers() {
        assert_eq!(compare(VERSION), Ok(()));
        for library in [0, VERSION + 1, u64::MAX] {
            let wrong = compare(library).expect_err("it isn't this crate's");
            assert_eq!((wrong.library, wrong.wanted), (library, VERSION));
            let said = wrong.to_string();
            assert!(said.contains(&std::format!("version {library},")), "{said}");
            assert!(said.contains(&std::format!("needs {VERSION}:")), "{said}");
            assert!(said.contains("tools/staticlib"), "{said}");
        }
    }
}

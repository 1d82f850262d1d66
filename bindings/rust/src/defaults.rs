use crate::error::{Error, FaultKind};
use crate::library;
use std::env;
use std::os::unix::ffi::OsStringExt;

/// What specs get that say nothing of it, as git's variables for pathspecs ask for it.
#[derive(Clone, Copy, Debug, Default, PartialEq, Eq, Hash)]
pub struct Defaults {
    /// Specs aren't read: each is a path, and `glob` and `noglob` don't count
    /// (`GIT_LITERAL_PATHSPECS`).
    pub literal: bool,
    /// ASCII case doesn't count (`GIT_ICASE_PATHSPECS`).
    pub icase: bool,
    /// Globs whose wildcards don't take `/`, and `noglob` doesn't count (`GIT_GLOB_PATHSPECS`).
    pub glob: bool,
    /// Paths are compared byte for byte (`GIT_NOGLOB_PATHSPECS`).
    pub noglob: bool,
}

impl Defaults {
    /// The defaults that git's four variables in this process's environment ask for.
    ///
    /// # Errors
    /// [`Error::Environment`] where one of them is neither true nor false, or where globs are both
    /// asked for and not.
    ///
    /// ```
    /// use puneloviash::Defaults;
    ///
    /// std::env::set_var("GIT_ICASE_PATHSPECS", "yes");
    /// let wanted = Defaults { icase: true, ..Defaults::default() };
    /// assert_eq!(Defaults::from_environment(), Ok(wanted));
    /// ```
    pub fn from_environment() -> Result<Defaults, Error> {
        let word = |name| env::var_os(name).map(|word| word.into_vec());
        let words = [
            "GIT_LITERAL_PATHSPECS",
            "GIT_ICASE_PATHSPECS",
            "GIT_GLOB_PATHSPECS",
            "GIT_NOGLOB_PATHSPECS",
        ]
        .map(|name| word(name).unwrap_or_default());
        match library::defaults_from_words([&words[0], &words[1], &words[2], &words[3]]) {
            Ok(bits) => Ok(Defaults::of(bits)),
            Err(fault) => Err(Error::Environment {
                kind: FaultKind::of(fault.kind),
            }),
        }
    }

    fn of(bits: u32) -> Defaults {
        Defaults {
            literal: bits & 1 != 0,
            icase: bits & 2 != 0,
            glob: bits & 4 != 0,
            noglob: bits & 8 != 0,
        }
    }

    pub(crate) fn bits(self) -> u32 {
        u32::from(self.literal)
            | u32::from(self.icase) << 1
            | u32::from(self.glob) << 2
            | u32::from(self.noglob) << 3
    }
}

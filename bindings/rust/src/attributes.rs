use crate::library::PsLeftOut;
use crate::text::{without_slash, Text};

/// Where an attribute file lies (gitattributes). Where two speak of an attribute of a path, that of
/// `Info` counts most and that of `Global` least.
#[derive(Clone, Copy, Debug, PartialEq, Eq, Hash)]
pub enum Place<'a> {
    /// `info/attributes` of the repository.
    Info,
    /// `.gitattributes` of a directory, by its path from the top, which is empty for the top. The
    /// deeper counts more.
    Directory(&'a [u8]),
    /// What `core.attributesFile` names, for all repositories of a user.
    Global,
}

impl<'a> Place<'a> {
    /// The place of the `.gitattributes` of a directory. Slashes at the end of its path don't
    /// count.
    pub fn directory<T: Text + ?Sized>(path: &'a T) -> Place<'a> {
        Place::Directory(without_slash(path.text()).0)
    }

    /// Its number, and the directory.
    pub(crate) fn in_c(self) -> (u32, &'a [u8]) {
        match self {
            Place::Directory(path) => (0, path),
            Place::Info => (1, b""),
            Place::Global => (2, b""),
        }
    }
}

/// The lines of an attribute file that git leaves out.
#[derive(Clone, Copy, Debug, PartialEq, Eq, Hash)]
pub struct LeftOut {
    /// How many there are, at least one.
    pub count: usize,
    /// The number of the first of them, from 1.
    pub line: usize,
    /// Why it is left out.
    pub reason: Reason,
}

impl LeftOut {
    pub(crate) fn of(told: PsLeftOut) -> Option<LeftOut> {
        let reason = match told.reason {
            1 => Reason::TooLong,
            2 => Reason::InvalidName,
            3 => Reason::Macro,
            4 => Reason::Negative,
            number => Reason::Other(number),
        };
        (told.count > 0).then_some(LeftOut {
            count: told.count,
            line: told.line,
            reason,
        })
    }
}

/// Why git leaves out a line of an attribute file.
#[derive(Clone, Copy, Debug, PartialEq, Eq, Hash)]
#[non_exhaustive]
pub enum Reason {
    /// It has 2,048 bytes or more.
    TooLong,
    /// No name of an attribute.
    InvalidName,
    /// A macro in the file of a directory below the top.
    Macro,
    /// A pattern that begins with `!`.
    Negative,
    /// A reason that this crate doesn't know, by its number.
    Other(u32),
}

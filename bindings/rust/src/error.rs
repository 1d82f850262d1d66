use crate::library::{self, PsFault, Source};
use std::fmt;

/// Why a call couldn't do what it was asked for.
#[derive(Clone, Debug, PartialEq, Eq)]
#[non_exhaustive]
pub enum Error {
    /// A spec can't be read, or can't be placed in the repository.
    Spec {
        /// The place of the spec in the list, or the number of its line, from 0.
        number: usize,
        /// What is at fault.
        kind: FaultKind,
        /// The same in words, which may change.
        message: String,
    },
    /// A spec has the byte 0, at which the library would end it. It wasn't handed on.
    Nul {
        /// The place of the spec in the list, from 0.
        number: usize,
        /// The place of the byte in the spec, from 0.
        position: usize,
    },
    /// A list of attributes can't be read.
    Attributes {
        /// What is at fault.
        kind: FaultKind,
        /// The same in words, which may change.
        message: String,
    },
    /// The variables of the environment ask for no defaults: [`FaultKind::NotTruth`] or
    /// [`FaultKind::GlobAndNoGlob`].
    Environment {
        /// What is at fault.
        kind: FaultKind,
    },
    /// The prefix isn't clean: neither empty nor names joined by single slashes.
    Prefix,
    /// The directory of an attribute file isn't clean: neither empty nor names joined by single
    /// slashes.
    Directory,
    /// A list of attributes beside attribute files, or an attribute file beside a list.
    Mixed,
    /// Memory ran out.
    Memory,
    /// The archive has other declarations than this crate.
    Version {
        /// The number of the archive's declarations.
        found: u32,
    },
}

impl Error {
    /// The place of the spec that is at fault, or the number of its line, from 0.
    pub fn number(&self) -> Option<usize> {
        match self {
            Error::Spec { number, .. } | Error::Nul { number, .. } => Some(*number),
            _ => None,
        }
    }

    /// What is at fault in a spec, a list of attributes or the environment.
    pub fn kind(&self) -> Option<FaultKind> {
        match self {
            Error::Spec { kind, .. }
            | Error::Attributes { kind, .. }
            | Error::Environment { kind } => Some(*kind),
            _ => None,
        }
    }

    /// The error for the status and the fault of a search that wasn't made.
    pub(crate) fn of_search(status: u32, fault: PsFault, source: &Source<'_>) -> Error {
        Error::of_status(status).unwrap_or_else(|| {
            let kind = FaultKind::of(fault.kind);
            let words = source.message().map(lossy);
            Error::Spec {
                number: fault.number,
                kind,
                message: words.unwrap_or_else(|| format!("spec {}: {kind}", fault.number)),
            }
        })
    }

    /// The error for the status and the fault of a list of attributes.
    pub(crate) fn of_list(status: u32, fault: PsFault, list: &[u8]) -> Error {
        Error::of_status(status).unwrap_or_else(|| {
            let kind = FaultKind::of(fault.kind);
            let words = library::list_message(list).map(lossy);
            Error::Attributes {
                kind,
                message: words.unwrap_or_else(|| kind.to_string()),
            }
        })
    }

    /// The error for the status of an attribute file.
    pub(crate) fn of_file(status: u32) -> Error {
        match status {
            library::PREFIX => Error::Directory,
            library::MIXED => Error::Mixed,
            _ => Error::Memory,
        }
    }

    fn of_status(status: u32) -> Option<Error> {
        match status {
            library::MEMORY => Some(Error::Memory),
            library::PREFIX => Some(Error::Prefix),
            library::MIXED => Some(Error::Mixed),
            _ => None,
        }
    }
}

impl fmt::Display for Error {
    fn fmt(&self, f: &mut fmt::Formatter<'_>) -> fmt::Result {
        match self {
            Error::Spec { message, .. } | Error::Attributes { message, .. } => f.write_str(message),
            Error::Nul { number, position } => {
                write!(f, "spec {number}: the byte 0 at {position}")
            }
            Error::Environment {
                kind: FaultKind::GlobAndNoGlob,
            } => f.write_str("the environment asks for globs and for no globs"),
            Error::Environment { .. } => {
                f.write_str("a variable of the environment is neither true nor false")
            }
            Error::Prefix => f.write_str("the prefix isn't clean"),
            Error::Directory => f.write_str("the directory isn't clean"),
            Error::Mixed => {
                f.write_str("a matcher takes lists of attributes or attribute files, and not both")
            }
            Error::Memory => f.write_str("out of memory"),
            Error::Version { found } => {
                write!(
                    f,
                    "libpathspec.a has version {found}, not {}",
                    library::VERSION
                )
            }
        }
    }
}

impl std::error::Error for Error {}

fn lossy(words: Vec<u8>) -> String {
    String::from_utf8_lossy(&words).into_owned()
}

/// What is at fault. It is displayed as its name.
#[derive(Clone, Copy, Debug, PartialEq, Eq, Hash)]
#[non_exhaustive]
pub enum FaultKind {
    /// A spec without a byte.
    Empty,
    /// A byte of short magic that git keeps free for later, as in `:%a`.
    UnimplementedShort,
    /// Long magic without its closing parenthesis, as `:(top`.
    MissingParen,
    /// No keyword of long magic, as in `:(nope)a`.
    InvalidKeyword,
    /// `literal` and `glob` in one spec.
    LiteralWithGlob,
    /// A second list of attributes in one spec.
    SecondAttributes,
    /// `prefix:` with no number, or with one that is no boundary of the path.
    InvalidPrefix,
    /// No attribute.
    EmptyAttributes,
    /// No name of an attribute.
    InvalidName,
    /// A byte that no value of an attribute holds.
    InvalidValueByte,
    /// A value that ends with the backslash of an escape.
    TrailingEscape,
    /// An absolute path that doesn't lie in the root.
    OutsideRoot,
    /// A path that climbs out of the repository.
    LeavesRepository,
    /// A word that is none of truth.
    NotTruth,
    /// Globs are both asked for and not.
    GlobAndNoGlob,
    /// A kind that this crate doesn't know, by its number.
    Other(u32),
}

impl FaultKind {
    pub(crate) fn of(number: u32) -> FaultKind {
        match number {
            1 => FaultKind::Empty,
            2 => FaultKind::UnimplementedShort,
            3 => FaultKind::MissingParen,
            4 => FaultKind::InvalidKeyword,
            5 => FaultKind::LiteralWithGlob,
            6 => FaultKind::SecondAttributes,
            7 => FaultKind::InvalidPrefix,
            8 => FaultKind::EmptyAttributes,
            9 => FaultKind::InvalidName,
            10 => FaultKind::InvalidValueByte,
            11 => FaultKind::TrailingEscape,
            12 => FaultKind::OutsideRoot,
            13 => FaultKind::LeavesRepository,
            14 => FaultKind::NotTruth,
            15 => FaultKind::GlobAndNoGlob,
            number => FaultKind::Other(number),
        }
    }
}

impl fmt::Display for FaultKind {
    fn fmt(&self, f: &mut fmt::Formatter<'_>) -> fmt::Result {
        fmt::Debug::fmt(self, f)
    }
}

#[cfg(test)]
mod tests {
    use super::*;

    #[test]
    fn kinds_have_the_names_of_the_library() {
        for number in 1..=15 {
            let name = library::fault_name(number).map(lossy);
            assert_eq!(name, Some(FaultKind::of(number).to_string()));
        }
        for number in [0, 16] {
            assert_eq!(library::fault_name(number), None);
            assert_eq!(FaultKind::of(number), FaultKind::Other(number));
        }
    }

    #[test]
    fn the_archive_has_the_declarations_of_this_crate() {
        assert_eq!(library::version(), library::VERSION);
    }
}

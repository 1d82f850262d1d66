use std::borrow::Cow;
use std::ffi::{OsStr, OsString};
use std::os::unix::ffi::OsStrExt;
use std::path::{Path, PathBuf};

/// What may be handed in as a spec or as a path: texts, bytes and paths. Only its bytes count,
/// which needn't be UTF-8.
pub trait Text {
    /// Its bytes.
    fn text(&self) -> &[u8];
}

impl Text for [u8] {
    fn text(&self) -> &[u8] {
        self
    }
}

impl<const N: usize> Text for [u8; N] {
    fn text(&self) -> &[u8] {
        self
    }
}

impl Text for Vec<u8> {
    fn text(&self) -> &[u8] {
        self
    }
}

impl Text for str {
    fn text(&self) -> &[u8] {
        self.as_bytes()
    }
}

impl Text for String {
    fn text(&self) -> &[u8] {
        self.as_bytes()
    }
}

impl Text for OsStr {
    fn text(&self) -> &[u8] {
        self.as_bytes()
    }
}

impl Text for OsString {
    fn text(&self) -> &[u8] {
        self.as_bytes()
    }
}

impl Text for Path {
    fn text(&self) -> &[u8] {
        self.as_os_str().as_bytes()
    }
}

impl Text for PathBuf {
    fn text(&self) -> &[u8] {
        self.as_os_str().as_bytes()
    }
}

impl<T: Text + ToOwned + ?Sized> Text for Cow<'_, T> {
    fn text(&self) -> &[u8] {
        (**self).text()
    }
}

impl<T: Text + ?Sized> Text for &T {
    fn text(&self) -> &[u8] {
        (**self).text()
    }
}

/// The bytes of a path without slashes at its end, and whether there were any: then it is a
/// directory's.
pub(crate) fn without_slash(path: &[u8]) -> (&[u8], bool) {
    let mut rest = path;
    while let [before @ .., b'/'] = rest {
        rest = before;
    }
    (rest, rest.len() < path.len())
}

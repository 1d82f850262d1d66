use crate::matcher::Matcher;
use std::error::Error;
use std::fmt;
use std::fs::{self, DirEntry, ReadDir};
use std::io;
use std::path::{Path, PathBuf};

/// The selected files below a directory, by their paths from there, in no order.
///
/// Symbolic links count as files and aren't followed. What is called `.git` is left out, and so is
/// what is neither a file nor a link. No directory is entered that [may be
/// skipped](Matcher::may_skip).
///
/// A directory or an entry that can't be read is an error, which names it; the walk goes on with
/// the others.
pub struct Walk<'a> {
    matcher: &'a Matcher,
    root: PathBuf,
    /// The directory that is being read, and what is left of it.
    open: Option<(PathBuf, ReadDir)>,
    /// The directories that are still to be read.
    left: Vec<PathBuf>,
    opened: usize,
}

impl Walk<'_> {
    pub(crate) fn new(matcher: &Matcher, root: PathBuf) -> Walk<'_> {
        Walk {
            matcher,
            root,
            open: None,
            left: vec![PathBuf::new()],
            opened: 0,
        }
    }

    /// How many directories were opened so far, with the root.
    pub fn opened(&self) -> usize {
        self.opened
    }

    /// Opens the next directory, if one is left.
    fn open_next(&mut self) -> Option<io::Result<()>> {
        let directory = self.left.pop()?;
        let whole = self.root.join(&directory);
        Some(match fs::read_dir(&whole) {
            Ok(entries) => {
                self.opened += 1;
                self.open = Some((directory, entries));
                Ok(())
            }
            Err(error) => Err(at(whole, error)),
        })
    }

    /// The path of an entry that is a selected file. A directory is kept for later, unless it may
    /// be skipped.
    fn visit(&mut self, directory: &Path, entry: &DirEntry) -> io::Result<Option<PathBuf>> {
        let name = entry.file_name();
        if name == ".git" {
            return Ok(None);
        }
        let path = directory.join(name);
        let kind = entry
            .file_type()
            .map_err(|error| at(self.root.join(&path), error))?;
        if kind.is_dir() {
            if !self.matcher.may_skip(&path) {
                self.left.push(path);
            }
            return Ok(None);
        }
        let is_file = kind.is_file() || kind.is_symlink();
        Ok((is_file && self.matcher.is_selected(&path, false)).then_some(path))
    }
}

impl Iterator for Walk<'_> {
    type Item = io::Result<PathBuf>;

    fn next(&mut self) -> Option<io::Result<PathBuf>> {
        loop {
            let Some((directory, mut entries)) = self.open.take() else {
                if let Err(error) = self.open_next()? {
                    return Some(Err(error));
                }
                continue;
            };
            let Some(entry) = entries.next() else {
                continue;
            };
            let found = match entry {
                Ok(entry) => self.visit(&directory, &entry),
                Err(error) => Err(at(self.root.join(&directory), error)),
            };
            self.open = Some((directory, entries));
            if let Some(found) = found.transpose() {
                return Some(found);
            }
        }
    }
}

impl fmt::Debug for Walk<'_> {
    fn fmt(&self, f: &mut fmt::Formatter<'_>) -> fmt::Result {
        f.debug_struct("Walk")
            .field("root", &self.root)
            .field("opened", &self.opened)
            .finish_non_exhaustive()
    }
}

/// An error of the system, and the path at which it came.
#[derive(Debug)]
struct AtPath {
    path: PathBuf,
    error: io::Error,
}

impl fmt::Display for AtPath {
    fn fmt(&self, f: &mut fmt::Formatter<'_>) -> fmt::Result {
        write!(f, "{}: {}", self.path.display(), self.error)
    }
}

impl Error for AtPath {
    fn source(&self) -> Option<&(dyn Error + 'static)> {
        Some(&self.error)
    }
}

fn at(path: PathBuf, error: io::Error) -> io::Error {
    io::Error::new(error.kind(), AtPath { path, error })
}

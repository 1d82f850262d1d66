use crate::defaults::Defaults;
use crate::error::Error;
use crate::library::{self, Handle, Source};
use crate::matcher::Matcher;
use crate::text::Text;
use std::ffi::OsString;
use std::fmt;
use std::os::unix::ffi::OsStringExt;
use std::path::PathBuf;
use std::sync::{Mutex, MutexGuard, PoisonError};

/// A search: specs that match together. A [`Matcher`] asks it, and each thread takes one of its own.
///
/// ```
/// # fn main() -> Result<(), puneloviash::Error> {
/// use puneloviash::Search;
/// use std::thread;
///
/// let search = Search::new(["src/*.rs", ":!src/gen"])?;
/// thread::scope(|scope| {
///     for _ in 0..4 {
///         scope.spawn(|| {
///             let matcher = search.matcher()?;
///             assert!(matcher.is_selected("src/lib.rs", false));
///             Ok::<_, puneloviash::Error>(())
///         });
///     }
/// });
/// # Ok(())
/// # }
/// ```
pub struct Search {
    /// A call has the handle alone; it is locked while a matcher is taken or a text is copied.
    handle: Mutex<Handle>,
}

impl Search {
    /// Makes the search of specs that are given at the top of a repository, as [`Builder::build`]
    /// does.
    ///
    /// # Errors
    /// As [`Builder::build`]
    pub fn new<I>(specs: I) -> Result<Search, Error>
    where
        I: IntoIterator,
        I::Item: Text,
    {
        Search::builder().build(specs)
    }

    /// What says in which directory specs are given, and what they get that say nothing of it.
    pub fn builder() -> Builder {
        Builder::default()
    }

    /// The same search for another thread, which may outlive this one. Specs aren't read again.
    ///
    /// # Errors
    /// [`Error::Memory`]
    ///
    /// ```
    /// # fn main() -> Result<(), puneloviash::Error> {
    /// let search = puneloviash::Search::new(["*.c"])?;
    /// let other = search.share()?;
    /// let thread = std::thread::spawn(move || Ok(other.matcher()?.is_selected("a.c", false)));
    /// assert_eq!(thread.join().unwrap(), Ok::<_, puneloviash::Error>(true));
    /// # Ok(())
    /// # }
    /// ```
    pub fn share(&self) -> Result<Search, Error> {
        let handle = self.handle().share().ok_or(Error::Memory)?;
        Ok(Search {
            handle: Mutex::new(handle),
        })
    }

    /// What one thread asks this search by, without a lock. It has no attributes yet.
    ///
    /// # Errors
    /// [`Error::Memory`]
    pub fn matcher(&self) -> Result<Matcher, Error> {
        let handle = self.handle().share().ok_or(Error::Memory)?;
        Ok(Matcher::of(handle))
    }

    /// What all selected paths begin with, but for the empty path. It may end within a name, and
    /// may be empty.
    ///
    /// ```
    /// # fn main() -> Result<(), puneloviash::Error> {
    /// let search = puneloviash::Search::new(["src/lib", "src/list"])?;
    /// assert_eq!(search.common_prefix(), "src/li");
    /// # Ok(())
    /// # }
    /// ```
    pub fn common_prefix(&self) -> OsString {
        OsString::from_vec(self.handle().common_prefix().unwrap_or_default())
    }

    /// The directory at or below which all selected paths lie, as long as the includes' common
    /// prefix tells one. There is none where there is no include, and where it is the top.
    ///
    /// ```
    /// # fn main() -> Result<(), puneloviash::Error> {
    /// let search = puneloviash::Search::new(["src/lib", "src/list"])?;
    /// assert_eq!(search.longest_common_directory(), Some("src".into()));
    /// # Ok(())
    /// # }
    /// ```
    pub fn longest_common_directory(&self) -> Option<PathBuf> {
        let directory = self.handle().longest_common_directory()?;
        Some(OsString::from_vec(directory).into())
    }

    /// What the first include has kept of the prefix. It may be empty, and is where there is no
    /// include.
    pub fn prefix_directory(&self) -> PathBuf {
        OsString::from_vec(self.handle().prefix_directory().unwrap_or_default()).into()
    }

    fn handle(&self) -> MutexGuard<'_, Handle> {
        // (nothing panics while it is locked, and a handle is whole between calls)
        self.handle.lock().unwrap_or_else(PoisonError::into_inner)
    }
}

impl fmt::Debug for Search {
    fn fmt(&self, f: &mut fmt::Formatter<'_>) -> fmt::Result {
        f.debug_struct("Search").finish_non_exhaustive()
    }
}

/// What a [`Search`] is made with beside its specs.
///
/// ```
/// # fn main() -> Result<(), puneloviash::Error> {
/// use puneloviash::{Defaults, Search};
///
/// // As `cd src` and `GIT_ICASE_PATHSPECS=1 git ls-files LIB.rs` do.
/// let defaults = Defaults { icase: true, ..Defaults::default() };
/// let search = Search::builder().prefix("src").defaults(defaults).build(["LIB.rs"])?;
/// assert!(search.matcher()?.is_selected("src/lib.rs", false));
/// # Ok(())
/// # }
/// ```
#[derive(Clone, Debug, Default)]
#[must_use]
pub struct Builder {
    prefix: Vec<u8>,
    root: Vec<u8>,
    defaults: Defaults,
}

impl Builder {
    /// The directory in which the specs are given, from the top of the repository: names joined by
    /// single slashes, or nothing for the top, as it is by default.
    pub fn prefix(mut self, prefix: impl Text) -> Builder {
        self.prefix = prefix.text().to_vec();
        self
    }

    /// Where the repository lies, an absolute path. Only specs that are absolute paths need it.
    pub fn root(mut self, root: impl Text) -> Builder {
        self.root = root.text().to_vec();
        self
    }

    /// What specs get that say nothing of it; by default nothing.
    pub fn defaults(mut self, defaults: Defaults) -> Builder {
        self.defaults = defaults;
        self
    }

    /// Makes the search of specs. No specs select everything, or with a prefix what lies there. The
    /// cost is linear in the bytes of all specs, and for each spec in the prefix and the root; and
    /// they are sorted.
    ///
    /// # Errors
    /// The first spec with the byte 0; or the first that can't be read, or else the first that
    /// can't be placed in the repository; [`Error::Prefix`], [`Error::Memory`] or
    /// [`Error::Version`].
    ///
    /// ```
    /// use puneloviash::{Error, FaultKind, Search};
    ///
    /// let error = Search::new(["a", ":(nope)b"]).unwrap_err();
    /// assert_eq!(error.number(), Some(1));
    /// assert_eq!(error.kind(), Some(FaultKind::InvalidKeyword));
    /// assert_eq!(error.to_string(), "spec 1: found an unknown keyword in long magic: nope");
    /// assert_eq!(Search::new(["a\0b"]).unwrap_err(), Error::Nul { number: 0, position: 1 });
    /// ```
    pub fn build<I>(&self, specs: I) -> Result<Search, Error>
    where
        I: IntoIterator,
        I::Item: Text,
    {
        self.build_texts(&joined(specs)?, false)
    }

    /// Makes the search of the specs on the lines of a text, as in a file of
    /// `--pathspec-from-file`. A line feed ends a line, and the last may lack it; one carriage
    /// return before a line feed is no part of the line. Nothing is trimmed or unquoted, and an
    /// empty line is at fault.
    ///
    /// # Errors
    /// As [`Builder::build`]; the byte 0 is one like others.
    ///
    /// ```
    /// # fn main() -> Result<(), puneloviash::Error> {
    /// let search = puneloviash::Search::builder().build_from_lines("*.c\r\n:!gen\n")?;
    /// assert!(!search.matcher()?.is_selected("gen/a.c", false));
    /// # Ok(())
    /// # }
    /// ```
    pub fn build_from_lines(&self, text: impl Text) -> Result<Search, Error> {
        self.build_texts(text.text(), true)
    }

    fn build_texts(&self, texts: &[u8], is_lines: bool) -> Result<Search, Error> {
        let found = library::version();
        if found != library::VERSION {
            return Err(Error::Version { found });
        }
        let source = Source {
            texts,
            is_lines,
            prefix: &self.prefix,
            root: &self.root,
            defaults: self.defaults.bits(),
        };
        match Handle::new(&source) {
            Ok(handle) => Ok(Search {
                handle: Mutex::new(handle),
            }),
            Err((status, fault)) => Err(Error::of_search(status, fault, &source)),
        }
    }
}

/// The bytes of all specs, each ended by the byte 0.
fn joined<I>(specs: I) -> Result<Vec<u8>, Error>
where
    I: IntoIterator,
    I::Item: Text,
{
    let mut texts = Vec::new();
    for (number, spec) in specs.into_iter().enumerate() {
        let spec = spec.text();
        if let Some(position) = spec.iter().position(|&byte| byte == 0) {
            return Err(Error::Nul { number, position });
        }
        let wanted = spec.len() + 1;
        texts.try_reserve(wanted).map_err(|_| Error::Memory)?;
        texts.extend_from_slice(spec);
        texts.push(0);
    }
    Ok(texts)
}

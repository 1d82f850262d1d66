use crate::attributes::{LeftOut, Place};
use crate::error::Error;
use crate::library::{Handle, PsMatch};
use crate::text::{without_slash, Text};
use crate::walk::Walk;
use std::fmt;
use std::path::Path;

/// What one thread asks a [`Search`](crate::Search) by. It moves between threads, and asks without
/// a lock.
///
/// A path is relative to the top of the repository, and has names between single slashes:
/// `src/lib.rs`, not `./src/lib.rs`. The empty path is the top, which any search selects. A slash
/// at the end of a path isn't handed on; the path is then a directory's.
///
/// No two threads ask by one matcher at a time:
///
/// ```compile_fail,E0277
/// let matcher = puneloviash::Search::new(["*.c"]).unwrap().matcher().unwrap();
/// std::thread::scope(|scope| {
///     scope.spawn(|| matcher.is_selected("a.c", false));
/// });
/// ```
pub struct Matcher {
    handle: Handle,
}

impl Matcher {
    pub(crate) fn of(handle: Handle) -> Matcher {
        Matcher { handle }
    }

    /// Whether the search selects a path. Where memory runs out, as only attributes make it, the
    /// answer is that it does.
    ///
    /// ```
    /// # fn main() -> Result<(), puneloviash::Error> {
    /// let matcher = puneloviash::Search::new(["src", ":!*.o"])?.matcher()?;
    /// assert!(matcher.is_selected("src/a.c", false));
    /// assert!(!matcher.is_selected("src/a.o", false));
    /// assert!(matcher.is_selected("src/", false)); // the directory, for its slash
    /// # Ok(())
    /// # }
    /// ```
    pub fn is_selected(&self, path: impl Text, is_dir: bool) -> bool {
        let (path, has_slash) = without_slash(path.text());
        self.handle.selects(path, is_dir || has_slash)
    }

    /// The spec that settles a path, if one does: the first that matches, of the excludes and then
    /// of the includes. The path is selected where there is one and
    /// [`is_excluded`](Match::is_excluded) is false.
    ///
    /// ```
    /// # fn main() -> Result<(), puneloviash::Error> {
    /// use puneloviash::{Match, MatchKind, Search};
    ///
    /// let matcher = Search::new(["src", ":!*.o"])?.matcher()?;
    /// let object = Match { number: 1, kind: MatchKind::Wildcard, is_excluded: true };
    /// assert_eq!(matcher.settle("src/a.o", false), Some(object));
    /// assert_eq!(matcher.settle("docs", true), None);
    /// # Ok(())
    /// # }
    /// ```
    pub fn settle(&self, path: impl Text, is_dir: bool) -> Option<Match> {
        let (path, has_slash) = without_slash(path.text());
        Match::of(self.handle.settle(path, is_dir || has_slash))
    }

    /// Whether a walk may skip a directory, since nothing below it is selected, whatever attributes
    /// paths have.
    ///
    /// ```
    /// # fn main() -> Result<(), puneloviash::Error> {
    /// let matcher = puneloviash::Search::new(["src/*.rs", ":!src/gen"])?.matcher()?;
    /// assert!(matcher.may_skip("docs"));
    /// assert!(matcher.may_skip("src/gen/"));
    /// assert!(!matcher.may_skip("src"));
    /// # Ok(())
    /// # }
    /// ```
    pub fn may_skip(&self, directory: impl Text) -> bool {
        self.handle.may_skip(without_slash(directory.text()).0)
    }

    /// Whether something at or below a path can match. Where it can't, nothing there is selected,
    /// whatever attributes paths have. It tells less than [`may_skip`](Matcher::may_skip), which
    /// excludes count for, too.
    pub fn can_match(&self, path: impl Text, is_dir: bool) -> bool {
        let (path, has_slash) = without_slash(path.text());
        self.handle.can_match(path, is_dir || has_slash)
    }

    /// Gives a path attributes, as `attr:` of a spec has them: `text -diff !merge eol=lf`. No macro
    /// is unfolded. Later lists for a path come after earlier ones. A path that was given none has
    /// every attribute unspecified.
    ///
    /// # Errors
    /// [`Error::Attributes`], [`Error::Mixed`] where attribute files were added, and
    /// [`Error::Memory`]; then nothing has changed.
    ///
    /// ```
    /// # fn main() -> Result<(), puneloviash::Error> {
    /// let mut matcher = puneloviash::Search::new([":(attr:text)*"])?.matcher()?;
    /// matcher.assign("a.c", "text eol=lf")?;
    /// assert!(matcher.is_selected("a.c", false));
    /// assert!(!matcher.is_selected("b.c", false));
    /// # Ok(())
    /// # }
    /// ```
    pub fn assign(&mut self, path: impl Text, list: impl Text) -> Result<(), Error> {
        let (path, list) = (without_slash(path.text()).0, list.text());
        self.handle
            .assign(path, list)
            .map_err(|(status, fault)| Error::of_list(status, fault, list))
    }

    /// Adds the text of an attribute file, by which specs with `attr:` are then answered. The answer
    /// for a path depends on the files of the directories above it alone, so each may be added
    /// before the first question about a path below it. A file takes the place of the one that was
    /// added there, and the empty text takes it away.
    ///
    /// It tells the lines that git leaves out, if there are any. A matcher with files takes no list
    /// of [`assign`](Matcher::assign): a text for [`Place::Info`] counts over all files. No other
    /// matcher of the search has them.
    ///
    /// # Errors
    /// [`Error::Directory`], [`Error::Mixed`] where a list was assigned, and [`Error::Memory`]; then
    /// nothing has changed.
    ///
    /// ```
    /// # fn main() -> Result<(), puneloviash::Error> {
    /// use puneloviash::{Place, Reason, Search};
    ///
    /// let mut matcher = Search::new([":(attr:text)*"])?.matcher()?;
    /// let left_out = matcher.add_attributes(Place::directory(""), "*.c text\n!*.h text\n")?;
    /// assert_eq!(left_out.map(|lines| (lines.line, lines.reason)), Some((2, Reason::Negative)));
    /// matcher.add_attributes(Place::directory("src/gen"), "*.c -text")?;
    /// assert!(matcher.is_selected("src/a.c", false));
    /// assert!(!matcher.is_selected("src/gen/a.c", false));
    /// # Ok(())
    /// # }
    /// ```
    pub fn add_attributes(
        &mut self,
        place: Place<'_>,
        text: impl Text,
    ) -> Result<Option<LeftOut>, Error> {
        let (number, directory) = place.in_c();
        self.handle
            .add_attributes(number, directory, text.text())
            .map(LeftOut::of)
            .map_err(Error::of_file)
    }

    /// The selected files below a directory, the repository's top: see [`Walk`].
    ///
    /// ```
    /// # fn main() -> Result<(), Box<dyn std::error::Error>> {
    /// let matcher = puneloviash::Search::new(["src/*.rs", ":!src/library.rs"])?.matcher()?;
    /// for path in matcher.walk(env!("CARGO_MANIFEST_DIR")) {
    ///     println!("{}", path?.display()); // src/lib.rs and others
    /// }
    /// # Ok(())
    /// # }
    /// ```
    pub fn walk(&self, root: impl AsRef<Path>) -> Walk<'_> {
        Walk::new(self, root.as_ref().to_owned())
    }
}

impl fmt::Debug for Matcher {
    fn fmt(&self, f: &mut fmt::Formatter<'_>) -> fmt::Result {
        f.debug_struct("Matcher").finish_non_exhaustive()
    }
}

/// The spec that settles a path.
#[derive(Clone, Copy, Debug, PartialEq, Eq, Hash)]
pub struct Match {
    /// Its place in the list, from 0. It is 0, too, where no spec decides: see [`MatchKind`].
    pub number: usize,
    /// How it came to match.
    pub kind: MatchKind,
    /// Whether it takes the path out.
    pub is_excluded: bool,
}

impl Match {
    fn of(found: PsMatch) -> Option<Match> {
        let kind = match found.kind {
            1 => MatchKind::Always,
            2 => MatchKind::Below,
            3 => MatchKind::Wildcard,
            4 => MatchKind::Verbatim,
            5 => MatchKind::NoMemory,
            _ => return None,
        };
        Some(Match {
            number: found.number,
            kind,
            is_excluded: found.is_excluded != 0,
        })
    }
}

/// How a spec came to match.
#[derive(Clone, Copy, Debug, PartialEq, Eq, Hash)]
#[non_exhaustive]
pub enum MatchKind {
    /// The path of the spec is empty, or the path is; or there are only excludes, and none matches.
    Always,
    /// The path lies below the path of the spec.
    Below,
    /// The path of the spec is a glob, and it matches the path.
    Wildcard,
    /// The path is the path of the spec.
    Verbatim,
    /// Memory ran out in a look-up of attributes, before it was known. The path counts as selected,
    /// so that none is lost: test for this before you delete what is selected.
    NoMemory,
}

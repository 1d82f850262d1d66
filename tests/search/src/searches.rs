//! Searches that several tables of tests ask, and what settles a path in them.
use bstr::BStr;
use gix_pathspec::search::Scratch;
use gix_pathspec::{Error, Pattern, Search};
pub(super) use pathspec_test_searches::answers::{
    Settled, scratch_of, settled, settled_in, visited,
};
pub(super) use pathspec_test_searches::search_of_list;
use pathspec_test_searches::{build_from, pattern_of};
use pathspec_test_support::look_ups::Marks;
use std::alloc::{AllocError, Global};
use std::test::Fail;

/// Whether a path is selected, in a scratch of the search's, by [`Marks`].
pub(super) fn is_selected(
    search: &Search,
    path: &[u8],
    is_dir: bool,
    scratch: &mut Scratch,
) -> Result<bool, Fail> {
    if !search.fits(scratch) {
        return Err("the scratch doesn't fit the search".into());
    }
    Ok(search.is_selected(BStr::new(path), Some(is_dir), scratch, &mut Marks::new())?)
}

/// Whether a walk may skip what lies below a directory, in a scratch of the search's.
pub(super) fn may_skip(search: &Search, path: &[u8], scratch: &mut Scratch) -> Result<bool, Fail> {
    if !search.fits(scratch) {
        return Err("the scratch doesn't fit the search".into());
    }
    Ok(search.may_skip(BStr::new(path), scratch))
}

/// Whether a pattern has this long text.
pub(super) fn is_written(pattern: &Pattern, text: &str) -> Result<bool, Error> {
    Ok(pattern.to_bstring()?.as_bytes() == text.as_bytes())
}

/// The search of one pattern.
pub(super) fn search_of_one(alloc: Global, pattern: Pattern) -> Result<Box<Search>, Fail> {
    let mut patterns = Vec::new(alloc);
    patterns.push(pattern)?;
    Ok(build_from(alloc, patterns, "")??)
}

/// The texts of many specs.
#[derive(Clone, Copy)]
pub(super) enum Texts<'t> {
    /// The file `f` in a directory that has the number of the spec.
    Files,
    /// A number from 10,000 on, between two texts.
    Between(&'t str, &'t str),
    /// One text.
    Same(&'t str),
    /// A text in directories `a`, each in the one before it: in so many for the first spec, and in one less for each other.
    Nested(u32, &'t str),
}

impl Texts<'_> {
    /// The text of the spec with a number.
    fn at(self, alloc: Global, number: u32) -> Result<String, AllocError> {
        match self {
            Texts::Files => format!(in alloc; "d{number}/f"),
            Texts::Between(before, after) => {
                let number = number.saturating_add(10_000);
                format!(in alloc; "{before}{number}{after}")
            }
            Texts::Same(text) => String::from_str(alloc, text),
            Texts::Nested(depth, text) => nested(alloc, depth.saturating_sub(number), text),
        }
    }
}

/// Directories `a`, each in the one before it, and behind the last of so many the text.
pub(super) fn nested(alloc: Global, depth: u32, text: &str) -> Result<String, AllocError> {
    let mut path = String::new(alloc);
    for _ in 0..depth {
        path.push_str("a/")?;
    }
    path.push_str(text)?;
    Ok(path)
}

/// The search of so many specs.
pub(super) fn search_of_many(
    alloc: Global,
    count: u32,
    texts: Texts<'_>,
) -> Result<Box<Search>, Fail> {
    let mut patterns = Vec::new(alloc);
    for number in 0..count {
        let text = texts.at(alloc, number)?;
        patterns.push(pattern_of(alloc, text.as_str())?)?;
    }
    Ok(build_from(alloc, patterns, "")??)
}

//! Scratches of searches that are shared: what matches in them answer and count, and which of them fit.
use crate::searches::{Settled, scratch_of, settled_in};
use bstr::BStr;
use gix_pathspec::Search;
use gix_pathspec::attributes::NoAttributes;
use gix_pathspec::search::{MatchKind, Scratch};
use pathspec_test_searches::{search_of, search_of_line};
use pathspec_test_support::look_ups::Marks;
use std::alloc::Global;
use std::sync::Arc;
use std::test::Fail;

/// Specs with attributes, globs and excludes. The tests' look-up sets `gen` of the path `x`, and says nothing else.
const TEXTS: &[&str] = &[
    ":(attr:gen)x",
    ":(exclude,attr:!gen)*.c",
    ":(attr:!other)a",
    ":(glob)**/y",
    ":!a/b",
    ":(exclude,attr:-gen)x",
];

/// A path, the number and the kind of the spec of [`TEXTS`] that settles it, and how many questions are asked for it.
struct Asked(&'static str, Settled, u64);

/// Excludes come first in search order, so that of `x` and what lies below it the last spec asks before the first does.
const ASKED: &[Asked] = &[
    Asked("x", Some((0, MatchKind::Verbatim)), 2),
    Asked("x/z", None, 2),
    Asked("a", Some((2, MatchKind::Verbatim)), 1),
    Asked("a/t.c", Some((1, MatchKind::WildcardMatch)), 1),
    Asked("a/x", Some((2, MatchKind::Prefix)), 1),
    Asked("a/b/y", Some((4, MatchKind::Prefix)), 0),
    Asked("c/d/y", Some((3, MatchKind::WildcardMatch)), 0),
    Asked("q", None, 0),
    Asked("", Some((0, MatchKind::Always)), 0),
];

/// Whether a match in a scratch answers what is wanted.
fn answers(search: &Search, scratch: &mut Scratch, asked: &Asked) -> Result<bool, Fail> {
    let mut marks = Marks::new();
    let settled = settled_in(search, asked.0.as_bytes(), None, scratch, &mut marks)?;
    Ok(settled == Some(asked.1) && marks.asked == asked.2)
}

/// Whether a look-up fails for a path after so many answers, and each match in the scratch then answers what is wanted.
fn goes_on(search: &Search, scratch: &mut Scratch, path: &str, left: u64) -> Result<bool, Fail> {
    let mut marks = Marks::failing_after(left);
    let settled = settled_in(search, path.as_bytes(), None, scratch, &mut marks)?;
    if settled.is_some() || marks.failed != 1 || scratch.last_tested() as u64 <= left {
        return Ok(false);
    }
    for asked in ASKED {
        if !answers(search, scratch, asked)? {
            return Ok(false);
        }
    }
    Ok(true)
}

/// Whether a match in a new scratch answers what is wanted.
fn answers_anew(alloc: Global, search: &Search, asked: &Asked) -> Result<bool, Fail> {
    answers(search, &mut *scratch_of(alloc, search)?, asked)
}

/// Whether the scratch goes on after each fault that the look-up may have for a path.
fn goes_on_after_each(search: &Search, scratch: &mut Scratch, asked: &Asked) -> Result<bool, Fail> {
    for left in 0..asked.2 {
        if !goes_on(search, scratch, asked.0, left)? {
            return Ok(false);
        }
    }
    Ok(true)
}

#[test]
fn a_fault_changes_no_later_answer_in_its_scratch(rt: HostRuntime) -> Result<(), Fail> {
    let search = search_of(rt.alloc(), TEXTS, "")?;
    let mut scratch = scratch_of(rt.alloc(), &search)?;
    assert_goes_on(rt.alloc(), &search, &mut scratch)
}

/// Asserts of each path that a new scratch answers what is wanted, and that a scratch goes on after each fault.
fn assert_goes_on(alloc: Global, search: &Search, scratch: &mut Scratch) -> Result<(), Fail> {
    for asked in ASKED {
        let is_answered = answers_anew(alloc, search, asked)?;
        if !goes_on_after_each(search, scratch, asked)? || !is_answered {
            return Err(Fail::new(format_args!("{}", asked.0)));
        }
    }
    Ok(())
}

#[test]
fn a_scratch_shows_what_its_last_match_looked_at(rt: HostRuntime) -> Result<(), Fail> {
    let search = search_of(rt.alloc(), &["b", "c/d", "c/e"], "")?;
    let mut scratch = scratch_of(rt.alloc(), &search)?;
    assert!(rt; answers(&search, &mut scratch, &Asked("c/f", None, 0))?);
    let (tested, compared) = (scratch.last_tested(), scratch.last_compared());
    assert!(rt; tested as u128 != compared);
    let shown = format!(in rt.alloc(); "{:?}", *scratch)?;
    let wanted = format!(in rt.alloc();
        "Scratch {{ last_tested: {tested}, last_compared: {compared} }}"
    )?;
    assert!(rt; shown.as_str() == wanted.as_str());
    Ok(())
}

/// Whether threads may share a value by a reference, and hand it to one another.
fn may_be_shared<T: Send + Sync>(_: &T) -> bool {
    true
}

#[test]
fn threads_may_share_a_search_and_hand_on_scratches(rt: HostRuntime) -> Result<(), Fail> {
    let search = search_of(rt.alloc(), TEXTS, "")?;
    assert!(rt; may_be_shared(&scratch_of(rt.alloc(), &search)?));
    assert!(rt; may_be_shared(&*search) && may_be_shared(&Arc::new(rt.alloc(), search)?));
    Ok(())
}

/// Whether a scratch of a search of the second texts fits one of the first, which its own fits.
fn fits(alloc: Global, texts: &[&str], others: &[&str]) -> Result<bool, Fail> {
    let search = search_of(alloc, texts, "")?;
    let other = search_of(alloc, others, "")?;
    let is_own = search.fits(&*scratch_of(alloc, &search)?);
    Ok(is_own && search.fits(&*scratch_of(alloc, &other)?))
}

#[test]
#[rattlefmt::skip]
fn a_scratch_fits_what_wants_no_other_room(rt: HostRuntime) -> Result<(), Fail> {
    const ROWS: &[(&[&str], &[&str], bool)] = &[
        // Attributes are the same by their names and their places, whatever is wanted of them.
        (&[":(attr:a)x"], &[":(attr:-a)y"], true),
        (&[":(attr:a b)x"], &[":(attr:b a)x"], false),
        // Specs stand in search order, excludes first.
        (&[":(attr:a)x", "y"], &["y", ":(attr:a)x"], false),
        (&[":(attr:a)x", ":!y"], &[":!y", ":(attr:a)x"], true),
        // There are as many specs, and the largest glob is no shorter.
        (&["x", "y"], &["x"], false),
        (&["a*b"], &["a*bc"], true),
        (&["a*bcd", "e*"], &["e*", "a*bc"], false),
        // Where some head has a set, all globs that begin right behind their head are the same, with that.
        (&["*a", "*b", "*c"], &["*a", "*b", "*d"], true),
        (&["*a", "*b", "*c", "*d"], &["*a", "*b", "*c", "*d"], true),
        (&["*a", "*b", "*c", "*d"], &["*a", "*b", "*c", "*e"], false),
        (&["*a", "*b", "*c", "*d"], &["*a", "*b", "*c", "*d/"], false),
        (&["*a", "*b", "*c", "*d"], &["*a", "*b", "*c", ":(icase)*d"], false),
        (&["s/*a", "s/*b", "s/*c"], &["s/*a", "s/*b", "s/*d"], true),
        (&["s/*a", "s/*b", "s/*c", "s/*d"], &["s/*a", "s/*b", "s/*c", "s/*d"], true),
        (&["s/*a", "s/*b", "s/*c", "s/*d"], &["s/*a", "s/*b", "s/*c", "s/*e"], false),
        (&["s/*a", "s/*b", "s/*c", "s/*d"], &["t/*a", "t/*b", "t/*c", "t/*d"], false),
        (&["s/*a", "s/*b", "s/*c", "s/*d", "t/*"], &["s/*a", "s/*b", "s/*c", "s/*d", "u/*"], false),
        (&["s/*a", "s/*b", "s/*c", "s/*d", "t"], &["s/*a", "s/*b", "s/*c", "s/*d", "u"], true),
        (&["s/*a", "s/*b", "s/*c", "s/*d", ":(icase)t*"], &["s/*a", "s/*b", "s/*c", "s/*d", ":(icase)u*"], true),
        // So are the excludes that begin with a wildcard and whose glob can take all below a directory.
        (&[":!*a*", ":!*b*", ":!*c*", ":!*d*"], &[":!*a*", ":!*b*", ":!*c*", ":!*d*"], true),
        (&[":!*a*", ":!*b*", ":!*c*", ":!*d*"], &["*a*", "*b*", "*c*", "*d*"], false),
    ];
    for (texts, others, want) in ROWS {
        assert!(rt; fits(rt.alloc(), texts, others)? == *want, "{texts:?}");
    }
    Ok(())
}

/// The match that settles a file where no attributes are known, and whether the file is selected.
fn unknown(alloc: Global, line: &str, path: &[u8]) -> Result<(Option<Settled>, bool), Fail> {
    let search = search_of_line(alloc, line, "")?;
    let mut scratch = scratch_of(alloc, &search)?;
    let file = Some(false);
    let is_selected = search.is_selected(BStr::new(path), file, &mut scratch, &mut NoAttributes)?;
    Ok((
        settled_in(&search, path, file, &mut scratch, &mut NoAttributes)?,
        is_selected,
    ))
}

#[test]
fn no_attributes_match_no_spec_that_lists_some(rt: HostRuntime) -> Result<(), Fail> {
    let found = unknown(rt.alloc(), ":(attr:!gen)x x", b"x")?;
    assert!(rt; found == (Some(Some((1, MatchKind::Verbatim))), true));
    let found = unknown(rt.alloc(), ":!a", b"a/b")?;
    assert!(rt; found == (Some(Some((0, MatchKind::Prefix))), false));
    Ok(())
}

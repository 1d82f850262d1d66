//! Which spec settles a path, how, and what a match asks of a look-up.
use crate::searches::{Settled, is_written, scratch_of, search_of_list, settled, settled_in};
use bstr::BStr;
use gix_pathspec::search::{Match, MatchKind, Scratch};
use gix_pathspec::{Pattern, Search};
use parts::orders::assert_rising;
use pathspec_test_searches::{patterns_of, search_of, search_of_line};
use pathspec_test_support::look_ups::Marks;
use std::alloc::{AllocError, Global};
use std::test::Fail;

/// How the first spec matches.
const PREFIX: Settled = Some((0, MatchKind::Prefix));

const VERBATIM: Settled = Some((0, MatchKind::Verbatim));

const WILDCARD: Settled = Some((0, MatchKind::WildcardMatch));

// What `git ls-files` lists of an index with the path alone, and `gix-pathspec` says of its kind.
#[test]
#[rattlefmt::skip]
fn the_first_spec_that_matches_settles_a_path(rt: HostRuntime) -> Result<(), Fail> {
    // The texts in a line, the directory that they are given in, a path, whether it is a directory, and the number and kind of
    // the match.
    const ROWS: &[(&str, &str, &str, bool, Settled)] = &[
        ("a :!b /r/c :!d", "", "c", false, Some((2, MatchKind::Verbatim))),
        ("a :!b /r/c :!d", "", "d", false, Some((3, MatchKind::Verbatim))),
        ("a", "", "", true, Some((0, MatchKind::Always))),
        ("dir", "", "DIR", false, None),
        ("dir", "", "di", false, None),
        ("::", "", "q", true, Some((0, MatchKind::Always))),
        (":(literal)a*", "", "a*/x", false, PREFIX),
        (":(icase)Ab/C", "", "AB/c/D", false, PREFIX),
        (":(icase)Ab/C", "", "ab/cc", false, None),
        // Case counts in the prefix directory.
        (":(icase)B", "a", "a/b/c", false, PREFIX),
        (":(icase)B", "a", "a", true, None),
        (":(icase)./", "a", "a", true, VERBATIM),
        (":(icase)./", "a", "a", false, None),
        (":(icase)./", "a", "a/x", false, PREFIX),
        (":(icase)./", "a", "A/x", false, None),
        (":(icase)./", "a", "ab", false, None),
        // A directory's path has no slash at its end.
        (":(glob)s*", "", "src", true, WILDCARD),
        (":(glob)s*", "", "src/", true, None),
    ];
    for (line, prefix, path, is_dir, want) in ROWS {
        let mut search = search_of_line(rt.alloc(), line, prefix)?;
        assert!(rt; settled(&mut search, path.as_bytes(), Some(*is_dir))? == *want, "{line} {path}");
    }
    Ok(())
}

#[test]
fn many_double_stars_match_as_a_spec(rt: HostRuntime) -> Result<(), Fail> {
    const ROWS: &[(&str, Settled)] = &[
        ("x", WILDCARD),
        ("y", None),
        ("a/b/x", WILDCARD),
        ("a/b/y", None),
    ];
    let chain = "**/".repeat(rt.alloc(), 500)?;
    let spec = format!(in rt.alloc(); ":(glob){chain}x")?;
    let mut search = search_of_line(rt.alloc(), &spec, "")?;
    for (path, want) in ROWS {
        assert!(rt;
            settled(&mut search, path.as_bytes(), Some(false))? == *want,
            "{path}"
        );
    }
    Ok(())
}

/// Whether the pattern that settles a file has this long text, and takes the file out or not.
fn is_lent(search: &mut Search, path: &str, text: &str, is_excluded: bool) -> Result<bool, Fail> {
    let path = BStr::new(path.as_bytes());
    match search.pattern_matching_relative_path(path, None, &mut Marks::new())? {
        Some(found) => Ok(found.is_excluded() == is_excluded && is_written(found.pattern, text)?),
        None => Ok(false),
    }
}

#[test]
fn a_match_lends_its_pattern(rt: HostRuntime) -> Result<(), Fail> {
    let mut search = search_of_line(rt.alloc(), "src/** :!src/gen/**", "")?;
    assert!(rt; is_lent(&mut search, "src/lib.rs", ":()src/**", false)?);
    assert!(rt; is_lent(&mut search, "src/gen/lib.rs", ":(exclude)src/gen/**", true)?);
    assert!(rt; is_lent(&mut search, "", ":", false)?);
    Ok(())
}

/// Whether this is found of a file, and so many questions were asked for it. The look-up would fail at one more.
fn is_asked(
    search: &mut Search,
    path: &str,
    want: Option<usize>,
    asked: u64,
) -> Result<bool, Fail> {
    let mut marks = Marks::failing_after(asked);
    let path = BStr::new(path.as_bytes());
    let found = search.pattern_matching_relative_path(path, None, &mut marks)?;
    Ok(is_verbatim(found, want) && marks.asked == asked && marks.failed == 0)
}

/// Whether just the spec with this number matches, and that verbatim, or none does.
fn is_verbatim(found: Option<Match<'_>>, want: Option<usize>) -> bool {
    match found {
        Some(found) => found.kind == MatchKind::Verbatim && want == Some(found.sequence_number),
        None => want.is_none(),
    }
}

/// A file, the number of the spec that matches it verbatim, and how many questions and how many specs are asked.
type Asked<'a> = (&'a str, Option<usize>, u64, usize);

/// Whether a search of these texts asks so, by a match that it lends and by one in a scratch.
fn asks(
    alloc: Global,
    texts: &[&str],
    (path, want, asked, tested): Asked<'_>,
) -> Result<bool, Fail> {
    let mut search = search_of(alloc, texts, "")?;
    let is_asked = is_asked(&mut search, path, want, asked)?;
    let mut scratch = scratch_of(alloc, &search)?;
    let mut marks = Marks::failing_after(asked);
    let settled = settled_in(&search, path.as_bytes(), None, &mut scratch, &mut marks)?;
    let want = want.map(|number| (number, MatchKind::Verbatim));
    let is_settled = settled == Some(want) && marks.asked == asked;
    let are_tested = search.last_tested() == tested && scratch.last_tested() == tested;
    Ok(is_asked && is_settled && are_tested)
}

#[test]
#[rattlefmt::skip]
fn attributes_are_asked_where_the_spec_fits(rt: HostRuntime) -> Result<(), Fail> {
    const TEXTS: &[&str] = &[":(attr:-gen)x", ":(attr:gen)x", ":(attr:!gen)y", "z", ":(attr:gen other)y"];
    const ROWS: &[(&[&str], Asked<'_>)] = &[
        (TEXTS, ("x", Some(1), 2, 2)),
        (TEXTS, ("y", Some(2), 1, 1)),
        (TEXTS, ("z", Some(3), 0, 1)),
        (TEXTS, ("q", None, 0, 0)),
        // The spec doesn't fit.
        (&[":(attr:gen)x"], ("xa", None, 0, 1)),
        (&[":(attr:gen)x*y"], ("xa", None, 0, 1)),
        (&[":(attr:gen)x*y"], ("xay", None, 1, 1)),
        (&[":(attr:gen)x/", "x"], ("x", Some(1), 0, 2)),
        (&[":(exclude,attr:gen)*y", "x"], ("x", Some(1), 0, 2)),
    ];
    for (number, (texts, asked)) in ROWS.iter().enumerate() {
        assert!(rt; asks(rt.alloc(), texts, *asked)?, "{number}");
    }
    Ok(())
}

#[test]
fn each_question_is_asked_on_a_reset_outcome(rt: HostRuntime) -> Result<(), Fail> {
    const ROWS: &[(&str, usize)] = &[("x", 0), ("y", 1), ("x", 0)];
    let mut search = search_of_line(rt.alloc(), ":(exclude,attr:gen).", "")?;
    for (path, number) in ROWS {
        let found = settled(&mut search, path.as_bytes(), Some(false))?;
        assert!(rt; found == Some((*number, MatchKind::Always)), "{path}");
    }
    Ok(())
}

/// Whether a search lends a match, or None where its look-up fails.
fn lends(search: &mut Search, path: &str, marks: &mut Marks) -> Option<bool> {
    match search.pattern_matching_relative_path(BStr::new(path.as_bytes()), None, marks) {
        Ok(found) => Some(found.is_some()),
        Err(_) => None,
    }
}

/// Whether a fault of the look-up after so many answers is told, and the next call answers as if there had been none.
fn goes_on(search: &mut Search, left: u64) -> Result<bool, Fail> {
    let mut marks = Marks::failing_after(left);
    let is_fault = lends(search, "x", &mut marks).is_none() && marks.failed == 1;
    Ok(is_fault && is_asked(search, "x", Some(1), 2)? && search.source.is_some())
}

#[test]
fn a_fault_changes_no_later_answer(rt: HostRuntime) -> Result<(), Fail> {
    let mut search = search_of_list(rt.alloc(), &[":(attr:-gen)x", ":(attr:gen)x"], "")?;
    assert!(rt; goes_on(&mut search, 0)? && goes_on(&mut search, 1)?);
    Ok(())
}

/// Whether a search and a scratch tell the same of their last match and of all.
fn are_left_same(search: &Search, scratch: &Scratch) -> bool {
    search.last_tested() == scratch.last_tested()
        && search.last_compared() == scratch.last_compared()
        && search.total_tested() == scratch.total_tested()
        && search.total_compared() == scratch.total_compared()
}

/// A search that comes from a list, and has settled a file.
fn asked_search(alloc: Global) -> Result<Box<Search>, Fail> {
    let mut search = search_of_list(alloc, &["a/x", ":(attr:gen)x", ":!a/y"], "")?;
    search.pattern_matching_relative_path(BStr::new(b"x"), None, &mut Marks::new())?;
    Ok(search)
}

/// Whether a match in the search's own scratch leaves it as `settle` leaves a scratch of the caller's. The look-up fails after
/// `left` answers. `want` says whether a spec settles the file; None where the look-up fails.
fn is_left(alloc: Global, path: &str, left: u64, want: Option<bool>) -> Result<bool, Fail> {
    let (mut search, other) = (asked_search(alloc)?, asked_search(alloc)?);
    let mut scratch = scratch_of(alloc, &other)?;
    settled_in(&other, b"x", None, &mut scratch, &mut Marks::new())?;
    let is_found = lends(&mut search, path, &mut Marks::failing_after(left));
    let mut marks = Marks::failing_after(left);
    let settled = settled_in(&other, path.as_bytes(), None, &mut scratch, &mut marks)?;
    let is_settled = settled.map(|settled| settled.is_some());
    let is_same = are_left_same(&search, &scratch) && search.source == other.source;
    Ok(is_found == want && is_settled == want && is_same)
}

#[test]
fn lending_a_match_leaves_the_search_as_settling_leaves_a_scratch(
    rt: HostRuntime,
) -> Result<(), Fail> {
    const ROWS: &[(&str, u64, Option<bool>)] = &[
        ("a/x", 0, Some(true)),
        ("a/y", 0, Some(true)),
        ("a/z", 0, Some(false)),
        ("", 0, Some(true)),
        ("x", 1, Some(true)),
        ("x", 0, None),
    ];
    for (path, left, want) in ROWS {
        assert!(rt; is_left(rt.alloc(), path, *left, *want)?, "{path}");
    }
    Ok(())
}

/// A match with these fields.
fn match_of(pattern: &Pattern, sequence_number: usize, kind: MatchKind) -> Match<'_> {
    Match {
        pattern,
        sequence_number,
        kind,
    }
}

/// Matches with these patterns in rising order.
fn rising<'a>(low: &'a Pattern, high: &'a Pattern) -> [Match<'a>; 4] {
    [
        match_of(low, 0, MatchKind::Always),
        match_of(low, 0, MatchKind::Verbatim),
        match_of(low, 1, MatchKind::Always),
        match_of(high, 0, MatchKind::Always),
    ]
}

/// Whether a clone of each match equals it.
fn are_equal_to_clones(values: &[Match<'_>]) -> Result<bool, AllocError> {
    for value in values {
        if value.clone()? != *value {
            return Ok(false);
        }
    }
    Ok(true)
}

#[test]
fn matches_are_compared_field_by_field(rt: HostRuntime) -> Result<(), Fail> {
    let patterns = patterns_of(rt.alloc(), &["a", "a", "b"])?;
    if let [low, copy, high] = patterns.as_slice() {
        let values = rising(low, high);
        assert_rising(&values, &rising(copy, high))?;
        assert!(rt; are_equal_to_clones(&values)?);
        return Ok(());
    }
    Err("there are three patterns".into())
}

#[test]
fn kinds_are_ordered_by_their_variants() -> Result<(), Fail> {
    let rising = [
        MatchKind::Always,
        MatchKind::Prefix,
        MatchKind::WildcardMatch,
        MatchKind::Verbatim,
    ];
    assert_rising(&rising, &rising)
}

//! What a search tells before any path is matched, a row a call.
use bstr::BStr;
use gix_pathspec::Pattern;
use gix_pathspec::search::{IntoPatterns, Patterns};
use pathspec_test_searches::search_of_line;
use std::test::Fail;

#[test]
fn prefixes_and_directories_are_told(rt: HostRuntime) -> Result<(), Fail> {
    // The texts in a line, the directory that they are given in, and the common prefix, the prefix directory and the longest
    // common directory, where "" stands for none.
    const ROWS: &[(&str, &str, &str, &str, &str)] = &[
        ("src/** :!src/generated/**", "", "src/", "", "src"),
        (":(icase)B", "a", "a", "a", ""),
        ("a/b/c a/b/", "", "a/b", "", "a"),
        ("a*b abc", "", "a", "", ""),
        (":(literal)a*b", "", "a", "", ""),
    ];
    for (line, prefix, common, directory, longest) in ROWS {
        let search = search_of_line(rt.alloc(), line, prefix)?;
        assert!(rt;
            search.common_prefix().as_bytes() == common.as_bytes(),
            "{line}"
        );
        assert!(rt;
            search.prefix_directory().as_bytes() == directory.as_bytes(),
            "{line}"
        );
        let is_longest = match search.longest_common_directory() {
            Some(directory) => directory.as_bytes() == longest.as_bytes(),
            None => longest.is_empty(),
        };
        assert!(rt; is_longest, "{line}");
    }
    Ok(())
}

#[test]
fn a_directory_can_hold_matches_and_lie_in_the_prefix(rt: HostRuntime) -> Result<(), Fail> {
    let search = search_of_line(rt.alloc(), "src/lib", "")?;
    // A directory's path has no slash at its end.
    assert!(rt; search.can_match_relative_path(BStr::new(b"src"), Some(true)));
    assert!(rt; !search.can_match_relative_path(BStr::new(b"src/"), Some(true)));
    assert!(rt; search.directory_matches_prefix(BStr::new(b"src"), true));
    assert!(rt; !search.directory_matches_prefix(BStr::new(b"src"), false));
    Ok(())
}

/// Whether this is the pattern with this path.
fn has_path(pattern: Option<&Pattern>, path: &str) -> bool {
    match pattern {
        Some(pattern) => pattern.path().as_bytes() == path.as_bytes(),
        None => false,
    }
}

/// Whether just the pattern with this path is left.
fn is_left(patterns: &mut Patterns<'_>, path: &str) -> bool {
    has_path(patterns.next(), path) && patterns.next().is_none()
}

/// Whether so many patterns are left.
fn has_len(patterns: &impl ExactSizeIterator, len: usize) -> bool {
    patterns.len() == len && patterns.size_hint() == (len, Some(len))
}

#[test]
fn patterns_come_in_search_order(rt: HostRuntime) -> Result<(), Fail> {
    let search = search_of_line(rt.alloc(), "a :!b", "")?;
    let mut patterns = search.patterns();
    assert!(rt; has_len(&patterns, 2) && has_path(patterns.next(), "b"));
    let mut copy = patterns.clone()?;
    assert!(rt; is_left(&mut copy, "a") && is_left(&mut patterns, "a"));
    Ok(())
}

/// Whether the next pattern has this path.
fn is_next(patterns: &mut IntoPatterns, path: &str) -> bool {
    match patterns.next() {
        Some(pattern) => has_path(Some(&pattern), path),
        None => false,
    }
}

/// Whether just the patterns `b` and `a` are left.
fn are_b_and_a(patterns: &mut IntoPatterns) -> bool {
    is_next(patterns, "b") && is_next(patterns, "a") && patterns.next().is_none()
}

#[test]
fn owned_patterns_come_in_search_order(rt: HostRuntime) -> Result<(), Fail> {
    let search = search_of_line(rt.alloc(), "a :!b", "")?;
    let mut owned = Box::into_inner(search).into_patterns();
    assert!(rt; has_len(&owned, 2) && are_b_and_a(&mut owned));
    Ok(())
}

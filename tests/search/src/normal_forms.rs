//! The normal forms of specs, and what a refusal leaves.
use crate::reading::{has_long_text, is_fault};
use bstr::BStr;
use gix_pathspec::{Error, MagicSignature, Pattern};
use pathspec_parts::path::is_clean_prefix;
use pathspec_test_searches::pattern_of;
use std::alloc::Global;
use std::test::Fail;

/// Normalises a pattern that is given in the directory `prefix` of the repository at `/r`.
fn normalise(pattern: &mut Pattern, prefix: &str) -> Result<(), Error> {
    let prefix = BStr::new(prefix.as_bytes());
    if is_clean_prefix(prefix) {
        pattern.normalize(prefix, BStr::new(b"/r"))?;
    }
    Ok(())
}

/// Whether a text has the normal form whose long text is `want`, or `nil` and a path for a nil one. Such a form is its own and
/// reads back. `want` may also be a fault, which leaves the pattern as it was.
fn is_normalised(alloc: Global, text: &str, prefix: &str, want: &[u8]) -> Result<bool, Fail> {
    let mut pattern = pattern_of(alloc, text)?;
    let before = pattern.try_clone()?;
    match normalise(&mut pattern, prefix) {
        Ok(()) => Ok(is_its_own(&pattern)? && is_normal(alloc, &pattern, want)?),
        Err(error) => Ok(is_fault(alloc, &error, want)? && pattern == before),
    }
}

/// Whether a pattern is its own normal form, at the top of the repository.
fn is_its_own(pattern: &Pattern) -> Result<bool, Error> {
    let mut again = pattern.try_clone()?;
    again.resolve(BStr::new(b""), BStr::new(b"/r"))?;
    Ok(again == *pattern)
}

/// Whether a pattern has this long text, or is nil with the path that stands after `nil`.
fn is_normal(alloc: Global, pattern: &Pattern, want: &[u8]) -> Result<bool, Fail> {
    if !pattern.is_nil() {
        return has_long_text(alloc, pattern, want);
    }
    let is_nil = want.strip_prefix(b"nil ") == Some(pattern.path().as_bytes());
    Ok(is_nil && pattern.to_bstring()?.as_bytes() == b":".as_slice())
}

#[test]
#[rattlefmt::skip]
fn a_normal_form_is_its_own_and_reads_back(rt: HostRuntime) -> Result<(), Fail> {
    // A prefix, a text, and what comes of it.
    const ROWS: &[(&str, &str, &[u8])] = &[
        ("", "a/./b//c/.", b":()a/b/c"), ("a", "..", b"nil ."), ("a", ":(top)b/", b":(top)b/"), ("a/b", "./", b":(prefix:3)a/b/"),
        ("a/b", "../b/c", b":(prefix:1)a/b/c"), ("p", "/r/a/b", b":(prefix:1)a/b"), ("a", ":(literal)./", b":(literal,prefix:1)a/"),
        ("", ":(prefix:1)a/./b", b":()a/b"), ("", ":(exclude,attr:g).", b"nil ."), ("", "/", b":()/"),
        ("0123456789", "x", b":(prefix:10)0123456789/x"), ("a", ":(attr:g,glob)**/x/", b":(glob,prefix:1,attr:g)a/**/x/"),
        // What lies outside is refused, and the pattern stays with all that it has.
        ("a", "../../a", b"LeavesRepository(../../a)"), ("", "/r/..", b"LeavesRepository(/r/..)"),
        ("a/b", ":(attr:gen)../../../c", b"LeavesRepository(../../../c)"),
        ("a", ":(top,icase,exclude,attr:gen -b !c d=v)../c/", b"LeavesRepository(../c)"),
        ("a/b", ":(glob,attr:gen -b)/outside/*", b"OutsideRoot(/outside/*)"),
    ];
    for (prefix, text, want) in ROWS {
        assert!(rt; is_normalised(rt.alloc(), text, prefix, want)?, "{text}");
    }
    Ok(())
}

#[test]
fn a_normal_dot_and_slash_wants_a_directory(rt: HostRuntime) -> Result<(), Fail> {
    let mut pattern = pattern_of(rt.alloc(), "./")?;
    normalise(&mut pattern, "")?;
    assert!(rt; pattern.is_nil() && pattern.signature == MagicSignature::MUST_BE_DIR);
    Ok(())
}

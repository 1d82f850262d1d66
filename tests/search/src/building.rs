//! Searches that are made of specs and of lines, and specs that make none.
use crate::searches::{search_of_list, settled};
use bstr::BStr;
use gix_pathspec::search::MatchKind;
use gix_pathspec::{BuildError, Defaults, MagicSignature, Search, SearchMode};
use pathspec_test_searches::{build_from, is_cloned, patterns_of, search_of};
use std::alloc::{AllocError, Global};
use std::test::Fail;

/// Whether an error has this number, this kind and this text.
fn is_told(
    alloc: Global,
    error: &BuildError,
    (number, kind, text): (usize, &str, &str),
) -> Result<bool, AllocError> {
    let is_same = match error {
        BuildError::Spec(other, error) => *other == number && error.kind() == kind,
        BuildError::Memory => false,
    };
    Ok(is_same && error.to_string(alloc)?.as_str() == text)
}

#[test]
#[rattlefmt::skip]
fn the_first_fault_is_told(rt: HostRuntime) -> Result<(), Fail> {
    // Texts, the number of the first that has a fault, its kind, and the text of the error.
    const ROWS: &[(&[&str], (usize, &str, &str))] = &[
        (&[":!..", "/x", "x"], (0, "LeavesRepository", "spec 0: path leaves the repository: ..")),
        (&["x", "/x", ".."], (1, "OutsideRoot", "spec 1: path is not inside of the repository: /x")),
        (&["x", "y", ":!../z", ".."], (2, "LeavesRepository", "spec 2: path leaves the repository: ../z")),
    ];
    for (texts, fault) in ROWS {
        let is_right = match build_from(rt.alloc(), patterns_of(rt.alloc(), texts)?, "")? {
            Ok(_) => false,
            Err(error) => is_told(rt.alloc(), &error, *fault)?,
        };
        assert!(rt; is_right, "{texts:?}");
    }
    assert!(rt; BuildError::Memory.to_string(rt.alloc())?.as_str() == "out of memory");
    Ok(())
}

/// The search of the lines of a text, which comes from `f`, boxed as all searches are.
fn search_of_lines(alloc: Global, text: &[u8]) -> Result<Box<Search>, BuildError> {
    let (source, top) = (BStr::new(b"f"), BStr::new(b""));
    let search = Search::from_lines(alloc, text, source, Defaults::default(), Some(top), top)?;
    Ok(Box::new(alloc, search)?)
}

#[test]
fn specs_have_the_numbers_of_their_lines(rt: HostRuntime) -> Result<(), Fail> {
    let mut search = search_of_lines(rt.alloc(), b"a\r\n:!a/x\n")?;
    let found = settled(&mut search, b"a/x", Some(false))?;
    assert!(rt; found == Some((1, MatchKind::Verbatim)) && search.source.is_some());
    Ok(())
}

#[test]
fn texts_may_be_large(rt: HostRuntime) -> Result<(), Fail> {
    // A text so many times, and how many specs it has then.
    const ROWS: &[(&str, usize, usize)] = &[
        ("a/b\n", 100_000, 100_000),
        ("a", 1_000_000, 1),
        ("a\r\n:!*.c\n", 10_000, 20_000),
    ];
    for (text, times, count) in ROWS {
        let text = text.repeat(rt.alloc(), *times)?;
        let search = search_of_lines(rt.alloc(), text.as_bytes())?;
        assert!(rt; search.patterns().len() == *count, "{count}");
    }
    Ok(())
}

#[test]
fn no_specs_stand_for_the_prefix(rt: HostRuntime) -> Result<(), Fail> {
    let search = search_of(rt.alloc(), &[], "a")?;
    assert!(rt; search.patterns().len() == 1 && search.source.is_none());
    for pattern in search.patterns() {
        assert!(rt;
            pattern.path() == BStr::new(b"a") && pattern.prefix_directory() == BStr::new(b"a")
        );
        assert!(rt; pattern.signature == MagicSignature::MUST_BE_DIR);
        assert!(rt; pattern.search_mode == SearchMode::Literal);
    }
    Ok(())
}

#[test]
fn a_clone_has_the_same_specs_and_source(rt: HostRuntime) -> Result<(), Fail> {
    let search = search_of_list(rt.alloc(), &["a*", ":!(attr:b)c"], "a")?;
    assert!(rt; search.source.is_some() && is_cloned(rt.alloc(), &search)?);
    Ok(())
}

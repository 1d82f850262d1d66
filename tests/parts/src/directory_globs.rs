//! Globs that are asked of directories: their answers, their ends and the scratches that fit them.
use crate::globs::{answer, boxed_room};
use pathspec_parts::glob::Case::{self, Fold, Sensitive};
use pathspec_parts::glob::DirectoryGlob;
use pathspec_parts::glob::Mode::{self, PathAware, Shell};
use std::alloc::{AllocError, Global};
use std::test::Fail;

/// The glob of a pattern for directories, boxed as scratches are.
fn glob_of(alloc: Global, mode: Mode, pattern: &str) -> Result<Box<DirectoryGlob>, AllocError> {
    Ok(Box::new(
        alloc,
        DirectoryGlob::compile(alloc, pattern.as_bytes(), mode)?,
    )?)
}

/// Whether a pattern's glob matches a directory; None where it answers otherwise of the text of the directory and a slash.
fn of_directory(
    alloc: Global,
    (mode, case, pattern): (Mode, Case, &str),
    directory: &str,
) -> Result<Option<bool>, AllocError> {
    let glob = glob_of(alloc, mode, pattern)?;
    let mut scratch = boxed_room(alloc, glob.tokens())?;
    let found = glob.matches(directory.as_bytes(), case, &mut scratch);
    let text = format!(in alloc; "{directory}/")?;
    let (of_text, _) = answer(alloc, mode, case, pattern, text.as_bytes())?;
    Ok(if found == of_text { Some(found) } else { None })
}

#[test]
#[rattlefmt::skip]
fn globs_match_directories_with_a_slash_behind_them(rt: HostRuntime) -> Result<(), Fail> {
    const ROWS: &[(Mode, Case, &str, &str, bool)] = &[
        (PathAware, Sensitive, "a/**", "a", true),
        (PathAware, Sensitive, "**/b/**", "a/bc", false),
        (PathAware, Sensitive, "a/**/b", "a/b", false),
        (PathAware, Sensitive, "*", "a", false),
        (Shell, Sensitive, "*", "a", true),
        (Shell, Sensitive, "a//", "a/", true),
        (Shell, Sensitive, "?", "", true),
        (PathAware, Fold, "a/**", "A/B", true),
    ];
    for (mode, case, pattern, directory, want) in ROWS {
        let found = of_directory(rt.alloc(), (*mode, *case, *pattern), directory)?;
        assert!(rt; found == Some(*want), "{pattern} {directory}");
    }
    Ok(())
}

#[test]
fn the_last_token_may_take_any_bytes(rt: HostRuntime) -> Result<(), Fail> {
    // A pattern with its mode, how many tokens it has, and whether the last of them takes any bytes.
    const ROWS: &[(Mode, &str, usize, bool)] = &[
        (Shell, "", 0, false),
        (Shell, "a*", 2, true),
        (Shell, "a\\*", 2, false),
        (PathAware, "a*", 2, false),
        (PathAware, "a/**", 3, true),
    ];
    for (mode, pattern, tokens, is_open) in ROWS {
        let glob = glob_of(rt.alloc(), *mode, pattern)?;
        assert!(rt;
            glob.tokens() == *tokens && glob.has_open_end() == *is_open,
            "{pattern}"
        );
        assert!(rt; glob.fits(&*boxed_room(rt.alloc(), *tokens)?), "{pattern}");
    }
    Ok(())
}

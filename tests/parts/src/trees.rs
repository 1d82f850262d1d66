//! Trees, and walks over them by a cursor.
use pathspec_parts::tree::{Cursor, TreeError, Walk as _};
use pathspec_test_support::trees::{add, tree_of};
use std::test::Fail;

/// An entry that a walk comes to: its number, its path, whether it is a directory, and whether the walk enters it.
type Visit<'a> = (usize, &'a str, bool, bool);

/// Whether a cursor comes to this entry, and enters it where it is a directory.
fn is_next(cursor: &mut Cursor<'_>, visit: &Visit<'_>) -> bool {
    let (number, path, is_dir, enters) = *visit;
    if cursor.next() != Some(number) || cursor.is_new() {
        return false;
    }
    if enters && cursor.enter() != is_dir {
        return false;
    }
    cursor.path().as_bytes() == path.as_bytes() && cursor.is_dir() == is_dir
}

/// Whether a cursor stands at no entry.
fn is_nowhere(cursor: &mut Cursor<'_>) -> bool {
    !cursor.enter() && !cursor.is_dir() && cursor.path().as_bytes().is_empty()
}

/// Whether a new cursor comes to these entries and to no other.
fn comes_to(cursor: &mut Cursor<'_>, visits: &[Visit<'_>]) -> bool {
    if !cursor.is_new() || !is_nowhere(cursor) {
        return false;
    }
    for visit in visits {
        if !is_next(cursor, visit) {
            return false;
        }
    }
    cursor.next().is_none() && is_nowhere(cursor) && cursor.next().is_none()
}

/// `a/`, `a/b/`, `a/b/c`, `a/b`, `d`, `a/`, `a/e`, of which the last directory is never closed.
const WORDS: &[&str] = &["a/", "b/", "c", "..", "b", "..", "d", "a/", "e"];

#[test]
#[rattlefmt::skip]
fn a_walk_comes_to_what_lies_in_directories_that_it_entered(rt: HostRuntime) -> Result<(), Fail> {
    // The entries that a walk comes to, and the directories that it entered.
    const ROWS: &[(&[Visit<'_>], &[usize])] = &[
        (&[(0, "a", true, false), (4, "d", false, true), (5, "a", true, false)], &[]),
        (&[(0, "a", true, true), (1, "a/b", true, false), (3, "a/b", false, false), (4, "d", false, false), (5, "a", true, false)], &[0]),
        (&[(0, "a", true, true), (1, "a/b", true, true), (2, "a/b/c", false, true), (3, "a/b", false, true), (4, "d", false, true),
            (5, "a", true, true), (6, "a/e", false, true)], &[0, 1, 5]),
    ];
    let tree = tree_of(rt.alloc(), WORDS)?;
    for (number, (visits, entered)) in ROWS.iter().enumerate() {
        let mut cursor = Cursor::new(rt.alloc(), &tree)?;
        assert!(rt; comes_to(&mut cursor, visits) && cursor.entered() == *entered, "{number}");
    }
    Ok(())
}

#[test]
fn a_refused_call_changes_nothing_and_has_a_text(rt: HostRuntime) -> Result<(), Fail> {
    // Words that make a tree, a word that it then refuses, the error, and its text.
    const ROWS: &[(&[&str], &str, TreeError, &str)] = &[
        (
            &["a/", "b", ".."],
            "..",
            TreeError::NotOpen,
            "no directory is open",
        ),
        (
            &["a/"],
            "",
            TreeError::EmptyName,
            "name of an entry is empty",
        ),
        (
            &["a/"],
            "/",
            TreeError::EmptyName,
            "name of an entry is empty",
        ),
    ];
    for (words, word, error, text) in ROWS {
        let mut tree = tree_of(rt.alloc(), words)?;
        let len = tree.len();
        assert!(rt;
            add(&mut tree, word) == Err(*error) && tree.len() == len && !tree.is_empty(),
            "{word}"
        );
        assert!(rt; error.to_string(rt.alloc())?.as_str() == *text, "{word}");
    }
    assert!(rt; TreeError::Memory.to_string(rt.alloc())?.as_str() == "out of memory");
    Ok(())
}

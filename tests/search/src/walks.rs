//! Walks over trees: what a search chooses there, which directories are entered, and where a fault ends them.
use gix_pathspec::Search;
use pathspec_parts::tree::{Cursor, Tree, Walk as _};
use pathspec_select::{SelectError, select};
use pathspec_test_searches::search_of_line;
use pathspec_test_support::look_ups::Marks;
use pathspec_test_support::trees::tree_of;
use std::alloc::{AllocError, Global};
use std::test::Fail;

/// How a walk ends.
#[derive(Clone, Copy)]
enum End<'w> {
    /// The numbers of the entries that it gives, and of those that it enters.
    Gives(&'w [usize], &'w [usize]),
    /// The path of the entry at which its look-up fails.
    Fails(&'w str),
}

/// Whether a cursor stands where a walk ends that gave entries, or whose look-up failed.
fn is_end(found: Option<&[usize]>, cursor: &Cursor<'_>, end: End<'_>) -> bool {
    match (found, end) {
        (Some(found), End::Gives(given, entered)) => {
            found == given && cursor.entered() == entered
        }
        (None, End::Fails(path)) => cursor.path().as_bytes() == path.as_bytes(),
        _ => false,
    }
}

/// Whether a walk has a given end.
fn is_walk(
    alloc: Global,
    tree: &Tree,
    search: &Search,
    marks: &mut Marks,
    end: End<'_>,
) -> Result<bool, AllocError> {
    let mut cursor = Cursor::new(alloc, tree)?;
    match select(alloc, &mut cursor, search, marks) {
        Ok(found) => Ok(is_end(Some(found.as_slice()), &cursor, end)),
        Err(SelectError::LookUp(_)) => Ok(is_end(None, &cursor, end)),
        Err(SelectError::Memory) => Ok(false),
    }
}

/// The words of a tree, and the numbers of the entries that a walk over it gives and enters.
type Walk<'a> = (&'a [&'a str], &'a [usize], &'a [usize]);

/// Whether a walk by the search of the words of a line, given in a directory, ends so.
fn is_given(
    alloc: Global,
    (line, prefix): (&str, &str),
    (words, given, entered): Walk<'_>,
) -> Result<bool, Fail> {
    let search = search_of_line(alloc, line, prefix)?;
    let tree = tree_of(alloc, words)?;
    let end = End::Gives(given, entered);
    Ok(is_walk(alloc, &tree, &search, &mut Marks::new(), end)?)
}

/// `README.md`, `crates/`, `crates/a/`, `crates/a/x.md`, `crates/y.rs`, `docs/`, `docs/z.md`.
#[rattlefmt::skip]
const CRATES: &[&str] = &["README.md", "crates/", "a/", "x.md", "..", "y.rs", "..", "docs/", "z.md", ".."];

// What `git ls-files` lists of an index with the files of these trees.
#[test]
#[rattlefmt::skip]
fn a_walk_gives_what_is_chosen_and_enters_what_can_hold_it(rt: HostRuntime) -> Result<(), Fail> {
    const ROWS: &[((&str, &str), Walk<'_>)] = &[
        ((":(icase)B", "a"), (&["a/", "b", "..", "A/", "b"], &[1], &[0])),
        (("a", ""), (&["a/", "b/", "c", "..", "d", "..", "e/", "f"], &[0, 1, 2, 3], &[0, 1])),
        (("*.c", ""), (&["s/", "t/", "x.c", "y.h", "..", "..", "z.c"], &[2, 4], &[0, 1])),
        ((":(attr:gen).", ""), (&["x", "a/", "b"], &[0], &[1])),
        (("a", ""), (&[], &[], &[])),
        (("*.md :!crates", ""), (CRATES, &[0, 6], &[5])),
        (("crates :!crates/a", ""), (CRATES, &[1, 4], &[1])),
        ((":(exclude,glob)**/a/**", ""), (CRATES, &[0, 1, 2, 4, 5, 6], &[1, 5])),
        // The look-up says nothing of `gen`, and a walk doesn't ask it before it enters.
        ((":(exclude,attr:!gen)crates", ""), (CRATES, &[0, 5, 6], &[1, 2, 5])),
    ];
    for (specs, walk) in ROWS {
        assert!(rt; is_given(rt.alloc(), *specs, *walk)?, "{}", specs.0);
    }
    Ok(())
}

/// Whether a look-up that fails after so many answers ends a walk at the entry with this path, and the next walk goes on.
fn fails_at(alloc: Global, left: u64, path: &str) -> Result<bool, Fail> {
    let search = search_of_line(alloc, ":(attr:gen).", "")?;
    let tree = tree_of(alloc, &["x", "a/", "b"])?;
    let mut marks = Marks::failing_after(left);
    for end in [End::Fails(path), End::Gives(&[0], &[1])] {
        if !is_walk(alloc, &tree, &search, &mut marks, end)? {
            return Ok(false);
        }
    }
    Ok(marks.failed == 1 && marks.asked == left.saturating_add(4))
}

#[test]
fn a_fault_ends_a_walk_and_leaves_the_search(rt: HostRuntime) -> Result<(), Fail> {
    for (left, path) in [(0, "x"), (1, "a"), (2, "a/b")] {
        assert!(rt; fails_at(rt.alloc(), left, path)?, "{path}");
    }
    Ok(())
}

#[test]
fn errors_of_a_walk_have_a_text_each(rt: HostRuntime) -> Result<(), Fail> {
    let error: SelectError<u8> = SelectError::LookUp(7);
    assert!(rt; error.to_string(rt.alloc())?.as_str() == "look-up failed: 7");
    let error: SelectError<u8> = SelectError::Memory;
    assert!(rt; error.to_string(rt.alloc())?.as_str() == "out of memory");
    Ok(())
}

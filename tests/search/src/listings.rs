//! Listings that are read as trees.
use pathspec_parts::tree::{Cursor, Walk};
use pathspec_select::listing::{Listing, ListingError, read};
use std::test::Fail;

/// Whether a walk that enters every directory of a listing gives these entries: the path, whether it is a directory, and its
/// record, "" for none.
fn gives_entries<W: Walk<Place = usize>>(
    walk: &mut W,
    listing: &Listing<'_>,
    entries: &[(&str, bool, &str)],
) -> bool {
    for entry in entries {
        let (path, is_dir, record) = entry;
        let Some(number) = walk.next() else {
            return false;
        };
        let is_same = walk.path().as_bytes() == path.as_bytes() && walk.is_dir() == *is_dir;
        walk.enter();
        let is_right = match listing.record(number) {
            Some(found) => is_same && found.as_bytes() == record.as_bytes(),
            None => is_same && record.is_empty(),
        };
        if !is_right {
            return false;
        }
    }
    walk.next().is_none() && listing.record(entries.len()).is_none()
}

#[test]
#[rattlefmt::skip]
fn records_are_entries_and_missing_parents_are_implied(rt: HostRuntime) -> Result<(), Fail> {
    // A listing, its separator, and its entries in order.
    const ROWS: &[(&str, u8, &[(&str, bool, &str)])] = &[
        ("a/\na\na/b\na/b", b'\n',
            &[("a", true, "a/"), ("a", false, "a"), ("a", true, ""), ("a/b", false, "a/b"), ("a/b", false, "a/b")]),
        ("x\ny/z\0w\n\0", 0, &[("x\ny", true, ""), ("x\ny/z", false, "x\ny/z"), ("w\n", false, "w\n")]),
        ("a/b/", b'/', &[("a", false, "a"), ("b", false, "b")]),
    ];
    for (text, separator, entries) in ROWS {
        let listing = read(rt.alloc(), text.as_bytes(), *separator)?;
        assert!(rt; gives_entries(&mut listing.cursor(rt.alloc())?, &listing, entries), "{text}");
        let tree = listing.tree(rt.alloc())?;
        assert!(rt; gives_entries(&mut Cursor::new(rt.alloc(), &tree)?, &listing, entries), "{text}");
    }
    Ok(())
}

#[test]
fn the_first_bad_record_is_told(rt: HostRuntime) -> Result<(), Fail> {
    for (text, number) in [("a\n/b\n\n", 2), ("a/\na/b\nc//\n", 3)] {
        let refused = read(rt.alloc(), text.as_bytes(), b'\n').err();
        assert!(rt; refused == Some(ListingError::BadLine(number)), "{text}");
    }
    Ok(())
}

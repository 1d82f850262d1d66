//! What heads, stems and paths of specs say of a path, a row a call.
use pathspec_heads::places::PlacesByHead;
use pathspec_parts_tests::heads::{answers, next_of, stem_table};
use std::test::Fail;

// A word of places has 64.
#[test]
fn the_next_place_is_found_below_64_and_behind(rt: HostRuntime) -> Result<(), Fail> {
    let few = PlacesByHead::new(rt.alloc(), &[b"a/", b"", b"a/b", b"c", b"a/"])?;
    assert!(rt; next_of(&few, b"a/x", 2) == Some(4) && next_of(&few, b"", 2).is_none());
    let many = PlacesByHead::new(rt.alloc(), &[b"a".as_slice(); 65])?;
    for (from, next) in [
        (63, Some(63)),
        (64, Some(64)),
        (65, None),
        (usize::MAX, None),
    ] {
        assert!(rt; next_of(&many, b"ab", from) == next, "{from}");
    }
    Ok(())
}

#[test]
fn the_largest_group_is_that_of_most_places(rt: HostRuntime) -> Result<(), Fail> {
    let none: &[&[u8]] = &[];
    let mixed: &[&[u8]] = &[b"a/", b"", b"a/b", b"c", b"a/", b"c"];
    for (heads, largest) in [(none, 0), (mixed, 2), (&[b"a".as_slice(); 65], 65)] {
        let places = PlacesByHead::new(rt.alloc(), heads)?;
        assert!(rt; places.largest_group() == largest, "{largest}");
    }
    Ok(())
}

#[test]
fn tables_reach_and_take(rt: HostRuntime) -> Result<(), Fail> {
    assert!(rt; answers(&stem_table(rt.alloc())?));
    Ok(())
}

//! Paths, their components, stacks of names, and words of truth.
use bstr::BStr;
use pathspec_parts::path::{
    Components, Stack, components, is_absolute, is_clean_prefix, strip_last_slash, strip_root,
};
use pathspec_parts::split::at_first;
use pathspec_parts::truth::parse_truth;
use std::alloc::{AllocError, Global};
use std::test::Fail;

/// Whether just these components are left.
fn are_left(mut found: Components<'_>, want: &[&str]) -> bool {
    for word in want {
        let is_same = match found.next() {
            Some(component) => component.as_bytes() == word.as_bytes(),
            None => false,
        };
        if !is_same {
            return false;
        }
    }
    found.next().is_none()
}

#[test]
fn paths_are_cut(rt: HostRuntime) {
    let path = BStr::new(b"/a//./b/../");
    assert!(rt; are_left(components(path), &["a", "b", ".."]) && is_absolute(path));
    assert!(rt; is_clean_prefix(BStr::new(b"a/...")) && !is_clean_prefix(BStr::new(b"a/./b")));
    assert!(rt; strip_last_slash(b"a//") == (b"a/".as_slice(), true));
    assert!(rt; at_first(b"a/b/c", b'/') == (b"a".as_slice(), b"b/c".as_slice()));
}

#[test]
fn a_root_is_stripped_by_its_components(rt: HostRuntime) {
    // A path, a root, and the components after the root, or None where the path doesn't lie there.
    const ROWS: &[(&str, &str, Option<&[&str]>)] = &[
        ("/r/a/..", "/r", Some(&["a", ".."])),
        ("/r", "/r/a", None),
        ("r/a", "/r", None),
    ];
    for (path, root, want) in ROWS {
        let found = strip_root(BStr::new(path.as_bytes()), BStr::new(root.as_bytes()));
        let is_same = match (found, want) {
            (Some(found), Some(want)) => are_left(found, want),
            (None, None) => true,
            _ => false,
        };
        assert!(rt; is_same, "{path}");
    }
}

/// A stack of these names.
fn stack_of<'a>(alloc: Global, names: &[&'a str]) -> Result<Stack<'a>, AllocError> {
    let mut stack = Stack::new(alloc);
    for name in names {
        stack.push(BStr::new(name.as_bytes()))?;
    }
    Ok(stack)
}

#[test]
fn a_stack_knows_how_low_it_was(rt: HostRuntime) -> Result<(), Fail> {
    let mut stack = stack_of(rt.alloc(), &["a", "b", "c"])?;
    stack.mark();
    let is_popped = !stack.is_empty() && stack.pop() && stack.pop();
    stack.push(BStr::new(b"d"))?;
    let has_last = stack.len() == 2 && stack.get(1) == Some(BStr::new(b"d"));
    assert!(rt; is_popped && stack.least() == 1 && has_last);
    Ok(())
}

// Words and numbers as git-config(1) has them, beside those that are computed.
#[test]
#[rattlefmt::skip]
fn words_and_numbers_are_true_or_false(rt: HostRuntime) {
    const ROWS: &[(&str, Option<bool>)] = &[
        ("on", Some(true)), ("+7", Some(true)), ("3M", Some(true)), ("010", Some(true)), ("000000000000000000000000000001", Some(true)),
        ("0", Some(false)), ("18446744073709551616", None), ("t", None), ("yes\n", None), ("0x1", None), ("1.0", None), ("-yes", None),
    ];
    for (word, want) in ROWS {
        assert!(rt; parse_truth(word.as_bytes()) == *want, "{word}");
    }
}

//! What files say of paths, as git 2.39.5 answers.
use bstr::BStr;
use pathspec_attributes::{AttributeFiles, Place};
use pathspec_parts::attributes::{Case, LookUp as _, StateRef};
use pathspec_parts_tests::manual::{OF_ABC, has_state, manual, outcome};
use pathspec_test_support::look_ups::{ask, has_states};
use std::test::Fail;

#[test]
fn the_manual_has_this_example(rt: HostRuntime) -> Result<(), Fail> {
    let mut files = manual(rt.alloc())?;
    let mut found = outcome(rt.alloc())?;
    assert!(rt; ask(&mut files, "t/abc", &mut found)?);
    assert!(rt; has_states(&found, OF_ABC));
    Ok(())
}

#[test]
fn a_file_takes_the_place_of_another_until_it_is_removed(rt: HostRuntime) -> Result<(), Fail> {
    use StateRef::{Set, Unspecified, Value};
    let mut files = manual(rt.alloc())?;
    let mut found = outcome(rt.alloc())?;
    files.add(Place::Directory(b"t"), b"abc merge\n")?;
    assert!(rt; ask(&mut files, "t/abc", &mut found)?);
    assert!(rt; has_state(&found, 3, Set));
    files.remove(Place::Directory(b"t"));
    files.remove(Place::Info);
    assert!(rt; ask(&mut files, "t/abc", &mut found)?);
    assert!(rt; has_states(&found, &[Set, Set, Set, Unspecified, Unspecified]));
    files.add(Place::Global, b"t/abc frotz=1 foo=1\n")?;
    assert!(rt; ask(&mut files, "t/abc", &mut found)?);
    assert!(rt; has_states(&found, &[Set, Set, Set, Unspecified, Value(b"1")]));
    files.remove(Place::Global);
    files.remove(Place::Directory(b""));
    assert!(rt; ask(&mut files, "t/abc", &mut found)?);
    assert!(rt;
        has_states(
            &found,
            &[
                Unspecified,
                Unspecified,
                Unspecified,
                Unspecified,
                Unspecified
            ]
        )
    );
    Ok(())
}

#[test]
fn case_counts_unless_it_is_folded(rt: HostRuntime) -> Result<(), Fail> {
    let mut files = manual(rt.alloc())?;
    let mut found = outcome(rt.alloc())?;
    assert!(rt; ask(&mut files, "t/X.C", &mut found)?);
    assert!(rt; has_state(&found, 4, StateRef::Unspecified));
    let mut files = files.with_case(Case::Fold);
    assert!(rt; ask(&mut files, "t/X.C", &mut found)?);
    assert!(rt; has_state(&found, 4, StateRef::Set));
    Ok(())
}

#[test]
fn a_slash_at_the_end_makes_a_directory(rt: HostRuntime) -> Result<(), Fail> {
    const ROWS: &[(&str, bool, bool)] = &[
        ("a", false, false),
        ("a", true, true),
        ("a/", false, true),
        ("a/b", true, false),
    ];
    let mut files = AttributeFiles::new(rt.alloc())?;
    files.add(Place::Directory(b""), b"a/ foo\n")?;
    let mut found = outcome(rt.alloc())?;
    for (path, is_dir, is_set) in ROWS {
        found.reset();
        let path = BStr::new(path.as_bytes());
        assert!(rt; files.look_up(path, Case::Sensitive, *is_dir, &mut found)?);
        assert!(rt; has_state(&found, 0, StateRef::Set) == *is_set);
    }
    Ok(())
}

#[test]
fn each_question_expands_macros_anew(rt: HostRuntime) -> Result<(), Fail> {
    use StateRef::{Set, Unset, Unspecified};
    const RING: &[u8] = b"[attr]foo bar baz\n[attr]bar foo -merge\na foo\nb bar -baz\n";
    const ROWS: &[(&str, &[StateRef<'static>])] = &[
        ("a", &[Set, Set, Set, Unset, Unspecified]),
        ("b", &[Set, Set, Unset, Unset, Unspecified]),
        (
            "c",
            &[
                Unspecified,
                Unspecified,
                Unspecified,
                Unspecified,
                Unspecified,
            ],
        ),
        ("a", &[Set, Set, Set, Unset, Unspecified]),
    ];
    let mut files = AttributeFiles::new(rt.alloc())?;
    files.add(Place::Directory(b""), RING)?;
    let mut found = outcome(rt.alloc())?;
    for (path, states) in ROWS {
        assert!(rt; ask(&mut files, path, &mut found)?);
        assert!(rt; has_states(&found, states));
    }
    Ok(())
}

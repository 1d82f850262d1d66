//! Which rule decides an attribute.
use bstr::BStr;
use pathspec_attributes::{AttributeFiles, Place, RuleAt};
use std::alloc::{AllocError, Global};
use std::test::Fail;

/// A place and a line; None where no rule speaks of the attribute.
type Row = (&'static str, &'static str, Option<(Place<'static>, usize)>);

const TOP: Place<'static> = Place::Directory(b"");

const OF_T: Place<'static> = Place::Directory(b"t");

const OF_SUB: Place<'static> = Place::Directory(b"t/sub");

/// Files at every place: blank lines, comments and lines that git drops count as lines.
pub fn files(alloc: Global) -> Result<AttributeFiles, AllocError> {
    let mut files = AttributeFiles::new(alloc)?;
    files.add(Place::Global, b"*.c global\n*.c near=1\n")?;
    files.add(
        TOP,
        b"# comment\n\n!x near\n[attr]many one -two [attr]\n[attr]many one -two inner\n[attr]inner deep\n*.c near=2 many\n*.bin binary\n",
    )?;
    files.add(
        OF_T,
        b"*.c near=3 near=4\n*.c !far\n\r\n*.c near=5 far=1 -far\n",
    )?;
    files.add(OF_SUB, b"a.c near=6\n*.c one=2\n")?;
    files.add(Place::Info, b"\ninfo.c info near=7\ninfo.c -inner")?;
    Ok(files)
}

/// Whether this rule decides the attribute of a file.
pub fn is_decided(files: &AttributeFiles, (path, name, want): Row) -> Result<bool, AllocError> {
    let found = files.decider(BStr::new(path.as_bytes()), false, name.as_bytes())?;
    Ok(match (found, want) {
        (Some(RuleAt { place, line }), Some((wanted, number))) => place == wanted && line == number,
        (None, None) => true,
        _ => false,
    })
}

#[test]
fn the_first_rule_that_sets_a_name_decides_it(rt: HostRuntime) -> Result<(), Fail> {
    const ROWS: &[Row] = &[
        ("a.c", "global", Some((Place::Global, 1))),
        ("t/sub/a.c", "global", Some((Place::Global, 1))),
        ("a.c", "near", Some((TOP, 7))),
        // The last line of a file.
        ("t/a.c", "near", Some((OF_T, 4))),
        // The nearest file.
        ("t/sub/a.c", "near", Some((OF_SUB, 1))),
        ("t/sub/b.c", "near", Some((OF_T, 4))),
        // Info over all.
        ("t/sub/info.c", "near", Some((Place::Info, 2))),
        ("info.c", "info", Some((Place::Info, 2))),
        // The last state of a line, over `!far` of a line before.
        ("t/a.c", "far", Some((OF_T, 4))),
        // A macro counts where the rule that sets it does.
        ("a.c", "many", Some((TOP, 7))),
        ("a.c", "one", Some((TOP, 7))),
        ("t/sub/a.c", "one", Some((OF_SUB, 2))),
        ("t/sub/a.c", "two", Some((TOP, 7))),
        ("a.c", "deep", Some((TOP, 7))),
        // An unset macro isn't expanded.
        ("info.c", "inner", Some((Place::Info, 3))),
        ("info.c", "deep", None),
        ("a.bin", "diff", Some((TOP, 8))),
        ("a.bin", "text", Some((TOP, 8))),
        // Nothing speaks of it.
        ("a.c", "diff", None),
        ("a.d", "near", None),
        ("t", "near", None),
    ];
    let files = files(rt.alloc())?;
    for row in ROWS {
        assert!(rt; is_decided(&files, *row)?);
    }
    Ok(())
}

#[test]
fn a_name_that_is_made_unspecified_is_decided(rt: HostRuntime) -> Result<(), Fail> {
    let mut files = files(rt.alloc())?;
    files.add(OF_SUB, b"a.c !near\n")?;
    let row: Row = ("t/sub/a.c", "near", Some((OF_SUB, 1)));
    assert!(rt; is_decided(&files, row)?);
    Ok(())
}

#[test]
fn a_slash_at_the_end_makes_a_directory(rt: HostRuntime) -> Result<(), Fail> {
    let mut files = AttributeFiles::new(rt.alloc())?;
    files.add(TOP, b"x one\na/ one\n")?;
    let name = b"one";
    for (path, is_dir, want) in [
        ("a", false, None),
        (
            "a",
            true,
            Some(RuleAt {
                place: TOP,
                line: 2,
            }),
        ),
        (
            "a/",
            false,
            Some(RuleAt {
                place: TOP,
                line: 2,
            }),
        ),
        ("a/b", true, None),
    ] {
        let found = files.decider(BStr::new(path.as_bytes()), is_dir, name)?;
        assert!(rt; found == want);
    }
    Ok(())
}

//! Runs of the program over inputs that have specs before their listing.
use crate::program::{Large, Run, WRONG_USE, assert_runs, writes, writes_large, writes_with};
use pathspec_select_tests::asked::UNSET;
use std::test::Fail;

/// The words of a run whose input has the specs in front.
const FIRST: &str = "--specs-first f";

#[test]
#[rattlefmt::skip]
fn specs_before_the_listing_choose_its_records(rt: HostRuntime) -> Result<(), Fail> {
    const ROWS: &[Run<'_>] = &[
        (FIRST, UNSET, "a\n:!a/x\n--\na/x\na/y\nb\n", "a/y\n"),
        (FIRST, UNSET, "a\r\nb\r\n--\r\na\nb\n", "a\nb\n"),
        (FIRST, UNSET, "--", ""),
        (FIRST, UNSET, "a\n--\r\na\r\n", ""),
        // The first line `--` counts; another one is a record, and so is what only begins or ends with it.
        (FIRST, UNSET, ":()--\n--\n--\na\n", "--\n"),
        (FIRST, UNSET, "--a\n --\n--\n --\n--a\nb\n", " --\n--a\n"),
        // A spec may hold any byte but a line feed, and a carriage return at its end is doubled.
        (FIRST, UNSET, "a\0b\n--\na\0b\na\n", "a\0b\n"),
        (FIRST, UNSET, "a\r\r\n--\na\r\na\n", "a\r\n"),
        // Lines of specs end with line feeds, whatever ends a record.
        ("-z --specs-first f --", UNSET, "--\n\na\0", "\na\0"),
        // The other options hold, and the environment.
        ("--specs-first f --prefix a", UNSET, "../b\n--\na/x\nb\n", "b\n"),
        ("--specs-first f --attr x g", UNSET, ":(attr:g).\n--\nx\ny\n", "x\n"),
        (FIRST, &[("literal", "1")], "a*\n--\na*\nab\n", "a*\n"),
        // No line is `--`.
        ("--specs-first f x", UNSET, "", WRONG_USE),
        (FIRST, UNSET, "--\r", "status 4: specs"),
        (FIRST, UNSET, "\n\n/", "status 4: specs"),
        ("-z --specs-first f", UNSET, "a\0--\0a\0", "status 4: specs"),
        // The specs are at fault: as they are read, and then as they are normalised.
        (FIRST, UNSET, "x\n:(foo)y\n--\n\n", "status 3: spec 1: InvalidKeyword"),
        (FIRST, UNSET, "../x\n:#y\n--\n", "status 3: spec 1: UnimplementedShort"),
        (FIRST, UNSET, "x\n../x\n--\n/\n", "status 3: spec 1: LeavesRepository"),
        // A record is, whose number counts from the line `--` on.
        (FIRST, UNSET, "a\n--\na\nb//c\n", "status 4: line 2"),
        ("-z --specs-first f", UNSET, "a\n--\na\0/", "status 4: line 2"),
    ];
    assert_runs(rt.alloc(), ROWS)
}

#[test]
fn specs_before_the_listing_may_be_no_text_and_have_no_name(rt: HostRuntime) -> Result<(), Fail> {
    let glob = b"a\xff*\n--\na\xffb\nab\n";
    assert!(rt; writes(rt.alloc(), FIRST, UNSET, glob, b"a\xffb\n")?);
    assert!(rt; writes_with(rt.alloc(), ("--specs-first", ""), b"a\n--\na\nb\n", b"a\n")?);
    Ok(())
}

#[test]
fn specs_may_be_many_or_long(rt: HostRuntime) -> Result<(), Fail> {
    const ROWS: &[(Large<'_>, &str)] = &[
        (("", ("a\n", 100_000), "z\n--\na\na/b\nz\n"), "a\na/b\nz\n"),
        (("", (":!a\n", 100_000), "z\n--\nz\n"), "z\n"),
        ((":!", ("a", 1_000_000), "z\n--\nb\n"), "b\n"),
    ];
    for (number, (input, want)) in ROWS.iter().enumerate() {
        assert!(rt;
            writes_large(rt.alloc(), FIRST, *input, Some(*want))?,
            "{number}"
        );
    }
    Ok(())
}

//! Runs of the whole program over listings in memory.
use pathspec_select::Refusal;
use pathspec_select_tests::asked::{UNSET, Variables, words_of};
use pathspec_select_tests::runs::{add_refusal, writes_for};
use std::alloc::Global;
use std::test::Fail;

/// The status and the line of a wrong use.
pub(super) const WRONG_USE: &str =
    "status 2: usage: pathspec-select [-z] [--prefix P] [--root R] [--attr PATH LIST]... [--specs-first NAME] [--] [SPEC...]";

/// Whether a run with the words of a line writes just this, or is told just this.
pub(super) fn writes(
    alloc: Global,
    line: &str,
    variables: Variables<'_>,
    input: &[u8],
    want: &[u8],
) -> Result<bool, Fail> {
    let words = words_of(alloc, line)?;
    let mut reader = input;
    Ok(writes_for(alloc, &words, variables, &mut reader, want)?)
}

/// Words, variables, an input, and what is written for them, or what their refusal is told as, before which nothing is
/// written.
pub(super) type Run<'a> = (&'a str, Variables<'a>, &'a str, &'a str);

/// Asserts what runs write or are told.
pub(super) fn assert_runs(alloc: Global, rows: &[Run<'_>]) -> Result<(), Fail> {
    for (number, (line, variables, input, want)) in rows.iter().enumerate() {
        if !writes(alloc, line, variables, input.as_bytes(), want.as_bytes())? {
            return Err(Fail::new(format_args!("row {number}: {line}")));
        }
    }
    Ok(())
}

// What `git ls-files` lists of an index with these paths.
#[test]
#[rattlefmt::skip]
fn chosen_records_are_written(rt: HostRuntime) -> Result<(), Fail> {
    const ROWS: &[Run<'_>] = &[
        ("a :!a/x", UNSET, "a/x\na/y\nab\n", "a/y\n"),
        (":!a", UNSET, "a\nb\n", "b\n"),
        (":/b ./c", UNSET, "b\na/b\nc\n", "b\nc\n"),
        ("", UNSET, "b\na/\na", "b\na/\na\n"),
        ("", UNSET, "", ""),
        ("b a", UNSET, "a\nb\na\nc\n", "a\nb\na\n"),
        (": :^b", UNSET, "a\nb\n", "a\n"),
        ("a -- -z", UNSET, "--\n-z\na\nb\n", "--\n-z\na\n"),
        ("a/ a*/", UNSET, "a/b\nabc/x\nab/\n", "a/b\nab/\n"),
        ("*.c", UNSET, "s/t/x.c\ns/t/y.h\nz.c\n", "s/t/x.c\nz.c\n"),
        (":(glob)**/x :!*/b/*", UNSET, "x\na/x\na/b/x\n", "x\na/x\n"),
        (":(icase)A/B a/.. b", UNSET, "a/B/c\nab\n", "a/B/c\nab\n"),
        // Specs are read in a prefix and a root.
        ("--prefix a :/b c", UNSET, "b\na/b\na/c\n", "b\na/c\n"),
        ("--prefix a :(icase)B", UNSET, "a/b\nA/b\n", "a/b\n"),
        ("--prefix a/ ../b", UNSET, "a/x\nb\n", "b\n"),
        ("--prefix a*", UNSET, "a*/b\nab/b\n", "a*/b\n"),
        ("--root /r --prefix b /r/a", UNSET, "a/x\nb/a\n", "a/x\n"),
        // Records end with the byte 0 where that is asked for.
        ("-z x", UNSET, "x\0y\0x/z", "x\0x/z\0"),
        ("-z :!y", UNSET, "x\n\0y\0", "x\n\0"),
        // Attributes are those of the options.
        ("--attr x gen --attr x -gen :(attr:-gen)x", UNSET, "x\n", "x\n"),
        ("--attr a/b k=v :(attr:k=v)a", UNSET, "a/b\na/c\n", "a/b\n"),
        ("--attr a d :(attr:d).", UNSET, "a/\na/b\nb\n", "a/\n"),
        (":(attr:!gen)*", UNSET, "x\na/y\n", "x\na/y\n"),
        // The environment is read.
        ("a*", &[("literal", "1"), ("glob", "1"), ("noglob", "1")], "a*\nab\n", "a*\n"),
        ("--prefix a B", &[("icase", "1")], "a/b\nA/b\n", "a/b\n"),
        ("a* :(glob)b*", &[("noglob", "2k")], "a*\nab\nbc\n", "a*\nbc\n"),
        ("*.c", &[("noglob", "false"), ("glob", "on")], "d/x.c\nx.c\n", "x.c\n"),
        // The first fault is refused, and nothing is written.
        ("-x :#y", UNSET, "/\n", WRONG_USE),
        ("a :#x", UNSET, "/a\n", "status 3: spec 1: UnimplementedShort"),
        ("a /b", UNSET, "", "status 3: spec 1: OutsideRoot"),
        ("", UNSET, "a\nb\na//b\n/\n", "status 4: line 3"),
        ("-z", UNSET, "a\0\0", "status 4: line 2"),
    ];
    assert_runs(rt.alloc(), ROWS)
}

/// Whether a run writes `want` or is refused so, with the words of a line and a last one, which may be empty or hold a space.
pub(super) fn writes_with(
    alloc: Global,
    (line, last): (&str, &str),
    input: &[u8],
    want: &[u8],
) -> Result<bool, Fail> {
    let mut words = words_of(alloc, line)?;
    words.push(String::from_str(alloc, last)?)?;
    let mut reader = input;
    Ok(writes_for(alloc, &words, UNSET, &mut reader, want)?)
}

#[test]
fn a_word_may_be_empty_and_hold_a_space(rt: HostRuntime) -> Result<(), Fail> {
    let wrong = WRONG_USE.as_bytes();
    assert!(rt; writes_with(rt.alloc(), ("-z", "y z"), b"x\0y z", b"y z\0")?);
    assert!(rt; writes_with(rt.alloc(), ("a", ""), b"a\n", b"status 3: spec 1: Empty")?);
    assert!(rt; writes_with(rt.alloc(), ("--attr x", ""), b"a\n", wrong)?);
    Ok(())
}

#[test]
fn refusals_have_a_line_each(rt: HostRuntime) -> Result<(), Fail> {
    let refusals = [
        (Refusal::Read, "status 5: read"),
        (
            Refusal::Line(usize::MAX),
            "status 4: line 18446744073709551615",
        ),
        (Refusal::Write, "status 5: write"),
        (Refusal::Memory, "status 6: memory"),
    ];
    for (refusal, want) in &refusals {
        let mut text = Vec::new(rt.alloc());
        add_refusal(rt.alloc(), &mut text, refusal)?;
        assert!(rt; text.as_slice() == want.as_bytes(), "{want}");
    }
    Ok(())
}

/// An input: a text, another one so many times, and an end.
pub(super) type Large<'a> = (&'a str, (&'a str, usize), &'a str);

/// Whether a run writes this for a large input, or the whole of it for None.
pub(super) fn writes_large(
    alloc: Global,
    line: &str,
    (front, (piece, times), end): Large<'_>,
    want: Option<&str>,
) -> Result<bool, Fail> {
    let many = piece.repeat(alloc, times)?;
    let input = format!(in alloc; "{front}{many}{end}")?;
    let want = want.unwrap_or(input.as_str());
    writes(alloc, line, UNSET, input.as_bytes(), want.as_bytes())
}

#[test]
fn listings_may_be_large_and_hold_any_bytes(rt: HostRuntime) -> Result<(), Fail> {
    const ROWS: &[(&str, Large<'_>)] = &[
        (":!b", ("", ("a", 1_000_000), "\n")),
        (".", ("", ("a/", 9_999), "a\n")),
        (".", ("", ("d/", 100_000), "\n")),
        ("d :!d/y", ("", ("d/x\n", 100_000), "")),
        ("a *.c", ("", ("a/x\nb/y.c\n", 5_000), "")),
    ];
    for (line, input) in ROWS {
        assert!(rt; writes_large(rt.alloc(), line, *input, None)?, "{line}");
    }
    const LISTING: &[u8] = b"\0\x01\xff\r\t \"\\*\n\xc3/\xa4\n";
    assert!(rt; writes(rt.alloc(), ":!a", UNSET, LISTING, LISTING)?);
    Ok(())
}

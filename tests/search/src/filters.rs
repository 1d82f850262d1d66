//! Filters over readers and writers in memory.
use gix_pathspec::Search;
use pathspec_filter::{Counts, FilterError, LeadingDot, Selection, filter};
use pathspec_test_devices::{ALL, Answer, Script, ScriptedReader, ScriptedWriter};
use pathspec_test_searches::search_of_line;
use pathspec_test_support::look_ups::Marks;
use std::alloc::{AllocError, Global};
use std::io::{ErrorKind, Read, Write};
use std::test::Fail;

/// The records that a search selects, whose paths are the records as they stand.
const PLAIN: Selection = Selection {
    leading_dot: LeadingDot::Kept,
    is_inverted: false,
};

/// The records that a search selects, where a leading `./` is no part of a path.
const DOTLESS: Selection = Selection {
    leading_dot: LeadingDot::Dropped,
    is_inverted: false,
};

/// The records that a search doesn't select.
const OTHERS: Selection = Selection {
    leading_dot: LeadingDot::Kept,
    is_inverted: true,
};

/// What a filter is told: how many records it read and selected, or the number of the first bad one.
#[derive(Clone, Copy, Debug, PartialEq, Eq)]
enum End {
    Good(u64, u64),
    Line(u64),
    Read,
    LookUp,
    Write,
    Memory,
}

fn end_of(ended: Result<Counts, FilterError<AllocError>>) -> End {
    match ended {
        Ok(counts) => End::Good(counts.records, counts.selected),
        Err(FilterError::Line(number)) => End::Line(number),
        Err(FilterError::Read) => End::Read,
        Err(FilterError::LookUp(AllocError)) => End::LookUp,
        Err(FilterError::Write) => End::Write,
        Err(FilterError::Memory) => End::Memory,
    }
}

/// How a filter ends of records that end with a line feed, without attributes.
fn end_over<R: Read, W: Write>(
    alloc: Global,
    search: &Search,
    reader: &mut R,
    writer: &mut W,
) -> End {
    let mut marks = Marks::new();
    let ended = filter(alloc, search, b'\n', PLAIN, reader, writer, &mut marks);
    end_of(ended)
}

/// Whether a filter of an input, which is read in such steps and written in such steps, writes this and ends so.
fn writes(
    alloc: Global,
    search: &Search,
    (input, separator, selection): (&[u8], u8, Selection),
    (read, write): (usize, usize),
    (want, end): (&[u8], End),
) -> bool {
    let mut reader = ScriptedReader::new(input, Script::new(&[], Ok(read)));
    let mut writer = ScriptedWriter::new(alloc, Script::new(&[], Ok(write)));
    let ended = filter(
        alloc,
        search,
        separator,
        selection,
        &mut reader,
        &mut writer,
        &mut Marks::new(),
    );
    let is_same = writer.taken.as_slice() == want && writer.flushes == 0;
    end_of(ended) == end && is_same
}

/// The specs of a line, an input, what is written and how the filter ends.
type Row<'a> = (&'a str, &'a str, &'a str, End);

/// Asserts what is written for inputs with a separator, whatever the steps of reads and writes: from one byte a call to all.
fn assert_rows(
    alloc: Global,
    separator: u8,
    selection: Selection,
    rows: &[Row<'_>],
) -> Result<(), Fail> {
    for (number, (line, input, want, end)) in rows.iter().enumerate() {
        let search = search_of_line(alloc, line, "")?;
        let input = (input.as_bytes(), separator, selection);
        for step in 1..=input.0.len().saturating_add(1) {
            let want = (want.as_bytes(), *end);
            if !writes(alloc, &search, input, (step, step), want) {
                return Err(Fail::new(format_args!("row {number}, {step} bytes a call: {line}")));
            }
        }
    }
    Ok(())
}

#[test]
#[rattlefmt::skip]
fn selected_records_are_written_whatever_the_reads(rt: HostRuntime) -> Result<(), Fail> {
    const ROWS: &[Row<'_>] = &[
        ("", "", "", End::Good(0, 0)),
        ("", "a", "a\n", End::Good(1, 1)),
        ("", "a\nb/\nb/c\n", "a\nb/\nb/c\n", End::Good(3, 3)),
        ("b", "a\nb/\nb/c", "b/\nb/c\n", End::Good(3, 2)),
        ("a :!a/x", "a/x\na/y\nab\n", "a/y\n", End::Good(3, 1)),
        (":!a", "a\nb\n", "b\n", End::Good(2, 1)),
        ("b a", "a\nb\na\nc\n", "a\nb\na\n", End::Good(4, 3)),
        ("*.c", "s/t/x.c\ns/t/y.h\nz.c\n", "s/t/x.c\nz.c\n", End::Good(3, 2)),
        // What is skipped, and what begins with its name or comes after it.
        (":!a", "a/x\na/b/y\nab\nab/x\nb\na/z", "ab\nab/x\nb\n", End::Good(6, 3)),
        (":!a/b", "a/b/x\na/bc/x\na/b\na/b/c/d\na/c\na/b/\n", "a/bc/x\na/c\n", End::Good(6, 2)),
        ("a/b/c", "a/a/x\na/b/c\na/b/d\na/b/c/x\nb/a/b/c\nab/c\n", "a/b/c\na/b/c/x\n", End::Good(6, 2)),
        (":(glob)**/x/** :!x/y", "x/\nx/a\nx/y/b\nx/yb/c\ny/x/y\n", "x/a\nx/yb/c\ny/x/y\n", End::Good(5, 3)),
        (":(attr:gen).", "x\na/b\ny\n", "x\n", End::Good(3, 1)),
        // A bad record: what stands before it is written, and nothing after it.
        ("", "\n", "", End::Line(1)),
        ("", "a\n\nb\n", "a\n", End::Line(2)),
        ("", "a\nb/c\n/d\ne\n", "a\nb/c\n", End::Line(3)),
        ("a b", "a\nc\nb//c\n", "a\n", End::Line(3)),
        ("", "a\nb//", "a\n", End::Line(2)),
        ("", "a/\n/", "a/\n", End::Line(2)),
        (":!a", "b\na/x\na//y\nc", "b\n", End::Line(3)),
        (":!a", "b\na/x\na/\n\n", "b\n", End::Line(4)),
    ];
    assert_rows(rt.alloc(), b'\n', PLAIN, ROWS)
}

// As `find .` and `find . -type d -printf '%p/\n'` print paths.
#[test]
#[rattlefmt::skip]
fn a_leading_dot_that_is_dropped_is_written(rt: HostRuntime) -> Result<(), Fail> {
    const DROPPED: &[Row<'_>] = &[
        ("src :!src/gen", "./src/a\n./src/gen/a\nsrc/b\n./srcs/a\n", "./src/a\nsrc/b\n", End::Good(4, 2)),
        ("*.c", "./\n./a.c\n./b/\n./b/c.c\n./b/d", "./a.c\n./b/c.c\n", End::Good(5, 2)),
        ("b/", "./b\n./b/\n./b/c\n", "./b/\n./b/c\n", End::Good(3, 2)),
        // A `./` alone is the path `.`, and of two the second stays.
        (":!b", "./\n./a\n./b/a\n", "./\n./a\n", End::Good(3, 2)),
        ("a", "././a\n./.a\n./a\n.\n", "./a\n", End::Good(4, 1)),
        // It leaves no record good that is bad.
        ("", "./a\n.//a\n./b\n", "./a\n", End::Line(2)),
    ];
    const KEPT: &[Row<'_>] = &[("src", "./src/a\nsrc/a\n./\n", "src/a\n", End::Good(3, 1))];
    assert_rows(rt.alloc(), b'\n', DOTLESS, DROPPED)?;
    assert_rows(rt.alloc(), b'\n', PLAIN, KEPT)
}

#[test]
#[rattlefmt::skip]
fn an_inverted_filter_writes_the_others(rt: HostRuntime) -> Result<(), Fail> {
    const ROWS: &[Row<'_>] = &[
        ("", "a\nb/c\n", "", End::Good(2, 0)),
        ("a :!a/b", "a/b/x\na/x\nb/\na/b/y\nab", "a/b/x\nb/\na/b/y\nab\n", End::Good(5, 4)),
        (":(attr:gen).", "x\na/b\ny\n", "a/b\ny\n", End::Good(3, 2)),
        ("a", "b\n\na\n", "b\n", End::Line(2)),
    ];
    assert_rows(rt.alloc(), b'\n', OTHERS, ROWS)
}

#[test]
#[rattlefmt::skip]
fn directories_that_are_passed_over_are_counted(rt: HostRuntime) -> Result<(), Fail> {
    // Specs, an input, and the count.
    const ROWS: &[(&str, &str, u64)] = &[
        ("", "a/b/c\n", 0),
        (":!a", "a/x\na/b/x\na/c/\nb/x\n", 1),
        ("a/b", "a/c/x\na/c/d/x\na/e/x\nb/x\na/c/y\n", 4),
        ("*.c", "a/x\nb/y\n", 0),
    ];
    for (number, (line, input, want)) in ROWS.iter().enumerate() {
        let search = search_of_line(rt.alloc(), line, "")?;
        for selection in [PLAIN, OTHERS] {
            let mut reader = input.as_bytes();
            let mut written = Vec::new(rt.alloc());
            let mut marks = Marks::new();
            let ended = filter(rt.alloc(), &search, b'\n', selection, &mut reader, &mut written, &mut marks);
            assert!(rt; ended.is_ok_and(|counts| counts.skipped == *want), "{number}");
        }
    }
    Ok(())
}

#[test]
#[rattlefmt::skip]
fn any_byte_ends_a_record(rt: HostRuntime) -> Result<(), Fail> {
    const NUL: &[Row<'_>] = &[
        ("x", "x\0y\0x/z", "x\0x/z\0", End::Good(3, 2)),
        (":!y", "x\n\0y\0", "x\n\0", End::Good(2, 1)),
        ("", "a\0\0", "a\0", End::Line(2)),
    ];
    // Then no record has a slash, and no name is in a directory.
    const SLASH: &[Row<'_>] = &[("b", "a/b/b\n/b", "b/b/", End::Good(4, 2)), ("", "/a", "", End::Line(1))];
    assert_rows(rt.alloc(), 0, PLAIN, NUL)?;
    assert_rows(rt.alloc(), b'/', PLAIN, SLASH)
}

const BROKEN: Answer = Err(ErrorKind::BrokenPipe);

const INTERRUPTED: Answer = Err(ErrorKind::Interrupted);

const TIMED_OUT: Answer = Err(ErrorKind::TimedOut);

/// The answers of a reader or a writer, how often it is called, and what is written.
type Calls<'a> = (&'a [Answer], usize, &'a str);

// Whoever is called again after these answers moves all that it can.
#[test]
#[rattlefmt::skip]
fn a_failed_read_is_told_once_what_stands_before_it_is_written(rt: HostRuntime) -> Result<(), Fail> {
    const INPUT: &[u8] = b"a\nbc\nd";
    const ROWS: &[Calls<'_>] = &[
        (&[BROKEN], 1, ""),
        (&[INTERRUPTED], 1, ""),
        (&[Ok(1), BROKEN], 2, ""),
        (&[Ok(2), INTERRUPTED], 2, "a\n"),
        (&[Ok(1), Ok(2), TIMED_OUT], 3, "a\n"),
        (&[Ok(3), Ok(1), INTERRUPTED], 3, "a\n"),
        (&[Ok(4), Ok(1), BROKEN], 3, "a\nbc\n"),
        (&[Ok(1), Ok(1), Ok(1), Ok(1), Ok(1), Ok(1), INTERRUPTED], 7, "a\nbc\n"),
        (&[ALL, TIMED_OUT], 2, "a\nbc\n"),
    ];
    let search = search_of_line(rt.alloc(), "", "")?;
    for (number, (answers, calls, want)) in ROWS.iter().enumerate() {
        let mut reader = ScriptedReader::new(INPUT, Script::new(answers, ALL));
        let mut written = Vec::new(rt.alloc());
        let end = end_over(rt.alloc(), &search, &mut reader, &mut written);
        let is_told = end == End::Read && reader.script.calls == *calls;
        assert!(rt; is_told && written.as_slice() == want.as_bytes(), "{number}");
    }
    Ok(())
}

#[test]
#[rattlefmt::skip]
fn what_is_written_before_a_failed_write_is_a_front(rt: HostRuntime) -> Result<(), Fail> {
    const INPUT: &[u8] = b"a\nb/\nb/c\n";
    const ROWS: &[Calls<'_>] = &[
        (&[BROKEN], 1, ""),
        (&[INTERRUPTED], 1, ""),
        (&[Ok(0)], 1, ""),
        (&[Ok(1), INTERRUPTED], 2, "a"),
        (&[Ok(2), BROKEN], 2, "a\n"),
        (&[Ok(1), Ok(2), Ok(0)], 3, "a\nb"),
        (&[Ok(3), Ok(4), TIMED_OUT], 3, "a\nb/\nb/"),
        (&[Ok(1), Ok(1), Ok(1), Ok(1), Ok(1), Ok(1), Ok(1), Ok(1), INTERRUPTED], 9, "a\nb/\nb/c"),
    ];
    let search = search_of_line(rt.alloc(), "", "")?;
    for (number, (answers, calls, want)) in ROWS.iter().enumerate() {
        let mut reader = INPUT;
        let mut writer = ScriptedWriter::new(rt.alloc(), Script::new(answers, ALL));
        let end = end_over(rt.alloc(), &search, &mut reader, &mut writer);
        let is_told = end == End::Write && writer.script.calls == *calls && writer.flushes == 0;
        assert!(rt; is_told && writer.taken.as_slice() == want.as_bytes(), "{number}");
    }
    Ok(())
}

/// Whether a filter with a look-up that fails after so many answers asks so often, writes this, and ends so.
fn asks(
    alloc: Global,
    (line, input): (&str, &str),
    left: u64,
    asked: u64,
    (want, end): (&str, End),
) -> Result<bool, Fail> {
    let search = search_of_line(alloc, line, "")?;
    let mut marks = Marks::failing_after(left);
    let mut reader = input.as_bytes();
    let mut written = Vec::new(alloc);
    let ended = filter(
        alloc,
        &search,
        b'\n',
        PLAIN,
        &mut reader,
        &mut written,
        &mut marks,
    );
    let failed = u64::from(end == End::LookUp);
    let is_asked = marks.asked == asked && marks.failed == failed;
    Ok(end_of(ended) == end && written.as_slice() == want.as_bytes() && is_asked)
}

// An exclude with an attribute stands first, so each record asks the look-up that isn't below a skipped directory.
#[test]
#[rattlefmt::skip]
fn what_is_skipped_is_not_asked_about(rt: HostRuntime) -> Result<(), Fail> {
    // The includes and plain excludes, an input, how often the look-up is asked, what is written and how the filter ends.
    const ROWS: &[(&str, &str, u64, &str, End)] = &[
        ("a x", "a/b\nx\nc/d\nc/e/f\nc/g/\na/x\nc/h", 3, "a/b\na/x\n", End::Good(7, 2)),
        // A skipped directory in one that isn't, and one in another.
        ("a/b/c d", "a/a/x\na/a/b/x\na/b/d/x\na/b/c/x\na/z\n", 2, "a/b/c/x\n", End::Good(5, 1)),
        ("a d :!a/b :!a/b/c", "a/b/x\na/b/c/x\na/b/c/d/x\na/b/x/\na/x\n", 1, "a/x\n", End::Good(5, 1)),
        // Neighbours whose names begin with its name.
        ("a d :!a/b", "a/b/x\na/bc/x\na/b.x\na/b/y\na/bc\n", 3, "a/bc/x\na/b.x\na/bc\n", End::Good(5, 3)),
        ("ab ac :!a", "a/x\nab/x\na/y/z\nab/\na/b", 2, "ab/x\nab/\n", End::Good(5, 2)),
        // Records leave it, and come back.
        ("a d :!a/b", "a/b/x\na/c/x\na/b/y\na/x\na/b/c/x\nd/x\na/b/z\n", 3, "a/c/x\na/x\nd/x\n", End::Good(7, 3)),
    ];
    for (number, (line, input, asked, want, end)) in ROWS.iter().enumerate() {
        let line = format!(in rt.alloc(); ":(exclude,attr:gen). {line}")?;
        let run = (line.as_str(), *input);
        assert!(rt; asks(rt.alloc(), run, u64::MAX, *asked, (want, *end))?, "{number}");
        assert!(rt; asks(rt.alloc(), run, 0, 1, ("", End::LookUp))?, "{number}");
    }
    Ok(())
}

/// Whether a filter writes whole a record of so many bytes, of which it reads so many a call.
fn writes_long(
    alloc: Global,
    search: &Search,
    length: usize,
    step: usize,
) -> Result<bool, AllocError> {
    let mut want = Vec::new(alloc);
    want.resize(length, b'a')?;
    want.extend_from_slice(b"\na\n")?;
    let mut input = Vec::from_slice(alloc, b"b\n")?;
    input.resize(length.saturating_add(2), b'a')?;
    input.extend_from_slice(b"\nb\na")?;
    let input = (input.as_slice(), b'\n', PLAIN);
    let end = (want.as_slice(), End::Good(4, 2));
    Ok(writes(alloc, search, input, (step, usize::MAX), end))
}

#[test]
fn a_long_record_is_read_whole(rt: HostRuntime) -> Result<(), Fail> {
    // The bytes of a record, and of a read.
    const ROWS: &[(usize, usize)] = &[
        (600_000, 1),
        (600_000, 1000),
        (600_000, 262_143),
        (600_000, 262_144),
        (600_000, 262_145),
        (600_000, usize::MAX),
        (20_000_000, 65_536),
        (20_000_000, usize::MAX),
    ];
    let search = search_of_line(rt.alloc(), "a*", "")?;
    for (length, step) in ROWS {
        let is_whole = writes_long(rt.alloc(), &search, *length, *step)?;
        assert!(rt; is_whole, "{length} bytes, {step} a read");
    }
    Ok(())
}

// The room for a read ends at each byte of a record: before it, in its directory, at its slash, in its name and at its separator.
#[test]
fn a_record_lies_across_the_end_of_a_read(rt: HostRuntime) -> Result<(), Fail> {
    const RECORD: &[u8] = b"ab/cde\n";
    let search = search_of_line(rt.alloc(), "ab/c*", "")?;
    for before in 0..=RECORD.len() {
        let mut input = Vec::new(rt.alloc());
        input.resize(262_143 - before, b'x')?;
        input.extend_from_slice(b"\n")?;
        input.extend_from_slice(RECORD)?;
        input.extend_from_slice(RECORD)?;
        let want = (b"ab/cde\nab/cde\n".as_slice(), End::Good(3, 2));
        let input = (input.as_slice(), b'\n', PLAIN);
        let all = (usize::MAX, usize::MAX);
        assert!(rt; writes(rt.alloc(), &search, input, all, want), "{before}");
    }
    Ok(())
}

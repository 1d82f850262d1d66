//! What commands write, what they tell, and how they end.
use pathspec_commands::Failure;
use pathspec_commands_tests::running::{Ran, run_over, run_words};
use pathspec_test_devices::{ALL, Script, ScriptedReader, ScriptedWriter};
use std::alloc::{AllocError, Global};
use std::io::ErrorKind;
use std::test::Fail;

/// The words of a command, its input, what it writes, what it tells, and its exit status.
type Row<'a> = (&'a [&'a str], &'a str, &'a str, &'a str, u8);

/// The bytes of a text, in memory of its own.
fn copy(alloc: Global, text: &str) -> Result<Vec<u8>, AllocError> {
    Vec::from_slice(alloc, text.as_bytes())
}

/// Asserts what commands do.
fn assert_rows(rt: &HostRuntime, rows: &[Row<'_>]) -> Result<(), Fail> {
    for (number, (words, input, written, told, status)) in rows.iter().enumerate() {
        let want = Ran {
            written: copy(rt.alloc(), written)?,
            told: copy(rt.alloc(), told)?,
            status: *status,
        };
        let found = run_over(rt, words, input.as_bytes())?;
        if found != want {
            let written = String::from_utf8_lossy(rt.alloc(), &found.written)?;
            let told = String::from_utf8_lossy(rt.alloc(), &found.told)?;
            return Err(Fail::new(format_args!("row {number}: {written} {told} {}", found.status)));
        }
    }
    Ok(())
}

#[test]
#[rattlefmt::skip]
fn a_filter_writes_what_is_asked_for(rt: HostRuntime) -> Result<(), Fail> {
    const ROWS: &[Row<'_>] = &[
        (&["filter"], "", "", "", 0),
        (&["filter", "a"], "a/x\nb\n./a\n", "a/x\n./a\n", "", 0),
        (&["filter", "a", "--verbatim"], "a/x\n./a\n", "a/x\n", "", 0),
        (&["filter", "-z", "a"], "a/x\0b\0", "a/x\0", "", 0),
        (&["filter", "-v", "a"], "a/x\nb", "b\n", "", 0),
        (&["filter", "-c", "a"], "a/x\nb\na", "2\n", "", 0),
        (&["filter", "-vc", "a"], "a/x\nb\na", "1\n", "", 0),
        (&["filter", "-q", "a"], "b\na\n/\n", "", "", 0),
        (&["filter", "-q", "a"], "b\n", "", "", 1),
        (&["filter", "-qc", "b"], "b\n", "", "", 0),
        (&["filter", "--stats", ":!a"], "a/x\na/y\nb\n", "b\n", "3 records, 1 selected, 1 directory passed over\n", 0),
        (&["filter", "--prefix=src/", "x"], "x\nsrc/x\n", "src/x\n", "", 0),
        (&["filter", "--prefix", "src"], "x\nsrc/x\n", "src/x\n", "", 0),
        (&["filter", "--root=/r", "/r/x"], "x\nsrc/x\n", "x\n", "", 0),
        (&["filter", "--icase", "A"], "a\nb\n", "a\n", "", 0),
        (&["filter", "--glob", "*.c"], "a.c\nb/a.c\n", "a.c\n", "", 0),
        (&["filter", "--noglob", "*.c"], "a.c\n*.c\n", "*.c\n", "", 0),
        (&["filter", "--literal", ":!a"], "a\n:!a\n", ":!a\n", "", 0),
        (&["filter", "--attr", "a", "x -y", ":(attr:x -y).", "--attr", "b", "x"], "a\nb\n", "a\n", "", 0),
    ];
    assert_rows(&rt, ROWS)
}

#[test]
#[rattlefmt::skip]
fn an_include_that_matches_nothing_is_told(rt: HostRuntime) -> Result<(), Fail> {
    const ROWS: &[Row<'_>] = &[
        (&["filter", "--error-unmatch", "a", "b"], "a\nb/\n", "a\nb/\n", "", 0),
        (&["filter", "--error-unmatch", "a", ":!z", "c", "*.x", "b"], "a\n./c/d\n", "a\n./c/d\n",
            "error: pathspec '*.x' did not match any record\nerror: pathspec 'b' did not match any record\n", 1),
        (&["filter", "--error-unmatch", "lib", "lib/a", "l*", "lib"], "lib/a", "lib/a\n", "", 0),
        (&["filter", "--error-unmatch", ":(attr:x)a", "--attr", "a", "x"], "a\n", "a\n", "", 0),
        (&["filter", "--error-unmatch", "-c", "a", "d"], "a\nb\n", "1\n", "error: pathspec 'd' did not match any record\n", 1),
        (&["filter", "--error-unmatch", "-z", "a", "b"], "a\0./b", "a\0./b\0", "", 0),
        (&["filter", "--error-unmatch", "--verbatim", "b"], "./b\n", "", "error: pathspec 'b' did not match any record\n", 1),
        (&["filter", "--error-unmatch", "a", "b"], "a\n\nb\n", "a\n",
            "error: record 2 is empty, begins with a slash or holds two in a row\n", 2),
    ];
    assert_rows(&rt, ROWS)
}

// As `git ls-files --error-unmatch` tells of files in the index.
#[test]
#[rattlefmt::skip]
fn an_include_may_match_what_is_not_written(rt: HostRuntime) -> Result<(), Fail> {
    const ROWS: &[Row<'_>] = &[
        (&["filter", "--error-unmatch", "lib/gen", ":!lib/gen"], "lib/gen/g\nlib/a\n", "", "", 0),
        (&["filter", "--error-unmatch", "lib/gen", "src", ":!lib"], "lib/gen/g\nsrc/b", "src/b\n", "", 0),
        (&["filter", "--error-unmatch", "*.md", "*.x", ":!docs"], "docs/d.md\n", "", "error: pathspec '*.x' did not match any record\n", 1),
        (&["filter", "--error-unmatch", "nope", ":!docs"], "docs/d.md\n", "", "error: pathspec 'nope' did not match any record\n", 1),
        (&["filter", "--error-unmatch", "src", ":!nope"], "src/b\n", "src/b\n", "", 0),
        (&["filter", "--error-unmatch", "-v", "a"], "a\nb", "b\n", "", 0),
        (&["filter", "--error-unmatch", "-v", "a", "d"], "a\nb", "b\n", "error: pathspec 'd' did not match any record\n", 1),
    ];
    assert_rows(&rt, ROWS)
}

#[test]
#[rattlefmt::skip]
fn a_quiet_filter_tells_of_includes(rt: HostRuntime) -> Result<(), Fail> {
    const ROWS: &[Row<'_>] = &[
        (&["filter", "-q", "--error-unmatch", "lib", "nope"], "lib/a\n", "", "error: pathspec 'nope' did not match any record\n", 1),
        (&["filter", "-q", "--error-unmatch", "lib", "nope"], "lib/a\nnope/b\n/\n", "", "", 0),
        (&["filter", "-q", "--error-unmatch", "lib", ":!lib"], "lib/a\n", "", "", 1),
        (&["filter", "-q", "--error-unmatch", "-v", "lib", "nope"], "a\nlib/a\nnope", "", "", 0),
        (&["filter", "-qc", "--error-unmatch", "lib"], "lib/a\n", "", "", 0),
    ];
    assert_rows(&rt, ROWS)
}

#[test]
fn a_quiet_filter_reads_until_each_include_has_matched(rt: HostRuntime) -> Result<(), Fail> {
    const WORDS: &[&str] = &["filter", "-q", "--error-unmatch", "a", "b/c"];
    // The input, how many reads of two bytes there are, and the exit status.
    const ROWS: &[(&str, usize, u8)] =
        &[("a\nb/c\nd\nd\n", 3, 0), ("a\nb/c", 4, 0), ("a\nb/\nc", 4, 1)];
    for (number, (input, reads, status)) in ROWS.iter().enumerate() {
        let mut reader = ScriptedReader::new(input.as_bytes(), Script::new(&[], Ok(2)));
        let (mut written, mut told) = (Vec::new(rt.alloc()), Vec::new(rt.alloc()));
        let ended = run_words(&rt, WORDS, &mut reader, &mut written, &mut told);
        assert!(rt; matches!(ended, Ok(found) if found == *status), "{number}: {ended:?}");
        assert!(rt; reader.script.calls == *reads, "{number}: {}", reader.script.calls);
    }
    let mut reader = ScriptedReader::new(b"a\n", Script::new(&[Ok(2)], Err(ErrorKind::BrokenPipe)));
    let (mut written, mut told) = (Vec::new(rt.alloc()), Vec::new(rt.alloc()));
    let ended = run_words(&rt, WORDS, &mut reader, &mut written, &mut told);
    assert!(rt; matches!(ended, Err(Failure::Told(_))), "{ended:?}");
    Ok(())
}

#[test]
#[rattlefmt::skip]
fn attributes_come_from_a_directory(rt: HostRuntime) -> Result<(), Fail> {
    const ROWS: &[Row<'_>] = &[
        (&["filter", "--attributes", "is/not/there", "a"], "a\n", "", "error: 'is/not/there': No such file or directory (os error 2)\n", 2),
        (&["filter", "--attributes", "", "--error-unmatch", "a"], "a\n", "", "error: '': No such file or directory (os error 2)\n", 2),
        (&["explain", "--attributes", "/dev/null", ":(attr:x)a"], "a\n", "", "error: '/dev/null': Not a directory\n", 2),
        (&["list", "--attributes", "/dev/null/a"], "", "", "error: '/dev/null/a': Not a directory (os error 20)\n", 2),
    ];
    assert_rows(&rt, ROWS)
}

// (What a walk lists is tried by bench/commands, with directories.)
#[test]
#[rattlefmt::skip]
fn a_top_that_is_no_directory_is_told(rt: HostRuntime) -> Result<(), Fail> {
    const ROWS: &[Row<'_>] = &[
        (&["list", "is/not/there", "--", "a"], "", "", "error: 'is/not/there': No such file or directory (os error 2)\n", 2),
        (&["list", "*.c"], "", "", "error: '*.c': No such file or directory (os error 2)\n  specs stand behind `--`\n", 2),
        (&["list", "-C", "is", "not//"], "", "", "error: 'is/not//': No such file or directory (os error 2)\n  specs stand behind `--`\n", 2),
        (&["list", "-qC", "is"], "", "", "error: 'is': No such file or directory (os error 2)\n", 2),
        (&["list", "/dev/null"], "", "", "error: '/dev/null': Not a directory\n  specs stand behind `--`\n", 2),
        (&["list", "-C", "is", "/dev/null", "--", ":(attr:x)a"], "", "",
            "advice: a spec lists attributes, and no path has any: `--attributes .`?\nerror: '/dev/null': Not a directory\n  specs stand behind `--`\n", 2),
        (&["list", "is", "--", ":(tpo)a"], "", "",
            "error: spec 1: unknown keyword `tpo`\n  :(tpo)a\n    ^^^\n  did you mean `top`?\n  keywords: top, icase, exclude, literal, glob, attr:.., prefix:N\n", 2),
    ];
    assert_rows(&rt, ROWS)
}

#[test]
#[rattlefmt::skip]
fn mistakes_that_are_no_faults_get_advice(rt: HostRuntime) -> Result<(), Fail> {
    const ROWS: &[Row<'_>] = &[
        (&["filter", "a"], "a/\0b\0", "a/\0b\0\n", "advice: the input has bytes 0: `-z`?\n", 0),
        (&["filter", "-z", "a"], "a/b\nb\n", "a/b\nb\n\0", "advice: the input has line feeds and no byte 0: leave out `-z`?\n", 0),
        (&["filter", "-z", "a"], "a/b\nb\0c\0", "a/b\nb\0", "", 0),
        (&["filter", "a"], "\"a\\303\"\nb\n", "", "advice: records stand in quotes: use `git ls-files -z` and `pathspec filter -z`\n", 0),
        (&["filter", "b"], "\"a\\303\"\nb\n", "b\n", "advice: records stand in quotes: use `git ls-files -z` and `pathspec filter -z`\n", 0),
        (&["filter", "-v", "b"], "b\n\"a\\\"\\t\"", "\"a\\\"\\t\"\n", "advice: records stand in quotes: use `git ls-files -z` and `pathspec filter -z`\n", 0),
        (&["filter", "-q", ":!a"], "\"a/\\303\\257\"\nb\n", "", "advice: records stand in quotes: use `git ls-files -z` and `pathspec filter -z`\n", 0),
        (&["filter", "b"], "\"\n\"a\nb\"\n\"\\\"\n\"\\x\"\n\"\\400\"\n\"\\38\"\n\"a\"b\n \"a\"\nb\n", "b\n", "", 0),
        (&["filter", "-z", "b"], "\"a\\303\"\0b\0", "b\0", "", 0),
        (&["filter", "a"], "a\r\nb\r\n", "", "advice: records end with a carriage return, which is part of their paths\n", 0),
        (&["filter", "--prefix=src", ":/docs"], "src/a\n", "", "advice: a spec counts from the top of the repository: do the paths?\n", 0),
        (&["filter", "--prefix=src", ":/docs"], "", "", "", 0),
        (&["filter", "--prefix=src", "-v", ":/a"], "a\n", "", "", 0),
        (&["filter", ":(top)docs"], "a\n", "", "", 0),
        (&["filter", ":(attr:x)a"], "a\n", "", "advice: a spec lists attributes, and no path has any: `--attributes .`?\n", 0),
        (&["filter", ":(attr:x)a", "--attr", "b", "x"], "a\n", "", "", 0),
    ];
    assert_rows(&rt, ROWS)
}

#[test]
fn a_quoted_record_is_seen_wherever_it_stands(rt: HostRuntime) -> Result<(), Fail> {
    let mut listing = Vec::new(rt.alloc());
    for _ in 0..2500 {
        listing.extend_from_slice(b"a\n")?;
    }
    listing.extend_from_slice(b"\"docs/na\\303\\257ve.md\"\n")?;
    for size in [1, 2, 3, 7, 5010] {
        let mut reader = ScriptedReader::new(&listing, Script::new(&[], Ok(size)));
        let (mut written, mut told) = (Vec::new(rt.alloc()), Vec::new(rt.alloc()));
        let ended = run_words(&rt, &["filter", "-c", "a"], &mut reader, &mut written, &mut told);
        assert!(rt; matches!(ended, Ok(0)), "{size}: {ended:?}");
        assert!(rt; told.starts_with(b"advice: records stand in quotes"), "{size}: {told:?}");
    }
    Ok(())
}

#[test]
#[rattlefmt::skip]
fn faults_are_told_with_their_place(rt: HostRuntime) -> Result<(), Fail> {
    const ROWS: &[Row<'_>] = &[
        (&["filter", "a", ":(tpo)x"], "a\n", "",
            "error: spec 2: unknown keyword `tpo`\n  :(tpo)x\n    ^^^\n  did you mean `top`?\n  keywords: top, icase, exclude, literal, glob, attr:.., prefix:N\n", 2),
        (&["explain", "a", "../b"], "", "",
            "error: spec 2: the path climbs out of the repository\n  ../b\n  ^^^^\n  it has more `..` than names before them\n", 2),
        (&["show", ""], "", "", "error: spec 1: the spec is empty\n  `.` is the directory and all below it\n", 2),
        (&["filter", "--prefix=a//b"], "", "",
            "error: --prefix: `a//b` is no directory's path: names between single slashes, none of them `.` or `..`\n", 2),
        (&["filter", "--root=rel", "a"], "", "", "error: --root: `rel` is no absolute path\n", 2),
        (&["filter", "--attr", "a", "b=c.d"], "", "",
            "error: --attr a: no value of an attribute holds `.`\n  :(attr:b=c.d)\n            ^\n  values: letters, digits, `-`, `_`, and a comma as `\\,`\n", 2),
        (&["filter", "a"], "a\n\nb\n", "a\n", "error: record 2 is empty, begins with a slash or holds two in a row\n", 2),
        (&["explain", "--path", "a", "--path", "b//c"], "", "a     selected: no exclude matches\n",
            "error: path 2 is empty, begins with a slash or holds two in a row\n", 2),
    ];
    assert_rows(&rt, ROWS)
}

#[test]
#[rattlefmt::skip]
fn paths_are_explained(rt: HostRuntime) -> Result<(), Fail> {
    const ROWS: &[Row<'_>] = &[
        (&["explain", "src/*.rs", "*.md", ":!src/gen", "--path", "src/gen/t.rs", "--path", "src/lib.rs", "--path", "README"], "",
            "src/gen/t.rs  excluded by 3 ':!src/gen': it lies below\nsrc/lib.rs    selected by 1 'src/*.rs': its glob matches\nREADME        not selected: no include matches\n", "", 0),
        (&["explain", "src/a", "src/b", ":!src/b/c"], "./src/a\ndocs/\nsrc/b/c/\n",
            "./src/a  selected by 1 'src/a': it is the path\ndocs/  not selected: all includes begin with 'src/', and the path doesn't; a walk may skip it\nsrc/b/c/  excluded by 3 ':!src/b/c': it is the path; a walk may skip it\n", "", 0),
        (&["explain", ":!a", "-z"], "b\0", "b  selected: no exclude matches\n", "", 0),
        (&["explain", ":", "--path", "b"], "", "b  selected by 1 ':': it matches every path\n", "", 0),
        (&["explain", "--prefix", "a", "--path", "a/b"], "", "a/b  selected by 1 'a': it lies below\n", "", 0),
        (&["explain", "*.c", "a/", "--path", "b/"], "", "b/  not selected: no include matches\n", "", 0),
        (&["explain", "a", "b", "--path", "c/"], "", "c/  not selected: no include matches; a walk may skip it\n", "", 0),
        // `docs/*.md` could match below, and an exclude takes all of it.
        (&["explain", "docs/*.md", "src/*.rs", ":!docs/*", "--path", "docs/"], "", "docs/  not selected: no include matches; a walk may skip it\n", "", 0),
    ];
    assert_rows(&rt, ROWS)
}

#[test]
fn an_answer_is_written_before_more_is_read(rt: HostRuntime) -> Result<(), Fail> {
    // The first read brings one record and the front of the next, the second all others.
    let mut reader = ScriptedReader::new(b"a\nb\nc\n", Script::new(&[Ok(3)], ALL));
    let mut writer = ScriptedWriter::new(rt.alloc(), Script::new(&[], ALL));
    let mut told = Vec::new(rt.alloc());
    let ended = run_words(&rt, &["explain"], &mut reader, &mut writer, &mut told);
    assert!(rt; matches!(ended, Ok(0)));
    assert_eq!(rt; writer.script.calls, 2);
    Ok(())
}

// A row for each reason why a spec doesn't match.
#[test]
#[rattlefmt::skip]
fn each_reason_has_its_words(rt: HostRuntime) -> Result<(), Fail> {
    const NONE: &str = "b  not selected: no include matches\n    ";
    const ROWS: &[(&[&str], &str)] = &[
        (&["b/"], "1 'b/': its path fits only a directory\n"),
        (&["B"], "1 'B': its path fits only without case\n"),
        (&[":(attr:x)B"], "1 ':(attr:x)B': its path fits only without case\n"),
        (&["c*", "d"], "1 'c*': it begins with 'c', and the path doesn't\n    2 'd': the path is neither 'd' nor below it\n"),
        (&["*.c"], "1 '*.c': its glob doesn't match\n"),
        (&[":(attr:x -y)b", "--attr", "b", "x"], "1 ':(attr:x -y)b': the attribute 'y' has another state\n"),
    ];
    for (number, (words, lines)) in ROWS.iter().enumerate() {
        let mut line = vec![in rt.alloc(); "explain", "--all", "--path", "b"]?;
        line.extend_from_slice(words)?;
        // Without another include all would begin with one text.
        line.push("z*")?;
        let found = run_over(&rt, &line, b"")?;
        let text = String::from_utf8_lossy(rt.alloc(), &found.written)?;
        assert!(rt; text.starts_with(NONE) && text.contains(lines), "{number}: {text}");
    }
    Ok(())
}

#[test]
#[rattlefmt::skip]
fn explanations_are_objects(rt: HostRuntime) -> Result<(), Fail> {
    const ROWS: &[Row<'_>] = &[
        (&["explain", "--json", "a", "b", ":!b", "--path", "a/x", "--path", "b/"], "",
            "{\"by\":{\"kind\":\"below\",\"number\":1,\"reason\":\"matches\",\"spec\":\"a\",\"text\":\"it lies below\"},\"may_skip\":false,\"path\":\"a/x\",\"verdict\":\"selected\"}\n\
{\"by\":{\"kind\":\"same\",\"number\":3,\"reason\":\"matches\",\"spec\":\":!b\",\"text\":\"it is the path\"},\"may_skip\":true,\"path\":\"b/\",\"verdict\":\"excluded\"}\n", "", 0),
        (&["explain", "--json", "--all", "ab*"], "ac\n",
            "{\"byte\":1,\"may_skip\":false,\"path\":\"ac\",\"specs\":[{\"at\":1,\"number\":1,\"reason\":\"parts\",\"spec\":\"ab*\",\"text\":\"it begins with 'ab', and the path doesn't\"}],\"verdict\":\"lacks_common_prefix\"}\n", "", 0),
    ];
    assert_rows(&rt, ROWS)?;
    let found = run_over(&rt, &["explain", "--json"], b"a\xff\n")?;
    let want = b"{\"may_skip\":false,\"path\":[97,255],\"verdict\":\"no_exclude_matches\"}\n".as_slice();
    assert!(rt; found.written.as_slice() == want, "{found:?}");
    Ok(())
}

#[test]
#[rattlefmt::skip]
fn specs_are_shown(rt: HostRuntime) -> Result<(), Fail> {
    const ROWS: &[Row<'_>] = &[
        (&["show", "--prefix=src", ":(icase,attr:a=b -c !d)B/", ":!gen"], "",
            "1 ':(icase,attr:a=b -c !d)B/'\n  path        'src/B'\n  magic       icase, directory\n  mode        glob; wildcards take slashes\n  attributes  a=b -c !d\n  prefix      'src'\n  long form   ':(icase,prefix:3,attr:a=b -c !d)src/B/'\n  walk        enters only 'src' and below\n2 ':!gen'\n  path        'src/gen'\n  magic       exclude\n  mode        glob; wildcards take slashes\n  prefix      'src'\n  long form   ':(exclude,prefix:3)src/gen'\n  walk        enters what it doesn't exclude\n", "", 0),
        (&["show", ":(glob)*.c"], "", "1 ':(glob)*.c'\n  path        '*.c'\n  mode        glob; only `**` takes slashes\n  long form   ':(glob)*.c'\n  walk        may enter any directory\n", "", 0),
        (&["show", "--prefix=a/b", ":(icase)C", ":(icase)../D"], "",
            "1 ':(icase)C'\n  path        'a/b/C'\n  magic       icase\n  mode        glob; wildcards take slashes\n  prefix      'a/b'\n  long form   ':(icase,prefix:3)a/b/C'\n  walk        enters only 'a/b' and below\n2 ':(icase)../D'\n  path        'a/D'\n  magic       icase\n  mode        glob; wildcards take slashes\n  prefix      'a'\n  long form   ':(icase,prefix:1)a/D'\n  walk        enters only 'a' and below\n", "", 0),
        // `a*/C` matches `a*x/C`, too.
        (&["show", "--prefix=a*", ":(icase)C"], "",
            "1 ':(icase)C'\n  path        'a*/C'\n  magic       icase\n  mode        glob; wildcards take slashes\n  prefix      'a*'\n  long form   ':(icase,prefix:2)a*/C'\n  walk        may enter any directory\n", "", 0),
        (&["show", " a "], "", "1 ' a '\n  path        ' a '\n  mode        glob; wildcards take slashes\n  long form   ':() a '\n  walk        enters only ' a ' and below\n", "", 0),
        (&["show", ":(literal)a*"], "", "1 ':(literal)a*'\n  path        'a*'\n  mode        literal\n  long form   ':(literal)a*'\n  walk        enters only 'a*' and below\n", "", 0),
    ];
    assert_rows(&rt, ROWS)
}

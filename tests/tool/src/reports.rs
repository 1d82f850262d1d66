//! What is written for each kind of fault.
use bstr::BStr;
use pathspec_faults::report;
use pathspec_pattern::{Defaults, Error, parse};
use std::alloc::Global;
use std::test::Fail;

/// A spec's text, and the lines for its fault.
struct Row(&'static [u8], &'static str);

const ROWS: &[Row] = &[
    Row(
        b"",
        "error: spec 1: the spec is empty\n  `.` is the directory and all below it\n",
    ),
    Row(
        b":!__pycache__",
        "error: spec 1: git keeps `_` free for magic of its own\n  :!__pycache__\n    ^\n  write `:!:__pycache__` or `:(exclude)__pycache__`\n",
    ),
    Row(
        b":/%x",
        "error: spec 1: git keeps `%` free for magic of its own\n  :/%x\n    ^\n  write `:/:%x` or `:(top)%x`\n",
    ),
    Row(
        b":(top,src",
        "error: spec 1: `(` without `)`\n  :(top,src\n  ^^^^^^^^^\n  `)` ends the keywords: `:(top,icase)src`; the path `:(x` is `./:(x`\n",
    ),
    Row(
        b":(top,foo)src",
        "error: spec 1: unknown keyword `foo`\n  :(top,foo)src\n        ^^^\n  keywords: top, icase, exclude, literal, glob, attr:.., prefix:N\n",
    ),
    Row(
        b":(tpo)src",
        "error: spec 1: unknown keyword `tpo`\n  :(tpo)src\n    ^^^\n  did you mean `top`?\n  keywords: top, icase, exclude, literal, glob, attr:.., prefix:N\n",
    ),
    Row(
        b":(Exclude)src",
        "error: spec 1: unknown keyword `Exclude`\n  :(Exclude)src\n    ^^^^^^^\n  did you mean `exclude`?\n  keywords: top, icase, exclude, literal, glob, attr:.., prefix:N\n",
    ),
    Row(
        b":(atr:text)src",
        "error: spec 1: unknown keyword `atr:text`\n  :(atr:text)src\n    ^^^^^^^^\n  did you mean `attr:..`?\n  keywords: top, icase, exclude, literal, glob, attr:.., prefix:N\n",
    ),
    Row(
        b":(literal,glob)x",
        "error: spec 1: `glob` beside the other search mode\n  :(literal,glob)x\n            ^^^^\n  `literal` reads no wildcards, and `glob` does: keep one\n",
    ),
    Row(
        b":(attr:a,attr:b)x",
        "error: spec 1: a second list of attributes\n  :(attr:a,attr:b)x\n           ^^^^^^\n  one list takes them all, with spaces between them: `attr:a -b`\n",
    ),
    Row(
        b":(prefix:9)a",
        "error: spec 1: no length of a prefix directory\n  :(prefix:9)a\n    ^^^^^^^^\n  `prefix:3` of `src/a`: 0, the path's length or where a slash stands\n",
    ),
    Row(
        b":(attr:)x",
        "error: spec 1: `attr:` without an attribute\n  :(attr:)x\n    ^^^^^\n  `attr:text` set, `attr:-text` unset, `attr:!text` neither, `attr:eol=lf`\n",
    ),
    Row(
        b":(attr:a --1)x",
        "error: spec 1: `-1` is no name of an attribute\n  :(attr:a --1)x\n            ^^\n  names: letters, digits, `.`, `-` and `_`, with no `-` in front\n",
    ),
    Row(
        b":(attr:a=\xc3\xa9)x",
        "error: spec 1: no value of an attribute holds `\\xc3`\n  :(attr:a=\\xc3\\xa9)x\n           ^^^^\n  values: letters, digits, `-`, `_`, and a comma as `\\,`\n",
    ),
    Row(
        b":(attr:a=x\\)y",
        "error: spec 1: a value ends with a lone backslash\n  :(attr:a=x\\)y\n           ^^\n  a backslash stands before the byte that it escapes: `a\\,b`\n",
    ),
    // What a terminal would act on is shown by its number.
    Row(
        b":(\x1b[1m)\xc3\xa9\xff",
        "error: spec 1: unknown keyword `\\x1b[1m`\n  :(\\x1b[1m)é\\xff\n    ^^^^^^^\n  keywords: top, icase, exclude, literal, glob, attr:.., prefix:N\n",
    ),
];

#[test]
fn each_fault_of_reading_is_told(rt: HostRuntime) -> Result<(), Fail> {
    for Row(text, lines) in ROWS {
        let read = parse::parse(rt.alloc(), text, Defaults::default());
        let error = read.err().expect(&rt, "the text is refused");
        assert_eq!(rt;
            report(rt.alloc(), "spec 1", text, &error)?.as_str(),
            *lines
        );
    }
    Ok(())
}

/// The fault of a spec that is given in the directory `a` of a repository at `/r`.
fn fault_of_path(alloc: Global, text: &[u8]) -> Option<Error> {
    match parse::parse(alloc, text, Defaults::default()) {
        Ok(mut spec) => spec.resolve(BStr::new(b"a"), BStr::new(b"/r")).err(),
        Err(error) => Some(error),
    }
}

#[test]
fn each_fault_of_a_path_is_told(rt: HostRuntime) -> Result<(), Fail> {
    const PATHS: &[Row] = &[
        Row(
            b":(icase)../../x/",
            "error: specs.txt, line 3: the path climbs out of the repository\n  :(icase)../../x/\n          ^^^^^^^\n  it has more `..` than names before them\n",
        ),
        Row(
            b":(exclude)/q/x",
            "error: specs.txt, line 3: the path lies outside of the repository\n  :(exclude)/q/x\n            ^^^^\n  `:/src` counts from the top of the repository\n",
        ),
    ];
    for Row(text, lines) in PATHS {
        let error = fault_of_path(rt.alloc(), text).expect(&rt, "the path is refused");
        assert_eq!(rt;
            report(rt.alloc(), "specs.txt, line 3", text, &error)?.as_str(),
            *lines
        );
    }
    Ok(())
}

/// The fault of variables that each have a word.
fn fault_of_word(alloc: Global, word: &'static str) -> Option<Error> {
    let mut var = |name: &str| -> Option<&str> {
        match name {
            "GIT_GLOB_PATHSPECS" | "GIT_NOGLOB_PATHSPECS" => Some(word),
            _ => None,
        }
    };
    Defaults::from_environment(alloc, &mut var).err()
}

#[test]
fn each_fault_of_the_environment_is_told(rt: HostRuntime) -> Result<(), Fail> {
    let error = fault_of_word(rt.alloc(), "maybe").expect(&rt, "no word of truth");
    let lines =
        "error: GIT_GLOB_PATHSPECS: `maybe` is neither true nor false\n  maybe\n  ^^^^^\n  true, yes, on, 1; false, no, off, 0\n";
    assert_eq!(rt;
        report(rt.alloc(), "GIT_GLOB_PATHSPECS", b"maybe", &error)?.as_str(),
        lines
    );
    let error = fault_of_word(rt.alloc(), "on").expect(&rt, "both are asked for");
    let lines =
        "error: environment: globs are both asked for and ruled out\n  set one of GIT_GLOB_PATHSPECS and GIT_NOGLOB_PATHSPECS\n";
    assert_eq!(rt;
        report(rt.alloc(), "environment", b"", &error)?.as_str(),
        lines
    );
    Ok(())
}

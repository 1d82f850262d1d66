//! Answers, and bad input, through the package alone.
use puneloviash::{
    Defaults, Error, FaultKind, LeftOut, Match, MatchKind, Matcher, Place, Reason, Search, Text,
};
use std::borrow::Cow;
use std::error;
use std::ffi::{OsStr, OsString};
use std::os::unix::ffi::OsStrExt;
use std::path::{Path, PathBuf};
use std::thread;

fn matcher_of<I>(specs: I) -> Matcher
where
    I: IntoIterator,
    I::Item: Text,
{
    Search::new(specs).unwrap().matcher().unwrap()
}

fn no_specs() -> [&'static str; 0] {
    []
}

fn found(number: usize, kind: MatchKind, is_excluded: bool) -> Option<Match> {
    Some(Match {
        number,
        kind,
        is_excluded,
    })
}

#[test]
fn kinds_of_matches() {
    let matcher = matcher_of(["src", "*.c", ":(literal)a[b]", ":!gen"]);
    let rows = [
        ("src/a", found(0, MatchKind::Below, false)),
        ("src", found(0, MatchKind::Verbatim, false)),
        ("b.c", found(1, MatchKind::Wildcard, false)),
        ("a[b]", found(2, MatchKind::Verbatim, false)),
        ("gen/b.c", found(3, MatchKind::Below, true)),
        ("docs", None),
    ];
    for (path, wanted) in rows {
        assert_eq!(matcher.settle(path, false), wanted, "{path}");
        let selects = wanted.is_some_and(|found| !found.is_excluded);
        assert_eq!(matcher.is_selected(path, false), selects, "{path}");
    }
    let matcher = matcher_of([":!gen"]);
    assert_eq!(matcher.settle("a", false).unwrap().kind, MatchKind::Always);
    assert!(matcher.is_selected("a", false));
}

#[test]
fn directories() {
    let matcher = matcher_of([":(glob)s*", "d/"]);
    assert!(matcher.is_selected("src", true));
    assert!(matcher.is_selected("d", true));
    assert!(!matcher.is_selected("d", false));
    let matcher = matcher_of(["src/lib", ":!src/lib/gen"]);
    assert!(!matcher.may_skip("src"));
    assert!(matcher.may_skip("docs"));
    assert!(matcher.may_skip("src/lib/gen"));
    assert!(matcher.can_match("src", true));
    assert!(!matcher.can_match("docs", true));
}

#[test]
fn a_slash_at_the_end_says_directory() {
    let mut matcher = matcher_of([":(glob)s*", "d/", ":(attr:x)t", "u/v/w"]);
    assert!(matcher.is_selected("src/", false));
    assert!(matcher.is_selected("d/", false));
    assert!(!matcher.may_skip("u/"));
    assert!(!matcher.may_skip("u/v//"));
    assert!(matcher.can_match("u/v/", false));
    matcher.assign("t/", "x").unwrap();
    assert!(matcher.is_selected("t", true));
    assert_eq!(
        matcher.settle("d/", false),
        found(1, MatchKind::Verbatim, false)
    );
}

#[test]
fn all_types_of_texts() {
    let matcher = matcher_of(["a"]);
    let text = OsStr::new("a");
    assert!(matcher.is_selected("a", false));
    assert!(matcher.is_selected(String::from("a"), false));
    assert!(matcher.is_selected(b"a", false));
    assert!(matcher.is_selected(vec![b'a'], false));
    assert!(matcher.is_selected(&b"a"[..], false));
    assert!(matcher.is_selected(text, false));
    assert!(matcher.is_selected(OsString::from("a"), false));
    assert!(matcher.is_selected(Path::new("a"), false));
    assert!(matcher.is_selected(PathBuf::from("a"), false));
    assert!(matcher.is_selected(text.to_string_lossy(), false));
    assert!(matcher.is_selected(Cow::Borrowed(Path::new("a")), false));
}

#[test]
fn prefixes_and_roots() {
    let search = Search::builder()
        .prefix("a/b")
        .root("/r")
        .build(["../c", "/r/d"])
        .unwrap();
    let matcher = search.matcher().unwrap();
    assert!(matcher.is_selected("a/c", false));
    assert!(matcher.is_selected("d", false));
    assert!(!matcher.is_selected("c", false));
    let search = Search::builder().prefix("a").build(no_specs()).unwrap();
    assert!(search.matcher().unwrap().is_selected("a/b", false));
    assert!(!search.matcher().unwrap().is_selected("b", false));
    assert_eq!(search.common_prefix(), "a");
    assert_eq!(search.prefix_directory(), Path::new("a"));
    for prefix in ["/", "a/", "a//b", ".."] {
        let error = Search::builder().prefix(prefix).build(["c"]).unwrap_err();
        assert_eq!(error, Error::Prefix, "{prefix}");
    }
}

#[test]
fn long_texts_are_whole() {
    let long = "d".repeat(10_000);
    let search = Search::new([format!("{long}/a"), format!("{long}/b")]).unwrap();
    assert_eq!(search.common_prefix(), format!("{long}/").as_str());
    assert_eq!(search.longest_common_directory(), Some(long.clone().into()));
    assert_eq!(
        Search::new(["a"]).unwrap().prefix_directory(),
        Path::new("")
    );
    assert_eq!(
        Search::new(no_specs()).unwrap().longest_common_directory(),
        None
    );
    let error = Search::new([format!(":({long})")]).unwrap_err();
    assert!(error.to_string().ends_with(&long));
}

#[test]
fn defaults_count() {
    let answer = |defaults: Defaults, spec: &str, path: &str| {
        let search = Search::builder().defaults(defaults).build([spec]).unwrap();
        search.matcher().unwrap().is_selected(path, false)
    };
    let none = Defaults::default();
    assert!(answer(none, "*.c", "a/b.c"));
    assert!(!answer(Defaults { glob: true, ..none }, "*.c", "a/b.c"));
    assert!(answer(
        Defaults {
            icase: true,
            ..none
        },
        "A",
        "a"
    ));
    assert!(answer(
        Defaults {
            literal: true,
            ..none
        },
        ":!a",
        ":!a"
    ));
    assert!(!answer(
        Defaults {
            noglob: true,
            ..none
        },
        "*.c",
        "a.c"
    ));
}

#[test]
fn faults() {
    let rows = [
        (
            "",
            FaultKind::Empty,
            "spec 1: an empty string is not a valid pathspec",
        ),
        (
            ":%a",
            FaultKind::UnimplementedShort,
            "spec 1: unimplemented short keyword: '%'",
        ),
        (
            ":(b",
            FaultKind::MissingParen,
            "spec 1: missing ')' at the end of pathspec magic in :(b",
        ),
        (
            ":(nope)b",
            FaultKind::InvalidKeyword,
            "spec 1: found an unknown keyword in long magic: nope",
        ),
    ];
    for (spec, kind, message) in rows {
        let error = Search::new(["a", spec]).unwrap_err();
        let wanted = Error::Spec {
            number: 1,
            kind,
            message: message.to_owned(),
        };
        assert_eq!(error, wanted);
        assert_eq!(error.to_string(), message);
        let error = Search::builder().build_from_lines(format!("a\n{spec}\n"));
        assert_eq!(error.unwrap_err(), wanted);
    }
    for (spec, kind) in [
        (":(literal,glob)a", FaultKind::LiteralWithGlob),
        (":(attr:a,attr:b)", FaultKind::SecondAttributes),
        (":(prefix:9)a", FaultKind::InvalidPrefix),
        (":(attr:)a", FaultKind::EmptyAttributes),
        (":(attr:%)a", FaultKind::InvalidName),
        (":(attr:a=%)a", FaultKind::InvalidValueByte),
        ("/a", FaultKind::OutsideRoot),
        ("../a", FaultKind::LeavesRepository),
    ] {
        let error = Search::new([spec]).unwrap_err();
        assert_eq!(
            (error.number(), error.kind()),
            (Some(0), Some(kind)),
            "{spec}"
        );
    }
    // A spec that can't be read comes before one that can't be placed.
    assert_eq!(Search::new(["../a", ":%"]).unwrap_err().number(), Some(1));
    let error: Box<dyn error::Error + Send + Sync> = Error::Memory.into();
    assert_eq!(error.to_string(), "out of memory");
}

#[test]
fn attributes() {
    let search = Search::new([":(attr:text)*", ":(attr:eol=lf)b"]).unwrap();
    let mut matcher = search.matcher().unwrap();
    assert!(!matcher.is_selected("a", false));
    matcher.assign("a", "text").unwrap();
    assert!(matcher.is_selected("a", false));
    matcher.assign("a", "-text").unwrap();
    assert!(!matcher.is_selected("a", false));
    matcher.assign("b", "eol=lf").unwrap();
    for (list, kind, message) in [
        ("", FaultKind::EmptyAttributes, "attribute list is empty"),
        (
            "a=b\\",
            FaultKind::TrailingEscape,
            "escape at the end of attribute value: b\\",
        ),
    ] {
        let error = matcher.assign("b", list).unwrap_err();
        assert_eq!(error.number(), None);
        assert_eq!(error.kind(), Some(kind));
        assert_eq!(error.to_string(), message);
    }
    assert!(matcher.is_selected("b", false));
    assert!(!search.matcher().unwrap().is_selected("b", false));
}

#[test]
fn attribute_files() {
    let search = Search::new([":(attr:text)*"]).unwrap();
    let mut matcher = search.matcher().unwrap();
    let mut add = |place, text: &[u8]| matcher.add_attributes(place, text).unwrap();
    assert_eq!(add(Place::directory(""), b"*.c text\n"), None);
    assert_eq!(add(Place::directory(Path::new("d/e/")), b"*.c -text"), None);
    assert_eq!(add(Place::Global, b"*.o text\n*.c -text\n"), None);
    let selects = |path| matcher.is_selected(path, false);
    assert_eq!(
        ["a.c", "a.o", "d/a.c", "d/e/a.c", "d/ee/a.c", "a.h"].map(selects),
        [true, true, true, false, true, false]
    );
    // The empty text takes a file away, and that of info counts most.
    let mut add = |place, text: &[u8]| matcher.add_attributes(place, text).unwrap();
    assert_eq!(add(Place::Directory(b"d/e"), b""), None);
    assert_eq!(add(Place::Info, b"/a.c !text"), None);
    let selects = |path| matcher.is_selected(path, false);
    assert_eq!(["a.c", "d/e/a.c"].map(selects), [false, true]);
    assert!(!search.matcher().unwrap().is_selected("d/a.c", false));
    for (directory, text, count, line, reason) in [
        ("", "a".repeat(2048).as_str(), 1, 1, Reason::TooLong),
        ("", "* text\na %\nb !x%\n", 2, 2, Reason::InvalidName),
        ("d", "\n[attr]m text\n", 1, 2, Reason::Macro),
        ("", "\0\n[attr]m text\n!x text", 1, 3, Reason::Negative),
    ] {
        let left_out = matcher.add_attributes(Place::directory(directory), text);
        let told = LeftOut {
            count,
            line,
            reason,
        };
        assert_eq!(left_out, Ok(Some(told)));
    }
}

#[test]
fn attribute_files_are_refused() {
    let mut matcher = matcher_of([":(attr:text)*"]);
    for directory in ["/a", "a//b"] {
        let added = matcher.add_attributes(Place::directory(directory), "* text");
        assert_eq!(added, Err(Error::Directory));
    }
    matcher.add_attributes(Place::Info, "a text").unwrap();
    assert_eq!(matcher.assign("a", "-text"), Err(Error::Mixed));
    assert!(matcher.is_selected("a", false));
    let mut matcher = matcher_of([":(attr:text)*"]);
    matcher.assign("a", "text").unwrap();
    let added = matcher.add_attributes(Place::directory(""), "a -text");
    assert_eq!(added, Err(Error::Mixed));
    assert!(matcher.is_selected("a", false));
}

#[test]
fn lines() {
    let search = Search::builder().build_from_lines("*.c\r\n:!gen").unwrap();
    let matcher = search.matcher().unwrap();
    assert!(matcher.is_selected("a.c", false));
    assert!(!matcher.is_selected("gen/a.c", false));
    let error = Search::builder().build_from_lines("a\n\nb\n").unwrap_err();
    assert_eq!(
        (error.number(), error.kind()),
        (Some(1), Some(FaultKind::Empty))
    );
    // The byte 0 is one like others there.
    let search = Search::builder().build_from_lines(b"a\0b").unwrap();
    let matcher = search.matcher().unwrap();
    assert!(matcher.is_selected("a\0b", false));
    assert!(!matcher.is_selected("a", false));
}

#[test]
fn the_byte_0_is_told() {
    let error = Search::new(["a", "b", "cd\0e"]).unwrap_err();
    assert_eq!(
        error,
        Error::Nul {
            number: 2,
            position: 2
        }
    );
    assert_eq!(error.to_string(), "spec 2: the byte 0 at 2");
    assert_eq!(error.number(), Some(2));
    let error = Search::new(["\0"]).unwrap_err();
    assert_eq!(
        error,
        Error::Nul {
            number: 0,
            position: 0
        }
    );
    // In a path it is a byte like others.
    let matcher = matcher_of(["a"]);
    assert!(!matcher.is_selected("a\0", false));
    assert!(matcher_of(["a*"]).is_selected("a\0b", false));
    assert!(matcher.may_skip("b\0"));
}

#[test]
fn empty_paths() {
    for matcher in [
        matcher_of(["a"]),
        matcher_of([":!a"]),
        matcher_of(no_specs()),
    ] {
        assert!(matcher.is_selected("", true));
        assert!(matcher.is_selected("/", false));
        assert!(!matcher.may_skip(""));
        assert!(matcher.can_match("", true));
    }
}

#[test]
fn bytes_that_are_no_utf_8() {
    let literal = Defaults {
        literal: true,
        ..Defaults::default()
    };
    for byte in 1..=255 {
        let path = [b'x', byte, b'y'];
        let search = Search::builder().defaults(literal).build([path]).unwrap();
        let matcher = search.matcher().unwrap();
        assert!(matcher.is_selected(path, false), "{byte}");
        assert!(matcher.is_selected(OsStr::from_bytes(&path), false));
        assert!(!matcher.is_selected("xy", false));
        // (it ends at a wildcard byte, also where that stands for itself)
        let is_wildcard = b"*?[\\".contains(&byte);
        let prefix = if is_wildcard { &path[..1] } else { &path };
        assert_eq!(search.common_prefix().as_bytes(), prefix);
    }
    let error = Search::new([&b":(\xff)a"[..]]).unwrap_err();
    assert_eq!(error.kind(), Some(FaultKind::InvalidKeyword));
    assert!(error.to_string().ends_with('\u{fffd}'));
}

#[test]
fn many_specs() {
    let matcher = matcher_of((0..100_000).map(|number| format!("{number:06}")));
    assert_eq!(matcher.settle("012345/a", false).unwrap().number, 12_345);
    assert!(!matcher.is_selected("12345", false));
    let specs = (0..100_000).map(|number| match number {
        99_999 => ":(nope)a".to_owned(),
        _ => format!("{number:06}"),
    });
    let error = Search::new(specs).unwrap_err();
    assert_eq!(error.number(), Some(99_999));
}

#[test]
fn a_matcher_outlives_its_search() {
    let search = Search::new(["*.c"]).unwrap();
    let (matcher, other) = (search.matcher().unwrap(), search.share().unwrap());
    drop(search);
    assert!(matcher.is_selected("a.c", false));
    assert!(other.matcher().unwrap().is_selected("a.c", false));
}

/// Asks often, and says whether each answer was right.
fn asks_well(matcher: &Matcher) -> bool {
    (0..20_000).all(|_| {
        matcher.is_selected("src/d/a.c", false) && !matcher.is_selected("src/gen/a.c", false)
    })
}

#[test]
fn threads_ask_at_the_same_time() {
    let search = Search::new([":(glob)src/**/*.c", ":!src/gen"]).unwrap();
    thread::scope(|scope| {
        let threads: Vec<_> = (0..4)
            .map(|_| scope.spawn(|| asks_well(&search.matcher().unwrap())))
            .collect();
        for thread in threads {
            assert!(thread.join().unwrap());
        }
    });
    let threads: Vec<_> = (0..4)
        .map(|_| {
            let other = search.share().unwrap();
            thread::spawn(move || asks_well(&other.matcher().unwrap()))
        })
        .collect();
    drop(search);
    for thread in threads {
        assert!(thread.join().unwrap());
    }
}

#[test]
fn types_go_to_threads() {
    fn is_send<T: Send>() {}
    fn is_sync<T: Sync>() {}
    is_send::<Search>();
    is_sync::<Search>();
    is_send::<Matcher>();
    is_send::<Error>();
    is_sync::<Error>();
}

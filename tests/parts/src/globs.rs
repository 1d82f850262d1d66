//! Globs by tables: what they match, and what brackets hold.
use pathspec_glob::Case::{self, Fold, Sensitive};
use pathspec_glob::Mode::{self, PathAware, Shell};
use pathspec_glob::{Glob, first_wildcard, is_same_byte, is_wildcard, last_byte};
pub(super) use pathspec_parts_tests::rooms::boxed_room;
use std::alloc::{AllocError, Global};
use std::test::Fail;

/// Whether the glob of a pattern matches a text in a new scratch, and how many steps that took.
pub(super) fn answer(
    alloc: Global,
    mode: Mode,
    case: Case,
    pattern: &str,
    text: &[u8],
) -> Result<(bool, u128), AllocError> {
    let glob = Glob::compile(alloc, pattern.as_bytes(), mode)?;
    let mut scratch = boxed_room(alloc, glob.tokens())?;
    let found = glob.matches(text, case, &mut scratch);
    Ok((found, scratch.last_steps()))
}

/// Whether a glob of this pattern matches none of some texts, or each of them.
fn are_all(
    alloc: Global,
    (mode, case, pattern): (Mode, Case, &str),
    texts: &[&str],
    are_matched: bool,
) -> Result<bool, AllocError> {
    for text in texts {
        let (found, _) = answer(alloc, mode, case, pattern, text.as_bytes())?;
        if found != are_matched {
            return Ok(false);
        }
    }
    Ok(true)
}

#[test]
#[rattlefmt::skip]
fn globs_match_as_git_says(rt: HostRuntime) -> Result<(), Fail> {
    // Patterns with their mode and case, texts that they match, and others.
    const ROWS: &[(Mode, Case, &str, &[&str], &[&str])] = &[
        (PathAware, Sensitive, "*.c", &["x.c"], &["d/x.c"]),
        // `**/` stands for nothing only where it is come to.
        (PathAware, Sensitive, "**/**/x", &["x", "a/x", "a/b/c/x"], &["ax", "a/bx"]),
        (PathAware, Sensitive, "**/x*", &["a/xb"], &["ax"]),
        (PathAware, Sensitive, "a/**/b", &["a/b"], &["a/xb"]),
        (PathAware, Sensitive, "a/**/b*c", &["a/bc"], &["a/xbc"]),
        (PathAware, Sensitive, "**/*a*/**", &["b/cad/e"], &["b/c/e"]),
        // `**/*` takes what `**` alone takes, and nothing like it does.
        (PathAware, Sensitive, "**/*", &["", "a/b/c"], &[]),
        (PathAware, Sensitive, "**/*.c", &["x.c", "a/b/x.c"], &["a/x.h"]),
        (PathAware, Sensitive, "a/**/*.c", &["a/x.c"], &["ax.c"]),
        (PathAware, Sensitive, "**\\/*", &["a/b"], &["a"]),
        (PathAware, Sensitive, "**/?", &["a/b"], &["a/bc"]),
        (PathAware, Sensitive, "a**/*", &["ab/c"], &["ab"]),
        (Shell, Sensitive, "**/*", &["a/b/c"], &["a"]),
        // An empty text is taken by stars alone.
        (PathAware, Sensitive, "", &[""], &["a"]),
        (PathAware, Sensitive, "**/**", &[""], &[]),
        (PathAware, Sensitive, "**/", &[""], &[]),
        (PathAware, Sensitive, "*a*", &["a"], &["", "b/a"]),
        (PathAware, Sensitive, "?*", &["a"], &[""]),
        // Brackets between stars tell case apart, or don't.
        (Shell, Sensitive, "*[b-d]*", &["xcx"], &["xCx"]),
        (Shell, Sensitive, "*[!b-d]*", &["bCd"], &["bcd"]),
        (Shell, Sensitive, "*B*", &["aBc"], &["abc"]),
        (Shell, Fold, "*[B-D]*", &["xcx", "xCx"], &["xax"]),
        (Shell, Fold, "*[!b-d]*", &["bad"], &["bCd"]),
        (Shell, Fold, "*b*", &["ABC"], &["AC"]),
    ];
    for (mode, case, pattern, matched, others) in ROWS {
        let glob = (*mode, *case, *pattern);
        let are_right = are_all(rt.alloc(), glob, matched, true)? && are_all(rt.alloc(), glob, others, false)?;
        assert!(rt; are_right, "{pattern}");
    }
    Ok(())
}

/// The bytes that a glob matches alone.
fn matched_bytes(alloc: Global, case: Case, pattern: &str) -> Result<Vec<u8>, AllocError> {
    let mut bytes = Vec::new(alloc);
    for byte in 0..=255 {
        let (found, _) = answer(alloc, Shell, case, pattern, &[byte])?;
        if found {
            bytes.push(byte)?;
        }
    }
    Ok(bytes)
}

#[test]
#[rattlefmt::skip]
fn brackets_hold_what_they_list(rt: HostRuntime) -> Result<(), Fail> {
    // Patterns with their case, and the bytes that they match alone, rising; the classes are those of POSIX, as git has them.
    const ROWS: &[(Case, &str, &str)] = &[
        (Sensitive, "[]x]", "]x"),
        (Sensitive, "[a-c-e]", "-abce"),
        (Sensitive, "[z-a]", "z"),
        (Sensitive, "[a-\\c]", "abc"),
        (Sensitive, "[\\a-c]", "abc"),
        (Sensitive, "[]-a]", "]^_`a"),
        (Sensitive, "[--0]", "-./0"),
        (Sensitive, "[\\]]", "]"),
        (Sensitive, "[[:digit:]-z]", "-0123456789z"),
        (Sensitive, "[\\][:digit:]]", "0123456789]"),
        (Sensitive, "[[:]", ":["),
        (Sensitive, "[[:ab]", ":[ab"),
        (Sensitive, "[[:[:x]", ":[x"),
        (Sensitive, "[[:\\]x]", ":[]x"),
        (Sensitive, "[[:alnum:]]", "0123456789ABCDEFGHIJKLMNOPQRSTUVWXYZabcdefghijklmnopqrstuvwxyz"),
        (Sensitive, "[[:alpha:]]", "ABCDEFGHIJKLMNOPQRSTUVWXYZabcdefghijklmnopqrstuvwxyz"),
        (Sensitive, "[[:blank:]]", "\t "),
        (Sensitive, "[[:cntrl:]]", "\0\x01\x02\x03\x04\x05\x06\x07\x08\t\n\x0b\x0c\r\x0e\x0f\x10\x11\x12\x13\x14\x15\x16\x17\x18\x19\x1a\x1b\x1c\x1d\x1e\x1f\x7f"),
        (Sensitive, "[[:digit:]]", "0123456789"),
        (Sensitive, "[[:lower:]]", "abcdefghijklmnopqrstuvwxyz"),
        (Sensitive, "[[:punct:]]", "!\"#$%&'()*+,-./:;<=>?@[\\]^_`{|}~"),
        (Sensitive, "[[:space:]]", "\t\n\r "),
        (Sensitive, "[[:upper:]]", "ABCDEFGHIJKLMNOPQRSTUVWXYZ"),
        (Sensitive, "[[:xdigit:]]", "0123456789ABCDEFabcdef"),
        (Sensitive, "[[:graph:][:blank:]]", "\t !\"#$%&'()*+,-./0123456789:;<=>?@ABCDEFGHIJKLMNOPQRSTUVWXYZ[\\]^_`abcdefghijklmnopqrstuvwxyz{|}~"),
        (Sensitive, "[[:print:]]", " !\"#$%&'()*+,-./0123456789:;<=>?@ABCDEFGHIJKLMNOPQRSTUVWXYZ[\\]^_`abcdefghijklmnopqrstuvwxyz{|}~"),
        // Without case they hold either form.
        (Fold, "[X-Z1]", "1XYZxyz"),
        (Fold, "[[:upper:]]", "ABCDEFGHIJKLMNOPQRSTUVWXYZabcdefghijklmnopqrstuvwxyz"),
        (Fold, "[[:lower:]]", "ABCDEFGHIJKLMNOPQRSTUVWXYZabcdefghijklmnopqrstuvwxyz"),
        // A bracket that can't be read holds nothing.
        (Sensitive, "[", ""), (Sensitive, "[a", ""), (Sensitive, "[]", ""), (Sensitive, "[]a", ""), (Sensitive, "[\\]", ""),
        (Sensitive, "[a\\", ""), (Sensitive, "[a-", ""), (Sensitive, "[a-\\", ""), (Sensitive, "[[:alpha", ""), (Sensitive, "[[:alpha:]", ""),
        (Sensitive, "[[:foo:]]", ""), (Sensitive, "[[:Alpha:]]", ""), (Sensitive, "[[:alph:]]", ""), (Sensitive, "[[:xdigits:]]", ""),
        (Sensitive, "[[::]]", ""), (Sensitive, "[[:a[:]x]", ""),
    ];
    for (case, pattern, held) in ROWS {
        assert!(rt; matched_bytes(rt.alloc(), *case, pattern)?.as_slice() == held.as_bytes(), "{pattern}");
    }
    Ok(())
}

/// Whether the glob of a pattern takes two texts, and not a third.
fn takes_alike(
    alloc: Global,
    pattern: &str,
    texts: [&str; 2],
    other: &str,
) -> Result<bool, AllocError> {
    let glob = (PathAware, Sensitive, pattern);
    Ok(are_all(alloc, glob, &texts, true)? && are_all(alloc, glob, &[other], false)?)
}

/// Whether `**/` so many times before `x`, alone and behind `*a/`, stands for directories or for nothing each time.
fn is_chain(alloc: Global, count: usize) -> Result<bool, AllocError> {
    let chain = "**/".repeat(alloc, count)?;
    let behind = format!(in alloc; "*a/{chain}x")?;
    let alone = format!(in alloc; "{chain}x")?;
    Ok(
        takes_alike(alloc, &alone, ["x", "b/c/x"], "bx")?
            && takes_alike(alloc, &behind, ["a/x", "ba/b/c/x"], "a/bx")?,
    )
}

// As in gitignore(5), "A leading `**` followed by a slash". Sets of places have 64 in a word.
#[test]
fn chains_of_double_stars_stand_for_nothing(rt: HostRuntime) -> Result<(), Fail> {
    for count in [1, 30, 31, 32, 33, 62, 63, 64, 65] {
        assert!(rt; is_chain(rt.alloc(), count)?, "{count}");
    }
    Ok(())
}

#[test]
fn bytes_of_patterns_are_told(rt: HostRuntime) {
    assert!(rt; last_byte(b"src/*.R") == Some(b'R') && last_byte(b"*.[c]").is_none());
    assert!(rt; first_wildcard(b"ab[") == Some(2) && first_wildcard(b"abc").is_none());
    assert!(rt; is_wildcard(b'\\') && !is_wildcard(b']'));
    assert!(rt; is_same_byte(Fold, b'Z', b'z') && !is_same_byte(Fold, b'@', b'`'));
}

//! What texts and lists of attributes say, how they are written again, and how they are refused.
use crate::errors::error_of;
use bitflags::Flags;
use gix_pathspec::parse::{attributes, parse};
use gix_pathspec::{Defaults, Error, MagicSignature, Pattern, SearchMode};
use pathspec_parts::split::at_first;
use pathspec_test_searches::pattern_of;
use std::alloc::{AllocError, Global};
use std::test::Fail;

/// Whether an error is of this kind and carries what stands in parentheses, as `InvalidKeyword(foo)`.
pub(super) fn is_fault(alloc: Global, error: &Error, want: &[u8]) -> Result<bool, AllocError> {
    let (kind, rest) = at_first(want, b'(');
    let carried = rest.strip_suffix(b")").unwrap_or(rest);
    let is_kind = kind == error.kind().as_bytes();
    Ok(is_kind && *error == error_of(alloc, error.kind(), carried)?)
}

/// Whether a pattern has this long text, which is printed and reads back as the pattern.
pub(super) fn has_long_text(alloc: Global, pattern: &Pattern, want: &[u8]) -> Result<bool, Fail> {
    let again = Pattern::from_bytes(alloc, want, Defaults::default())?;
    Ok(again == *pattern && is_written(alloc, pattern, want)?)
}

/// Whether a pattern is written, and printed, as this text.
fn is_written(alloc: Global, pattern: &Pattern, want: &[u8]) -> Result<bool, Error> {
    Ok(pattern.to_bstring()?.as_bytes() == want && pattern.to_string(alloc)?.as_bytes() == want)
}

/// Whether a text says what has this long text, or has this fault with what that carries, as `InvalidKeyword(foo)`.
fn reads(alloc: Global, text: &str, want: &[u8]) -> Result<bool, Fail> {
    match pattern_of(alloc, text) {
        Ok(pattern) => has_long_text(alloc, &pattern, want),
        Err(error) => Ok(is_fault(alloc, &error, want)?),
    }
}

// Texts that git's documentation names, or that `gix-pathspec` reads so.
#[test]
#[rattlefmt::skip]
fn texts_are_written_again_or_refused(rt: HostRuntime) -> Result<(), Fail> {
    const ROWS: &[(&str, &[u8])] = &[
        // Short magic and long magic.
        (":", b":"), (":^", b":(exclude)"), ("/", b":()/"), (":/:a", b":(top)a"), (":!a/", b":(exclude)a/"), (":()", b":()"),
        (":!(top)x", b":(top,exclude)x"), ("::(top)x", b":(top)x"), (":(top)(icase)x", b":(top)(icase)x"), (":(top):x)", b":(top):x)"),
        (":/!:(icase)x", b":(top,exclude,icase)x"), (":(icase,exclude)a/", b":(exclude,icase)a/"), (":(glob)a*", b":(glob)a*"),
        // Attributes and a prefix directory.
        (":(attr: )x", b":()x"), (":(attr:a b)x", b":(attr:a b)x"), (":(attr:a=x\\,y)p", b":(attr:a=x\\,y)p"),
        (":(glob,top,attr:a -b !c d=v)p/", b":(top,glob,attr:a -b !c d=v)p/"),
        (":(prefix:0012)abcdefghijkl/m", b":(prefix:12)abcdefghijkl/m"), (":(prefix:3)[x]/y", b":(prefix:3)[x]/y"),
        (":(prefix:18446744073709551616,prefix:1)a/b", b":(prefix:1)a/b"), (":!(prefix:1)a/b", b":(exclude,prefix:1)a/b"),
        // The part at fault.
        ("", b"Empty"), (":!!\"", b"UnimplementedShort(\")"), (":~", b"UnimplementedShort(~)"), (":!(", b"MissingParen(:!()"),
        (":( top)x", b"InvalidKeyword( top)"), (":(Top)x", b"InvalidKeyword(Top)"), (":(prefix:9", b"MissingParen(:(prefix:9)"),
        (":(attr:a,attr:)x", b"SecondAttributes(attr:)"), (":(attr:a,prefix:x,attr:b)a", b"InvalidPrefix(prefix:x)"),
        (":(prefix: 1)a/b", b"InvalidPrefix(prefix: 1)"), (":(prefix:1k)a/b", b"InvalidPrefix(prefix:1k)"),
        (":(prefix:0x1)a/b", b"InvalidPrefix(prefix:0x1)"), (":(prefix:１)a/b", b"InvalidPrefix(prefix:\xef\xbc\x91)"),
        (":(prefix:340282366920938463463374607431768211457)a", b"InvalidPrefix(prefix:340282366920938463463374607431768211457)"),
        // A number that is no boundary is told last.
        (":(prefix:9,literal,glob)x", b"LiteralWithGlob(glob)"), (":(prefix:9,attr:--1)x", b"InvalidName(-1)"),
        (":(prefix:9,attr:a=b=c)x", b"InvalidValueByte(=)"), (":(prefix:9,attr:)x", b"EmptyAttributes"),
    ];
    for (text, want) in ROWS {
        assert!(rt; reads(rt.alloc(), text, want)?, "{text}");
    }
    Ok(())
}

/// Whether a list says the attributes of what has this long text, or has this fault.
fn lists(alloc: Global, list: &str, want: &[u8]) -> Result<bool, Fail> {
    match attributes(alloc, list.as_bytes()) {
        Ok(found) => {
            let mut pattern = Pattern::new(alloc);
            pattern.attributes = found;
            Ok(pattern.to_bstring()?.as_bytes() == want)
        }
        Err(error) => Ok(is_fault(alloc, &error, want)?),
    }
}

// As gitattributes(5) writes attributes, with backslashes as git reads them.
#[test]
#[rattlefmt::skip]
fn lists_say_assignments_or_are_refused(rt: HostRuntime) -> Result<(), Fail> {
    const ROWS: &[(&str, &[u8])] = &[
        (" a  b ", b":(attr:a b)"), ("a=\\x\\-\\_\\9", b":(attr:a=x-_9)"), ("!", b":(attr:!)"), ("a a", b":(attr:a a)"),
        ("A.b-c_9", b":(attr:A.b-c_9)"), ("a=. -", b"InvalidValueByte(.)"), ("!-a", b"InvalidName(-a)"), ("a\tb", b"InvalidName(a\tb)"),
        ("a=x\\ b=.", b"TrailingEscape(x\\)"), ("a b! c=.", b"InvalidName(b!)"),
    ];
    for (list, want) in ROWS {
        assert!(rt; lists(rt.alloc(), list, want)?, "{list}");
    }
    Ok(())
}

#[test]
fn defaults_fill_in(rt: HostRuntime) -> Result<(), Fail> {
    let defaults = Defaults {
        signature: MagicSignature::ICASE,
        search_mode: SearchMode::PathAwareGlob,
        literal: false,
    };
    let pattern = parse(rt.alloc(), b":/a", defaults)?;
    assert!(rt; pattern.signature.bits() == 3 && pattern.search_mode == SearchMode::PathAwareGlob);
    assert!(rt;
        pattern.path().as_bytes() == b"a".as_slice() && pattern.prefix_directory().is_empty()
    );
    Ok(())
}

#[test]
fn other_bytes_are_printed_lossily(rt: HostRuntime) -> Result<(), Fail> {
    let pattern = Pattern::from_bytes(rt.alloc(), b"a\xff", Defaults::default())?;
    let printed = pattern.to_string(rt.alloc())?;
    assert_eq!(rt; printed.as_str(), ":()a\u{fffd}");
    Ok(())
}

/// Whether the number that a digit a million times and 1 are asks for this prefix directory, or none where it is no boundary.
fn asks_for(alloc: Global, digit: &str, directory: Option<&str>) -> Result<bool, Fail> {
    let digits = digit.repeat(alloc, 1_000_000)?;
    let text = format!(in alloc; ":(prefix:{digits}1)a/b")?;
    match (pattern_of(alloc, &text), directory) {
        (Ok(pattern), Some(directory)) => Ok(
            pattern.prefix_directory().as_bytes() == directory.as_bytes(),
        ),
        (Err(error), None) => Ok(error.kind() == "InvalidPrefix"),
        _ => Ok(false),
    }
}

#[test]
fn a_million_digits_are_read(rt: HostRuntime) -> Result<(), Fail> {
    assert!(rt; asks_for(rt.alloc(), "0", Some("a"))? && asks_for(rt.alloc(), "9", None)?);
    Ok(())
}

//! Hostile texts and fields: all of these are answered as the definitions say, and none is a new refusal.
use crate::searches::{is_written, search_of_one};
use bitflags::Flags;
use bstr::BStr;
use gix_pathspec::search::MatchKind;
use gix_pathspec::{Defaults, Error, MagicSignature, Pattern, Search, parse};
use pathspec_parts::attributes::StateRef;
use pathspec_test_searches::pattern_of;
use pathspec_test_support::look_ups::{Marks, listed};
use std::alloc::Global;
use std::test::Fail;

/// Whether the one spec of a search matches a file in this way, and takes it out or not.
fn is_matched(
    search: &mut Search,
    path: &[u8],
    want: Option<MatchKind>,
    is_excluded: bool,
) -> Result<bool, Fail> {
    let path = BStr::new(path);
    match search.pattern_matching_relative_path(path, Some(false), &mut Marks::new())? {
        Some(found) => Ok(
            want == Some(found.kind)
                && found.sequence_number == 0
                && found.is_excluded() == is_excluded,
        ),
        None => Ok(want.is_none()),
    }
}

/// Whether the search of a spec, which is any bytes, matches a file so.
fn is_match(
    alloc: Global,
    spec: &[u8],
    path: &[u8],
    want: Option<MatchKind>,
) -> Result<bool, Fail> {
    let mut search = search_of_one(
        alloc,
        Pattern::from_bytes(alloc, spec, Defaults::default())?,
    )?;
    is_matched(&mut search, path, want, false)
}

#[test]
#[rattlefmt::skip]
fn brackets_may_stay_open_and_bytes_be_no_text(rt: HostRuntime) -> Result<(), Fail> {
    const WILDCARD: Option<MatchKind> = Some(MatchKind::WildcardMatch);
    const VERBATIM: Option<MatchKind> = Some(MatchKind::Verbatim);
    const ROWS: &[(&[u8], &[u8], Option<MatchKind>)] = &[
        (b"[[:alpha", b"[[:alpha", VERBATIM), (b"[[:alpha", b"a", None), (b"[[:]x]", b"[x]", WILDCARD), (b"[[:]x]", b"x", None),
        (b"[[::]x]", b":x]", None), (b"a?b", b"a\0b", WILDCARD), (b"a?", b"a\xff", WILDCARD), (b"a?", b"a\xc3\xa4", None),
    ];
    for (spec, path, want) in ROWS {
        assert!(rt; is_match(rt.alloc(), spec, path, *want)?, "{spec:?}");
    }
    let text = "[".repeat(rt.alloc(), 1_000)?;
    assert!(rt; is_match(rt.alloc(), text.as_bytes(), text.as_bytes(), VERBATIM)?);
    Ok(())
}

/// An attribute by its name, with the state that it has to have.
type Attribute<'a> = (&'a str, StateRef<'a>);

/// The pattern of a text, with these bits of its signature and this attribute.
fn by_hand(
    alloc: Global,
    text: &str,
    bits: u32,
    attribute: Option<Attribute<'_>>,
) -> Result<Pattern, Error> {
    let mut pattern = pattern_of(alloc, text)?;
    pattern.signature = MagicSignature::from_bits_retain(bits);
    if let Some(attribute) = attribute {
        pattern.attributes = listed(alloc, &[attribute])?;
    }
    Ok(pattern)
}

/// Whether a pattern has this long text, and isn't that of this text.
fn is_made(alloc: Global, pattern: &Pattern, text: &str, long: &str) -> Result<bool, Error> {
    Ok(*pattern != pattern_of(alloc, text)? && is_written(pattern, long)?)
}

/// A path, whether something at or below a directory there can match, and how a pattern matches a file there.
type Found<'a> = (&'a str, bool, Option<MatchKind>);

/// Whether a search of a pattern alone answers so.
fn is_found(alloc: Global, pattern: Pattern, (path, can, want): Found<'_>) -> Result<bool, Fail> {
    let is_excluded = pattern.is_excluded();
    let mut search = search_of_one(alloc, pattern)?;
    let can_match = search.can_match_relative_path(BStr::new(path.as_bytes()), Some(true));
    Ok(can_match == can && is_matched(&mut search, path.as_bytes(), want, is_excluded)?)
}

/// The bit of an exclude, and one that has no meaning.
const EXCLUDE: u32 = 4;

const UNKNOWN: u32 = 256;

/// The attribute that a look-up of the tests gives to the path `x`.
const GEN: Option<Attribute<'_>> = Some(("gen", StateRef::Set));

/// A value with a space, which no list can say.
const SPACED: Option<Attribute<'_>> = Some(("a", StateRef::Value(b"x y")));

#[test]
#[rattlefmt::skip]
fn fields_may_be_set_by_hand(rt: HostRuntime) -> Result<(), Fail> {
    // A text, the bits of its signature, an attribute, the long text, and what a search answers.
    const ROWS: &[(&str, u32, Option<Attribute<'_>>, &str, Found<'_>)] = &[
        // A nil spec may be an exclude, and have attributes.
        (":", EXCLUDE, None, ":", ("x", false, Some(MatchKind::Always))),
        (":", 0, GEN, ":", ("x", true, Some(MatchKind::Always))),
        (":", 0, GEN, ":", ("y", true, None)),
        // Unknown bits are not written, and tell specs apart.
        ("x", UNKNOWN, None, ":()x", ("x/y", true, Some(MatchKind::Prefix))),
        ("p", 0, SPACED, ":(attr:a=x y)p", ("p", true, None)),
    ];
    for (text, bits, attribute, long, found) in ROWS {
        let pattern = by_hand(rt.alloc(), text, *bits, *attribute)?;
        assert!(rt; is_made(rt.alloc(), &pattern, text, long)? && is_found(rt.alloc(), pattern, *found)?, "{text} {bits}");
    }
    Ok(())
}

#[test]
fn a_value_with_a_space_reads_back_as_two(rt: HostRuntime) -> Result<(), Fail> {
    let read = pattern_of(rt.alloc(), ":(attr:a=x y)p")?;
    let listed = parse::attributes(rt.alloc(), b"a=x y")?;
    assert!(rt; listed.len() == 2 && read.attributes.as_slice() == listed.as_slice());
    Ok(())
}

#[test]
fn a_literal_keeps_its_slash_beside_that_of_a_directory(rt: HostRuntime) -> Result<(), Fail> {
    let pattern = Pattern::from_literal(rt.alloc(), b"a/", MagicSignature::MUST_BE_DIR)?;
    assert!(rt; is_written(&pattern, ":(literal)a//")?);
    Ok(())
}

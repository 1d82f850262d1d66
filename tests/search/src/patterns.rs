//! Patterns that are made, compared and asked about their paths; flags, search modes and defaults.
use bitflags::Flags;
use bstr::BStr;
use gix_pathspec::{Defaults, MagicSignature, Pattern, SearchMode};
use parts::orders::{assert_rising, is_placed};
use pathspec_test_searches::{pattern_of, search_of};
use std::alloc::Global;
use std::test::Fail;

/// Whether a pattern is the exclude of the path `a*/`, to be compared as it is.
fn is_literal_exclude(pattern: &Pattern) -> bool {
    pattern.path() == BStr::new(b"a*/")
        && pattern.search_mode == SearchMode::Literal
        && pattern.is_excluded()
        && pattern.has_wildcard()
        && !pattern.is_glob()
        && !pattern.is_nil()
        && !pattern.always_matches()
}

#[test]
fn patterns_are_made(rt: HostRuntime) -> Result<(), Fail> {
    let mut pattern = Pattern::from_literal(rt.alloc(), b"a*/", MagicSignature::EXCLUDE)?;
    assert!(rt; is_literal_exclude(&pattern));
    pattern.search_mode = SearchMode::ShellGlob;
    assert!(rt; pattern.is_glob());
    assert!(rt; Pattern::new(rt.alloc()) == pattern_of(rt.alloc(), "::")?);
    Ok(())
}

/// Texts of patterns in rising order, one for each field, with the directory that it is given in. A pattern has the higher of
/// two values in its field, and the lower one in all fields before it.
const RISING: &[(&str, &str)] = &[
    ("a/b", ""),
    ("b", "a"),
    (":", "a/b"),
    (":(attr:a)a/b", ""),
    (":(literal)a/b", ""),
    (":(top)a/b", ""),
    ("a/c", ""),
];

/// Patterns in rising order.
fn rising(alloc: Global) -> Result<Vec<Pattern>, Fail> {
    let mut patterns = Vec::new(alloc);
    for (text, prefix) in RISING {
        for pattern in Box::into_inner(search_of(alloc, &[*text], prefix)?).into_patterns() {
            patterns.push(pattern)?;
        }
    }
    Ok(patterns)
}

#[test]
fn patterns_are_compared_field_by_field(rt: HostRuntime) -> Result<(), Fail> {
    let (values, others) = (rising(rt.alloc())?, rising(rt.alloc())?);
    assert_rising(&values, &others)?;
    Ok(())
}

/// Signatures in rising order.
const SIGNATURES: &[MagicSignature] = &[
    MagicSignature::TOP,
    MagicSignature::ICASE,
    MagicSignature::EXCLUDE,
    MagicSignature::MUST_BE_DIR,
];

/// Modes in rising order.
const MODES: &[SearchMode] = &[
    SearchMode::ShellGlob,
    SearchMode::Literal,
    SearchMode::PathAwareGlob,
];

#[test]
fn signatures_and_modes_are_ordered_by_their_bits_and_places() -> Result<(), Fail> {
    assert_rising(SIGNATURES, SIGNATURES)?;
    assert_rising(MODES, MODES)
}

#[test]
fn signatures_keep_bits_that_are_no_flag(rt: HostRuntime) {
    let both = MagicSignature::TOP.union(MagicSignature::EXCLUDE);
    assert!(rt; both.bits() == 5 && both.contains(MagicSignature::EXCLUDE));
    assert!(rt; !both.contains(MagicSignature::ICASE));
    assert!(rt; MagicSignature::from_name("ICASE") == Some(MagicSignature::ICASE));
    assert!(rt; MagicSignature::from_name("top").is_none());
    let unknown = MagicSignature::from_bits_retain(256);
    assert!(rt; unknown.bits() == 256 && MagicSignature::from_bits(256).is_none());
}

/// Defaults in rising order.
#[rattlefmt::skip]
const DEFAULTS: &[Defaults] = &[
    Defaults { signature: MagicSignature::TOP, search_mode: SearchMode::ShellGlob, literal: false },
    Defaults { signature: MagicSignature::TOP, search_mode: SearchMode::ShellGlob, literal: true },
    Defaults { signature: MagicSignature::TOP, search_mode: SearchMode::Literal, literal: false },
    Defaults { signature: MagicSignature::TOP, search_mode: SearchMode::PathAwareGlob, literal: true },
    Defaults { signature: MagicSignature::ICASE, search_mode: SearchMode::ShellGlob, literal: false },
    Defaults { signature: MagicSignature::ICASE, search_mode: SearchMode::Literal, literal: false },
];

#[test]
fn defaults_are_compared_field_by_field(rt: HostRuntime) {
    for (place, defaults) in DEFAULTS.iter().enumerate() {
        assert!(rt; is_placed(place, defaults, DEFAULTS), "{place}");
    }
}

#[test]
fn defaults_ask_for_nothing(rt: HostRuntime) {
    let defaults = Defaults::default();
    assert!(rt; defaults.signature == MagicSignature::empty() && !defaults.literal);
    assert!(rt; defaults.search_mode == SearchMode::default());
    assert!(rt; SearchMode::default() == SearchMode::ShellGlob);
}

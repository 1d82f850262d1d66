//! The kinds and the texts of the errors of reading and normalising.
use gix_pathspec::Error;
use std::alloc::{AllocError, Global};
use std::test::Fail;

/// The error of a kind that carries these bytes, or their first.
pub(super) fn error_of(alloc: Global, kind: &str, carried: &[u8]) -> Result<Error, AllocError> {
    let bytes = Vec::from_slice(alloc, carried)?;
    let byte = carried.first().copied().unwrap_or(0);
    Ok(match kind {
        "Empty" => Error::Empty,
        "UnimplementedShort" => Error::UnimplementedShort(byte),
        "EmptyAttributes" => Error::EmptyAttributes,
        "InvalidValueByte" => Error::InvalidValueByte(byte),
        "GlobAndNoGlob" => Error::GlobAndNoGlob,
        "MissingParen" => Error::MissingParen(bytes),
        "InvalidKeyword" => Error::InvalidKeyword(bytes),
        "LiteralWithGlob" => Error::LiteralWithGlob(bytes),
        "SecondAttributes" => Error::SecondAttributes(bytes),
        "InvalidPrefix" => Error::InvalidPrefix(bytes),
        "InvalidName" => Error::InvalidName(bytes),
        "TrailingEscape" => Error::TrailingEscape(bytes),
        "OutsideRoot" => Error::OutsideRoot(bytes),
        "LeavesRepository" => Error::LeavesRepository(bytes),
        "NotTruth" => Error::NotTruth(bytes),
        _ => Error::Memory,
    })
}

#[test]
#[rattlefmt::skip]
fn errors_have_a_kind_and_a_text(rt: HostRuntime) -> Result<(), Fail> {
    // A kind, the bytes that its error carries, and the error's text.
    const ROWS: &[(&str, &[u8], &str)] = &[
        ("Empty", b"", "an empty string is not a valid pathspec"),
        ("UnimplementedShort", b"#", "unimplemented short keyword: '#'"),
        ("EmptyAttributes", b"", "attribute list is empty"),
        ("InvalidValueByte", b"\\", "invalid byte in attribute value: '\\\\'"),
        ("GlobAndNoGlob", b"", "glob and no-glob settings are incompatible"),
        ("Memory", b"", "out of memory"),
        ("MissingParen", b":(top", "missing ')' at the end of pathspec magic in :(top"),
        ("InvalidKeyword", b"foo", "found an unknown keyword in long magic: foo"),
        ("LiteralWithGlob", b"glob", "'literal' and 'glob' are incompatible: glob"),
        ("SecondAttributes", b"attr:b", "only one attribute list is allowed: attr:b"),
        ("InvalidPrefix", b"prefix:x", "invalid prefix length: prefix:x"),
        ("InvalidName", b"-1", "invalid attribute name: -1"),
        ("TrailingEscape", b"x\\", "escape at the end of attribute value: x\\"),
        ("OutsideRoot", b"/a", "path is not inside of the repository: /a"),
        ("LeavesRepository", b"..", "path leaves the repository: .."),
        ("NotTruth", b"maybe", "not a boolean: maybe"),
    ];
    for (kind, carried, text) in ROWS {
        let error = error_of(rt.alloc(), kind, carried)?;
        assert!(rt; error.kind() == *kind && error.to_string(rt.alloc())?.as_str() == *text, "{kind}");
    }
    Ok(())
}

//! The examples in the READMEs of `pathspec_glob`, `pathspec_pattern` and `gix_pathspec`.
use bstr::BStr;
use gix_pathspec::{BuildError, Defaults, Pattern, Search};
use pathspec_parts::attributes::Case;
use pathspec_parts::glob::{Glob, Mode, Scratch};
use std::test::Fail;

#[test]
fn the_glob_runs(rt: HostRuntime) -> Result<(), Fail> {
    let alloc = rt.alloc();
    let glob = Glob::compile(alloc, b"src/**/*.rs", Mode::PathAware)?;
    let mut scratch = Scratch::for_tokens(alloc, glob.tokens())?;
    if glob.fits(&scratch) {
        assert!(rt; glob.matches(b"src/parse/cut.rs", Case::Sensitive, &mut scratch));
        assert!(rt; !glob.matches(b"src.rs", Case::Sensitive, &mut scratch));
    }
    Ok(())
}

#[test]
fn the_stored_spec_reads_back(rt: HostRuntime) -> Result<(), Fail> {
    let alloc = rt.alloc();
    let mut spec = Pattern::from_bytes(alloc, b":(icase)B", Defaults::default())?;
    spec.normalize(BStr::new(b"a"), BStr::new(b""))?;
    let stored = spec.to_bstring()?;
    assert!(rt; stored.as_bytes() == b":(icase,prefix:1)a/B".as_slice());
    let read = Pattern::from_bytes(alloc, stored.as_bytes(), Defaults::default())?;
    assert!(rt; read == spec);
    Ok(())
}

#[test]
fn the_lines_are_at_fault(rt: HostRuntime) {
    let alloc = rt.alloc();
    let (source, top) = (BStr::new(b"specs"), BStr::new(b""));
    let text = b"*.md\n:(foo)x\n";
    let built = Search::from_lines(alloc, text, source, Defaults::default(), None, top);
    assert!(rt; matches!(&built, Err(BuildError::Spec(1, _))));
}

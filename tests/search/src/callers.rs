//! The callers that the pages show, a call each.
use bstr::{BStr, BString};
use pathspec_callers::lines::{LinesError, search_of_file};
use pathspec_callers::search::count_selected;
use pathspec_callers::store::search_and_stored;
use pathspec_test_searches::search_of_line;
use pathspec_test_support::look_ups::Marks;
use std::alloc::Global;
use std::test::Fail;

#[test]
fn a_search_is_made_again_of_what_is_stored(rt: HostRuntime) -> Result<(), Fail> {
    let mut texts = Vec::new(rt.alloc());
    texts.push(BString::from_slice(rt.alloc(), b":(icase)B")?)?;
    let top = BStr::new(b"");
    let (search, again) = search_and_stored(rt.alloc(), texts.as_slice(), top, top)?;
    assert!(rt; search.patterns().len() == 1 && again.patterns().len() == 1);
    Ok(())
}

/// How many of these files a search of the words of a line selects.
fn count(alloc: Global, line: &str, files: &[&[u8]]) -> Result<usize, Fail> {
    let search = search_of_line(alloc, line, "")?;
    let mut scratch = Box::new(alloc, search.new_scratch(alloc)?)?;
    if !search.fits(&scratch) {
        return Err("the scratch doesn't fit the search".into());
    }
    Ok(count_selected(&search, files, &mut scratch, &mut Marks::new())?)
}

#[test]
fn files_in_one_scratch_are_counted(rt: HostRuntime) -> Result<(), Fail> {
    assert!(rt;
        count(
            rt.alloc(),
            ":(attr:gen)x a :!*.c",
            &[b"x", b"a/t.c", b"a/x", b"q"]
        )? == 2
    );
    Ok(())
}

/// Whether this is the report on the file `specs` with this text.
fn reports(alloc: Global, text: &[u8], want: &[u8]) -> bool {
    let (name, top) = (BStr::new(b"specs"), BStr::new(b""));
    match search_of_file(alloc, name, text, top, top) {
        Ok(_) => false,
        Err(LinesError::Report(report)) => report.as_bytes() == want,
        Err(LinesError::Memory) => false,
    }
}

#[test]
fn the_line_at_fault_is_reported(rt: HostRuntime) {
    assert!(rt; reports(rt.alloc(), b"a\nb\n:(foo)c\n", b"specs:3: InvalidKeyword"));
}

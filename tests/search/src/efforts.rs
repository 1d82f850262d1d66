//! How many specs a match asks, and how many heads it compares.
use crate::searches::{Settled, Texts, nested, search_of_many, settled};
use gix_pathspec::Search;
use gix_pathspec::search::MatchKind;
use pathspec_test_searches::search_of_line;
use std::alloc::Global;
use std::test::Fail;

/// The number and the kind of a match, if there is one, and how many specs it asked.
type Told = (Settled, usize);

/// Matches a file.
fn told(search: &mut Search, path: &str) -> Result<Told, Fail> {
    let settled = settled(search, path.as_bytes(), Some(false))?;
    Ok((settled, search.last_tested()))
}

/// How many heads may be compared where there are so many specs: as many as the number has binary digits, and two.
fn most_compared(specs: usize) -> u128 {
    u128::from(usize::BITS.saturating_sub(specs.leading_zeros())).saturating_add(2)
}

/// Whether the last match compared some heads where it asked some specs, and no more than it may.
fn compares_few(search: &Search) -> bool {
    let compared = search.last_compared();
    let some = if search.last_tested() == 0 { 0 } else { 1 };
    some <= compared && compared <= most_compared(search.patterns().len())
}

/// The texts in a line, the directory that they are given in, a file, the match, and how many specs are asked.
type Asks<'a> = (&'a str, &'a str, &'a str, Settled, usize);

/// Asserts what the first match of each row tells.
fn assert_asks(alloc: Global, rows: &[Asks<'_>]) -> Result<(), Fail> {
    for (line, prefix, path, want, count) in rows {
        let mut search = search_of_line(alloc, line, prefix)?;
        let is_settled_early = search.last_tested() == 0 && search.last_compared() == 0;
        let (found, tested) = told(&mut search, path)?;
        if !is_settled_early || found != *want || tested != *count || !compares_few(&search) {
            return Err(Fail::new(format_args!("{line} {path}")));
        }
    }
    Ok(())
}

const PREFIX: MatchKind = MatchKind::Prefix;

const VERBATIM: MatchKind = MatchKind::Verbatim;

const WILDCARD: MatchKind = MatchKind::WildcardMatch;

const ALWAYS: MatchKind = MatchKind::Always;

#[test]
#[rattlefmt::skip]
fn the_specs_whose_head_begins_the_path_are_asked_up_to_the_first_match(rt: HostRuntime) -> Result<(), Fail> {
    const ROWS: &[Asks<'_>] = &[
        ("a/x a/y b :!a/x/z", "", "a/x/q", Some((0, PREFIX)), 1),
        ("a/x a/y b :!a/x/z", "", "a/x/z", Some((3, VERBATIM)), 1),
        ("a/x a/y b :!a/x/z", "", "a/yy", None, 1),
        ("a/x a/y b :!a/x/z", "", "c", None, 0),
        ("a/x a/y b :!a/x/z", "", "", Some((0, ALWAYS)), 0),
        ("*.c *.c *.h a", "", "a", Some((3, VERBATIM)), 4),
        ("a a/b a/b/c :!a/b/c/d *", "", "a/b/c/d", Some((3, VERBATIM)), 1),
        (":!a/b/x :!a/b a", "", "a/b/c", Some((1, PREFIX)), 1),
        // Of excludes alone those that fit are asked.
        (":!a :!a/b :!b", "", "a/b", Some((0, PREFIX)), 1),
        (":!a :!a/b :!b", "", "ab", Some((3, ALWAYS)), 1),
        (":!a", "d", "a", Some((1, ALWAYS)), 0),
        // Specs without case stand at their prefix directory.
        (":(icase)A :(icase)B", "", "c", None, 2),
        (":(icase)A :(icase)B", "d", "d/b", Some((1, VERBATIM)), 2),
        (":(icase)A :(icase)B", "d", "D/b", None, 0),
        (":(icase)A :(top)d", "d", "d/b", Some((1, PREFIX)), 2),
        // A spec that the last byte of the path rules out is asked, too. A head and a tail take no byte twice.
        ("*.rs *.md", "", "a.c", None, 2),
        ("*.rs *.md", "", "a.md", Some((1, WILDCARD)), 2),
        ("*.rs src :!*.h", "", "src/a.c", Some((1, PREFIX)), 3),
        ("*.rs src :!*.h", "", "src/a.h", Some((2, WILDCARD)), 1),
        ("src*.c src*.h", "", "src", None, 2),
        ("a*a", "", "a", None, 1),
        (":(icase)*.RS *.md", "", "a.rS", Some((0, WILDCARD)), 1),
        (":(icase,glob)**/T*.c", "", "a/t.C", Some((0, WILDCARD)), 1),
        // So is one without case that the first byte rules out. Only letters have another case.
        (":(icase)src :(icase)docs", "", "a.c", None, 2),
        (":(icase)src :(icase)docs", "", "Docs", Some((1, VERBATIM)), 2),
        ("a :(icase,exclude)B", "", "a/x", Some((0, PREFIX)), 2),
        (":(icase)?rc", "", "SRC", Some((0, WILDCARD)), 1),
        (":(icase)b :", "", "a", Some((1, ALWAYS)), 2),
        (":(icase)@a", "", "`a", None, 1),
        (":(icase){a", "", "[a", None, 1),
    ];
    assert_asks(rt.alloc(), ROWS)
}

// What is selected is what `git ls-files` lists of an index with the path alone; there the prefix of the last row has 5 bytes.
#[test]
#[rattlefmt::skip]
fn the_text_of_a_glob_is_found_whatever_its_end(rt: HostRuntime) -> Result<(), Fail> {
    const ROWS: &[Asks<'_>] = &[
        ("*.rs", "", "*.rs", Some((0, WILDCARD)), 1),
        ("*.rs", "", "*.rs/a.c", Some((0, PREFIX)), 1),
        ("*.rs", "", "*.rsx", None, 1),
        ("*.rs", "", "a.rs/b.c", None, 1),
        ("*.rs/", "", "*.rs/a.c", Some((0, PREFIX)), 1),
        ("*.rs/", "", "a.rs", None, 1),
        ("src/*.rs", "", "src/*.rs/x", Some((0, PREFIX)), 1),
        ("src/*.rs", "", "src/a.rs/x", None, 1),
        (":(glob)src/**/*.rs", "", "src/**/*.rs/x", Some((0, PREFIX)), 1),
        ("a[b]*.d", "", "a[b]*.d/e", Some((0, PREFIX)), 1),
        ("a[b]*.d", "", "ab.d/e", None, 1),
        ("a?*.d", "", "a?*.d/e", Some((0, PREFIX)), 1),
        ("a\\b*.d", "", "a\\b*.d/e", Some((0, PREFIX)), 1),
        // Excludes stand in front, and other heads may begin the path further.
        ("src :!src/*.rs", "", "src/*.rs/a.c", Some((1, PREFIX)), 1),
        ("src :!src/*.rs", "", "src/a.c", Some((0, PREFIX)), 2),
        ("*.rs src :!*.c", "", "src/*.c/a.rs", Some((0, WILDCARD)), 2),
        // The head of a literal spec, too, ends before its first wildcard.
        ("*.rs :(literal)*.rs/a", "", "*.rs/a/b.c", Some((0, PREFIX)), 1),
        ("*.rs :(literal)a*b", "", "a*b/c", Some((1, PREFIX)), 2),
        // The directory that specs are given in may have a wildcard, and so the head of a spec without case.
        ("*.rs *.md", "a*b", "a*b/x.md", Some((1, WILDCARD)), 2),
        (":(icase)C *.rs", "a*b", "a*b/c", Some((0, WILDCARD)), 1),
        (":(icase)C *.rs", "a*b", "a*b/*.rs/x", Some((1, PREFIX)), 2),
        (":(icase)C :(top)*.rs", "*.rs", "*.rs/x.c", Some((1, PREFIX)), 2),
        (":(icase,prefix:4)*.rs/C *.rs", "", "*.rs/x.c", Some((1, PREFIX)), 2),
    ];
    assert_asks(rt.alloc(), ROWS)
}

/// A file and its match. The file lies in so many directories `a`, each in the one before it, and has this path in the last.
/// The match compares so many heads, or with None few.
type Telling<'a> = (u32, &'a str, Told, Option<u128>);

/// Asserts what matches tell, one after the other, in a search of so many specs.
fn assert_tells(
    alloc: Global,
    count: u32,
    texts: Texts<'_>,
    rows: &[Telling<'_>],
) -> Result<(), Fail> {
    let mut search = search_of_many(alloc, count, texts)?;
    for (number, telling) in rows.iter().enumerate() {
        if !is_told(alloc, &mut search, telling)? {
            return Err(Fail::new(format_args!("match {number} of {count}")));
        }
    }
    Ok(())
}

/// Whether a match tells this.
fn is_told(alloc: Global, search: &mut Search, telling: &Telling<'_>) -> Result<bool, Fail> {
    let (depth, text, want, heads) = *telling;
    let told = told(search, nested(alloc, depth, text)?.as_str())?;
    let are_few = match heads {
        Some(heads) => search.last_compared() == heads,
        None => compares_few(search),
    };
    Ok(told == want && are_few)
}

#[test]
fn paths_near_the_head_of_the_last_compare_one(rt: HostRuntime) -> Result<(), Fail> {
    const ROWS: &[Telling<'_>] = &[
        (0, "d999/f", (Some((999, VERBATIM)), 1), None),
        (0, "e", (None, 0), None),
        (0, "d7/f", (Some((7, VERBATIM)), 1), None),
        (0, "d7/f", (Some((7, VERBATIM)), 1), Some(1)),
        (0, "d7/f/a", (Some((7, PREFIX)), 1), Some(1)),
        (0, "d7/fa", (None, 1), Some(1)),
        (0, "d7/g", (None, 0), Some(1)),
    ];
    assert_tells(rt.alloc(), 1000, Texts::Files, ROWS)
}

#[test]
fn specs_of_one_head_are_compared_once(rt: HostRuntime) -> Result<(), Fail> {
    const DIRECTORIES: &[Telling<'_>] = &[
        (0, "a/b/c", (Some((0, PREFIX)), 1), Some(1)),
        (0, "a/b", (None, 10_000), Some(1)),
        (0, "a/c", (None, 0), Some(0)),
    ];
    // Globs stand in a set, which is asked of no path with a wildcard byte right behind its head.
    const GLOBS: &[Telling<'_>] = &[
        (0, "a/bc", (Some((0, WILDCARD)), 1), Some(1)),
        (0, "a/b", (None, 0), Some(1)),
        (0, "a/b?", (None, 65), None),
        (0, "a/c", (None, 0), Some(0)),
    ];
    assert_tells(rt.alloc(), 10_000, Texts::Same("a/b/"), DIRECTORIES)?;
    // A word of places has 64.
    assert_tells(rt.alloc(), 65, Texts::Same("a/b*c"), GLOBS)?;
    assert_tells(
        rt.alloc(),
        65,
        Texts::Same("*.rs"),
        &[(0, "a.c", (None, 0), None), (0, "?.c", (None, 65), None)],
    )
}

#[test]
fn heads_may_begin_one_another_a_thousand_times(rt: HostRuntime) -> Result<(), Fail> {
    const NAMES: &[Telling<'_>] = &[
        (1001, "b", (Some((0, PREFIX)), 1), None),
        (0, "a/a", (Some((998, VERBATIM)), 1), None),
        (0, "a/b", (Some((999, PREFIX)), 1), None),
    ];
    const GLOBS: &[Telling<'_>] = &[
        (1001, "b", (None, 1000), None),
        (1001, "b.c", (Some((0, WILDCARD)), 1), None),
    ];
    assert_tells(rt.alloc(), 1000, Texts::Nested(999, "a"), NAMES)?;
    assert_tells(rt.alloc(), 1000, Texts::Nested(999, "*.c"), GLOBS)
}

//! Searches with sets of globs: those where four specs or more have a glob right behind the same head.
use crate::searches::{Settled, may_skip, scratch_of, settled_in};
use gix_pathspec::Search;
use gix_pathspec::search::{MatchKind, Scratch};
use pathspec_test_searches::search_of_line;
use pathspec_test_support::look_ups::Marks;
use std::alloc::{AllocError, Global};
use std::test::Fail;

/// The texts in a line, a file, the match, how many specs are asked, and whether the set tells which.
type Row<'a> = (&'a str, &'a str, Settled, usize, bool);

/// What a match answers and tells.
type Told = (Option<Settled>, usize, bool);

/// Whether a text is that of an exclude.
fn is_exclude(word: &str) -> bool {
    word.as_bytes().starts_with(b":!") || word.as_bytes().starts_with(b":(exclude")
}

/// The way in which a spec alone matches a file.
fn kind_alone(alloc: Global, word: &str, path: &str) -> Result<Option<MatchKind>, Fail> {
    let search = search_of_line(alloc, word, "")?;
    let mut scratch = scratch_of(alloc, &search)?;
    let file = Some(false);
    match settled_in(
        &search,
        path.as_bytes(),
        file,
        &mut scratch,
        &mut Marks::new(),
    )? {
        Some(Some((0, kind))) => Ok(Some(kind)),
        _ => Ok(None),
    }
}

/// The first exclude in a line, or the first include, that alone matches a file.
fn first_alone(alloc: Global, line: &str, path: &str, excludes: bool) -> Result<Settled, Fail> {
    let mut number = 0usize;
    for word in line.split(' ') {
        if is_exclude(word) == excludes {
            if let Some(kind) = kind_alone(alloc, word, path)? {
                return Ok(Some((number, kind)));
            }
        }
        number = number.saturating_add(1);
    }
    Ok(None)
}

/// The first spec in search order that alone matches a file: excludes come first.
fn one_by_one(alloc: Global, line: &str, path: &str) -> Result<Settled, Fail> {
    match first_alone(alloc, line, path, true)? {
        Some(found) => Ok(Some(found)),
        None => first_alone(alloc, line, path, false),
    }
}

/// What a match tells, in a scratch that another search of the same texts made.
fn told(alloc: Global, line: &str, path: &str) -> Result<Told, Fail> {
    let search = search_of_line(alloc, line, "")?;
    let mut scratch = scratch_of(alloc, &*search_of_line(alloc, line, "")?)?;
    let file = Some(false);
    let found = settled_in(
        &search,
        path.as_bytes(),
        file,
        &mut scratch,
        &mut Marks::new(),
    )?;
    Ok((found, scratch.last_tested(), scratch.last_by_set()))
}

const PREFIX: MatchKind = MatchKind::Prefix;

const VERBATIM: MatchKind = MatchKind::Verbatim;

const WILDCARD: MatchKind = MatchKind::WildcardMatch;

// The tests' look-up sets `gen` of the path `x`, and says nothing else.
#[test]
#[rattlefmt::skip]
fn a_set_answers_as_its_specs_do_one_by_one(rt: HostRuntime) -> Result<(), Fail> {
    const ROWS: &[Row<'_>] = &[
        ("*.rs *.md *.c *.h", "a.md", Some((1, WILDCARD)), 1, true),
        ("*.rs *.md *.c *.h", "d/a.h", Some((3, WILDCARD)), 1, true),
        ("*.rs *.md *.c *.h", "a.txt", None, 0, true),
        // Three specs make no set.
        ("*.rs *.md *.c", "a.md", Some((1, WILDCARD)), 2, false),
        // A path that begins with a wildcard byte may be the text of a spec, or lie below it.
        ("*.rs *.md *.c *.h", "*.md", Some((1, WILDCARD)), 2, false),
        ("*.rs *.md *.c *.h", "*.md/a", Some((1, PREFIX)), 2, false),
        ("*.rs *.md *.c *.h", "?.h", Some((3, WILDCARD)), 4, false),
        ("*.rs *.md *.c *.h", "[a", None, 4, false),
        // In a new scratch the set gives up where a path fills more than eight cells of its table.
        ("*.md *.c *.h *_test.rs", "a_test.rs", Some((3, WILDCARD)), 4, false),
        // Both cases.
        ("*.rs :(icase)*.MD *.c *.h", "a.mD", Some((1, WILDCARD)), 1, true),
        ("*.rs *.MD *.c *.h", "a.md", None, 0, true),
        ("?.rs [ab].md *.c :(icase)[x-z]*", "Y", Some((3, WILDCARD)), 1, true),
        // Globs whose stars stop at a slash.
        (":(glob)*.c :(glob)**/a :(glob)*/b *.h", "d/a.c", None, 0, true),
        (":(glob)*.c :(glob)**/a :(glob)*/b *.h", "d/e/a", Some((1, WILDCARD)), 1, true),
        // Excludes come first.
        ("*.rs *.md *.c :!*_test.rs", "_test.rs", Some((3, WILDCARD)), 1, true),
        ("*.rs *.md *.c :!*_test.rs", "a.rs", Some((0, WILDCARD)), 1, true),
        ("* *.md :!*.c :!*.h", "a.md", Some((0, WILDCARD)), 1, true),
        // One that lists attributes, or wants a directory, is asked; where it doesn't match, another may.
        ("*.rs *.md :(attr:gen)*.c *.c", "a.c", Some((3, WILDCARD)), 2, true),
        ("*.rs *.md :(exclude,attr:gen)*.c *.c", "a.c", Some((3, WILDCARD)), 2, true),
        ("*.rs *.md :(attr:gen)*x ?", "x", Some((2, WILDCARD)), 1, true),
        ("*.rs/ *.rs *.md *.c", "a.rs", Some((1, WILDCARD)), 2, true),
        // Specs with a head stand beside the set.
        ("src *.rs *.md *.c *.h", "src/a.md", Some((0, PREFIX)), 1, true),
        ("*.rs *.md *.c *.h src", "src/a.md", Some((1, WILDCARD)), 1, true),
        ("*.rs *.md *.c *.h src", "src/a.txt", Some((4, PREFIX)), 1, true),
        ("*.rs *.md *.c *.h src", "d/a.txt", None, 0, true),
    ];
    for (line, path, want, tested, by_set) in ROWS {
        assert!(rt; told(rt.alloc(), line, path)? == (Some(*want), *tested, *by_set), "{line} {path}");
        assert!(rt; one_by_one(rt.alloc(), line, path)? == *want, "{line} {path}");
    }
    Ok(())
}

#[test]
#[rattlefmt::skip]
fn sets_of_heads_answer_as_their_specs_do_one_by_one(rt: HostRuntime) -> Result<(), Fail> {
    const ROWS: &[Row<'_>] = &[
        ("s/*.rs s/*.md s/*.c s/*.h", "s/a.md", Some((1, WILDCARD)), 1, true),
        ("s/*.rs s/*.md s/*.c s/*.h", "s/a.txt", None, 0, true),
        // The common prefix settles a path first.
        ("s/*.rs s/*.md s/*.c s/*.h", "t/a.md", None, 0, false),
        // Three specs of a head make no set, and stand beside that of another head. A spec without case has another head.
        ("s/*.rs s/*.md s/*.c t/*.h", "s/a.md", Some((1, WILDCARD)), 2, false),
        ("s/*.rs s/*.md s/*.c s/*.h t/*.rs t/*.md t/*.c", "t/a.md", Some((5, WILDCARD)), 2, true),
        ("s/*.rs s/*.md s/*.c :(icase)s/*.h", "s/a.h", Some((3, WILDCARD)), 4, false),
        ("s/*.rs s/*.md s/*.c s/*.h :(icase)S/*.PY", "s/a.py", Some((4, WILDCARD)), 1, true),
        ("s/*.rs s/*.md s/*.h s/*.txt :(icase,prefix:1)s/*.C", "s/a.c", Some((4, WILDCARD)), 1, true),
        // Two heads with sets, of which one begins the other.
        ("s/*.rs s/*.md s/*.c s/*.h *.rs *.md *.c *.h", "s/a.h", Some((3, WILDCARD)), 1, true),
        ("s/*.rs s/*.md s/*.c s/*.h *.rs *.md *.c *.h", "a.h", Some((7, WILDCARD)), 1, true),
        ("s/*.rs s/*.md s/*.c s/*.h *.rs *.md *.c *.h", "t/a.txt", None, 0, true),
        ("*.rs *.md *.c *.h s/*.rs s/*.md s/*.c s/*.txt", "s/a.txt", Some((7, WILDCARD)), 1, true),
        ("s/*.rs s/*.md s/*.c s/g/*.rs s/g/*.txt s/g/*.c s/g/*.h s/*.h", "s/g/a.txt", Some((4, WILDCARD)), 1, true),
        ("s/*.rs s/*.md s/*.c s/g/*.rs s/g/*.txt s/g/*.c s/g/*.h s/*.h", "s/g/a.c", Some((2, WILDCARD)), 1, true),
        ("s/*.rs s/*.md s/*.c s/g/*.rs s/g/*.txt s/g/*.c s/g/*.h s/*.h", "s/g/a.h", Some((6, WILDCARD)), 1, true),
        ("s/*.rs s/*.md s/*.c s/g/*.rs s/g/*.txt s/g/*.c s/g/*.h s/*.h", "s/g/a.py", None, 0, true),
        // A wildcard byte right behind a head that begins the path.
        ("s/*.rs s/*.md s/*.c s/*.h", "s/*.h", Some((3, WILDCARD)), 4, false),
        ("s/*.rs s/*.md s/*.c s/*.h", "s/?/a", None, 4, false),
        ("s/*.rs s/*.md s/*.c s/*.h", "s/*.md/x", Some((1, PREFIX)), 2, false),
        ("s/*.rs s/*.md s/*.c s/*.h", "s/\\a.md", Some((1, WILDCARD)), 2, false),
        ("s/*.rs s/*.md s/*.c s/*.h", "s/[a", None, 4, false),
        ("s/*.rs s/*.md s/*.c s/g/*.rs s/g/*.txt s/g/*.c s/g/*.h s/*.h", "s/g/?", None, 8, false),
        ("s/*.rs s/*.md s/*.c s/g/*.rs s/g/*.txt s/g/*.c s/g/*.h s/*.h", "s/?/a.md", Some((1, WILDCARD)), 2, false),
        ("s/*.rs s/*.md s/*.c s/*.h t", "t/?", Some((4, PREFIX)), 1, true),
        ("s/*.rs s/*.md s/*.c s/g/*.rs s/g/*.txt s/g/*.c s/g/*.h s/*.h", "s/g*", None, 0, true),
        // A path that is the head, ends within it, or goes on with no slash between.
        ("s*.rs s* s*.c s*.h", "s", Some((1, WILDCARD)), 1, true),
        ("s*.rs s*.md s*.c s*.h", "s", None, 0, true),
        ("s*.rs s*.md s*.c s*.h", "sx/a.c", Some((2, WILDCARD)), 1, true),
        ("s/*.rs s/*.md s/*.c s/*.h t", "s", None, 0, true),
        // Sets of excludes are asked, too, and excludes come first.
        (":!s/*.o :!s/*.a :!s/*.so :!s/*.d s t", "s/x.o", Some((0, WILDCARD)), 1, true),
        (":!s/*.o :!s/*.a :!s/*.so :!s/*.d s t", "s/x.c", Some((4, PREFIX)), 1, true),
        ("s/*.rs s/*.md s/*.c :!s/*_test.rs", "s/_test.rs", Some((3, WILDCARD)), 1, true),
        ("s/*.rs s/*.md s/*.c :!s/*_test.rs", "s/a.rs", Some((0, WILDCARD)), 1, true),
        // Specs that list attributes or want a directory are asked.
        ("s/*.rs s/*.md :(attr:gen)s/*.c s/*.c", "s/a.c", Some((3, WILDCARD)), 2, true),
        (":(attr:gen)x* x*.a x*.b x*", "x", Some((0, WILDCARD)), 1, true),
        (":(attr:!gen)x* x*.a x*.b x*", "x", Some((3, WILDCARD)), 2, true),
        ("s/*.rs/ s/*.rs s/*.md s/*.c", "s/a.rs", Some((1, WILDCARD)), 2, true),
        // Globs whose stars stop at a slash. Two stars behind a plain byte do, too.
        (":(glob)s/*.c :(glob)s/**/b :(glob)s/*/e :(glob)s/*.h", "s/b", Some((1, WILDCARD)), 1, true),
        (":(glob)s/*.c :(glob)s/**/b :(glob)s/*/e :(glob)s/*.h", "s/d/f/b", Some((1, WILDCARD)), 1, true),
        (":(glob)s/*.c :(glob)s/**/b :(glob)s/*/e :(glob)s/*.h", "s/d/e", Some((2, WILDCARD)), 1, true),
        (":(glob)s/*.c :(glob)s/**/b :(glob)s/*/e :(glob)s/*.h", "s/d/a.c", None, 0, true),
        (":(glob)s**/b s*.rs s*.md s*.c", "sx/b", Some((0, WILDCARD)), 1, true),
        (":(glob)s**/b s*.rs s*.md s*.c", "sx/y/b", None, 0, true),
        // Specs with the same head, but no glob right behind it, or with a longer one, stand beside the set.
        ("s/*.rs s/*.md s/*.c s/*.h s/a", "s/a", Some((4, VERBATIM)), 1, true),
        ("s/*.rs s/*.md s/*.c s/*.h s", "s/a.txt", Some((4, PREFIX)), 1, true),
        ("s/*.rs s/*.md s/*.h s/*.txt :(literal)s/*.c", "s/a.c", None, 1, true),
        ("s/*.rs s/a* s/*.md s/*.c s/*.h", "s/a.md", Some((1, WILDCARD)), 1, true),
        ("s/*.rs s/a* s/*.md s/*.c s/*.h", "s/b.md", Some((2, WILDCARD)), 1, true),
        ("s/a s/*.rs s/*.md s/*.c s/*.h", "s/a/x.md", Some((0, PREFIX)), 1, true),
        // Where one set gives up, no other tells.
        ("*.md *.c *.h *.txt s/*.md s/*.c s/*.h s/*_test.rs", "s/a_test.rs", Some((7, WILDCARD)), 8, false),
    ];
    for (line, path, want, tested, by_set) in ROWS {
        assert!(rt; told(rt.alloc(), line, path)? == (Some(*want), *tested, *by_set), "{line} {path}");
        assert!(rt; one_by_one(rt.alloc(), line, path)? == *want, "{line} {path}");
    }
    Ok(())
}

/// Four specs for each of so many heads, `h0/` the first, and others behind them.
fn line_of_heads(alloc: Global, heads: usize, others: &str) -> Result<String, AllocError> {
    let mut line = String::new(alloc);
    for head in 0..heads {
        let specs = format!(in alloc; "h{head}/*.rs h{head}/*.md h{head}/*.c h{head}/*.h ")?;
        line.push_str(specs.as_str())?;
    }
    line.push_str(others)?;
    Ok(line)
}

// A search among the heads of sets finds those that begin the path.
#[test]
#[rattlefmt::skip]
fn each_of_many_heads_has_a_set(rt: HostRuntime) -> Result<(), Fail> {
    const ROWS: &[(usize, &str, &str, Settled, usize, bool)] = &[
        (0, "a *.rs *.md *.c", "a", Some((0, VERBATIM)), 1, false),
        (64, "", "h63/a.md", Some((253, WILDCARD)), 1, true),
        (64, "", "h63/a.txt", None, 0, true),
        (64, "h9/a*", "h63/a.md", Some((253, WILDCARD)), 1, true),
        (300, "", "h299/a.md", Some((1_197, WILDCARD)), 1, true),
        (300, "", "h29/a.txt", None, 0, true),
        (300, "*.rs *.md *.c *.h", "h299/a.md", Some((1_197, WILDCARD)), 1, true),
        (300, "*.rs *.md *.c *.h", "a.md", Some((1_201, WILDCARD)), 1, true),
    ];
    for (heads, others, path, want, tested, by_set) in ROWS {
        let line = line_of_heads(rt.alloc(), *heads, others)?;
        let told = told(rt.alloc(), line.as_str(), path)?;
        assert!(rt; told == (Some(*want), *tested, *by_set), "{heads} {others} {path}");
    }
    Ok(())
}

/// What a match counts and tells: specs asked, steps and looks of sets, whether these told which to ask, and whether one gave up.
type Counted = (usize, u128, bool, bool);

/// What a match counts and tells.
fn counted(search: &Search, path: &str, scratch: &mut Scratch) -> Result<Counted, Fail> {
    let file = Some(false);
    settled_in(search, path.as_bytes(), file, scratch, &mut Marks::new())?;
    Ok((
        scratch.last_tested(),
        scratch.last_stepped(),
        scratch.last_by_set(),
        scratch.last_gave_up(),
    ))
}

// A set takes a step for each byte that it reads. For each of the cells that the first match fills it takes one for each of its places,
// and one more. The globs `*.rs`, `*.md`, `*.c` and `*.h` have 5, 5, 4 and 4 places; `*.txt` has 6, and `*_test.rs` 10. A look at each
// member behind the first that fits is counted, and each comparison of a head. Of two heads a first match compares both, in byte order; a
// later one of the same path begins at the last.
#[test]
#[rattlefmt::skip]
fn sets_of_heads_count_their_steps_and_looks(rt: HostRuntime) -> Result<(), Fail> {
    const ROWS: &[(&str, &str, Counted, Counted)] = &[
        ("s/*.rs s/*.md s/*.c s/*.h", "s/a.md", (1, 4 + 4 * 19 + 1, true, false), (1, 4 + 1, true, false)),
        // A head that doesn't begin the path, one that the path ends within, and one that is the path.
        ("s/*.rs s/*.md s/*.c s/*.h t", "t/a.md", (1, 1, true, false), (1, 1, true, false)),
        ("s/*.rs s/*.md s/*.c s/*.h t", "s", (0, 1, true, false), (0, 1, true, false)),
        ("s*.rs s*.md s*.c s*.h", "s", (0, 1, true, false), (0, 1, true, false)),
        ("s/*.rs s/*.md s/*.c s/*.h", "s", (0, 0, false, false), (0, 0, false, false)),
        // Each set reads what stands behind its own head.
        ("s/*.rs s/*.md s/*.c s/*.h *.rs *.md *.c *.h", "s/a.md", (1, 80 + 80 + 2, true, false), (1, 4 + 4 + 1, true, false)),
        ("s/*.rs s/*.md s/*.c s/*.h s/g/*.rs s/g/*.md s/g/*.c s/g/*.h", "s/g/a.md", (1, 80 + 80 + 2, true, false), (1, 4 + 4 + 1, true, false)),
        // A set isn't asked where a wildcard byte stands right behind its head; the others are, but then don't tell.
        ("s/*.rs s/*.md s/*.c s/*.h *.rs *.md *.c *.h", "s/*.md", (2, 80 + 2, false, false), (2, 4 + 1, false, false)),
        // The exclude that lists attributes, or a spec that does, is asked, and then the next whose glob matches.
        ("s/*.rs s/*.md :(attr:gen)s/*.c s/*.c", "s/a.c", (2, 3 + 3 * 19 + 1 + 1, true, false), (2, 3 + 1 + 1, true, false)),
        ("s/*.rs s/*.md s/*.c :!s/*_test.rs", "s/_test.rs", (1, 8 + 8 * 25 + 1, true, false), (1, 8 + 1, true, false)),
        // A first path gives up where it would fill a ninth cell. A later one finds eight filled, and fills it.
        ("s/*.md s/*.c s/*.h s/*_test.rs", "s/a_test.rs", (4, 9 + 8 * 24 + 1, false, true), (1, 9 + 24 + 1, true, false)),
        ("*.md *.c *.h *.txt s/*.md s/*.c s/*.h s/*_test.rs", "s/a_test.rs", (8, 1 + 20 + 201 + 2, false, true), (1, 1 + 33 + 1, true, false)),
        // Excludes alone.
        (":!s/*.rs :!s/*.md :!s/*.c :!s/*.h", "s/a.txt", (0, 1 + 19 + 1, true, false), (0, 1 + 1, true, false)),
    ];
    for (line, path, first, later) in ROWS {
        let search = search_of_line(rt.alloc(), line, "")?;
        let mut scratch = scratch_of(rt.alloc(), &search)?;
        assert!(rt; counted(&search, path, &mut scratch)? == *first, "{line} {path}");
        assert!(rt; counted(&search, path, &mut scratch)? == *later, "{line} {path}");
        assert!(rt; scratch.total_stepped() == first.1.wrapping_add(later.1), "{line} {path}");
    }
    Ok(())
}

// The globs have 5, 5, 4 and 4 places: one for each token, and one more.
#[test]
fn a_set_counts_its_steps(rt: HostRuntime) -> Result<(), Fail> {
    let search = search_of_line(rt.alloc(), "*.rs *.md *.c *.h", "")?;
    let mut scratch = scratch_of(rt.alloc(), &search)?;
    let file = Some(false);
    settled_in(&search, b"a.md", file, &mut scratch, &mut Marks::new())?;
    let first = scratch.last_stepped();
    // A head is compared, too.
    assert!(rt; 5 < first && first <= 4 * (18 + 2) + 1);
    settled_in(&search, b"a.md", file, &mut scratch, &mut Marks::new())?;
    assert!(rt; scratch.last_stepped() == 5);
    settled_in(&search, b"*.md", file, &mut scratch, &mut Marks::new())?;
    assert!(rt; scratch.last_stepped() == 1 && scratch.total_stepped() == first.wrapping_add(6));
    Ok(())
}

// A row of the set has its first spec; the next is found by a look at each behind it.
#[test]
fn a_set_counts_its_looks(rt: HostRuntime) -> Result<(), Fail> {
    let search = search_of_line(rt.alloc(), "*.rs :(attr:gen)*.c *.md *.h *.c", "")?;
    let mut scratch = scratch_of(rt.alloc(), &search)?;
    let file = Some(false);
    settled_in(&search, b"a.c", file, &mut scratch, &mut Marks::new())?;
    let first = scratch.last_stepped();
    // Three steps, one for each byte, a look at each of the last three specs, and one at the head.
    settled_in(&search, b"a.c", file, &mut scratch, &mut Marks::new())?;
    assert!(rt; scratch.last_tested() == 2 && scratch.last_by_set());
    assert!(rt; scratch.last_stepped() == 7 && scratch.total_stepped() == first.wrapping_add(7));
    Ok(())
}

// A new scratch has an empty table, and gives up where a path fills more than eight cells of it.
#[test]
fn a_set_tells_where_it_gave_up(rt: HostRuntime) -> Result<(), Fail> {
    const ROWS: &[(&str, bool, bool)] = &[
        ("a_test.rs", false, true),
        ("a.md", true, false),
        ("*.md", false, false),
        ("", false, false),
    ];
    let search = search_of_line(rt.alloc(), "*.md *.c *.h *_test.rs", "")?;
    let mut scratch = scratch_of(rt.alloc(), &search)?;
    assert!(rt; !scratch.last_gave_up());
    for (path, by_set, gave_up) in ROWS {
        let file = Some(false);
        settled_in(
            &search,
            path.as_bytes(),
            file,
            &mut scratch,
            &mut Marks::new(),
        )?;
        assert!(rt;
            scratch.last_by_set() == *by_set && scratch.last_gave_up() == *gave_up,
            "{path}"
        );
    }
    Ok(())
}

// Four globs of 40,000 tokens have more places than a set takes.
#[test]
fn specs_of_too_many_places_are_asked_one_by_one(rt: HostRuntime) -> Result<(), Fail> {
    let mut line = String::new(rt.alloc());
    for spec in 0..4usize {
        line.push_str(if spec == 0 { "*" } else { " *" })?;
        for _byte in 0..40_000usize {
            line.push('a')?;
        }
    }
    assert!(rt; told(rt.alloc(), line.as_str(), "b")? == (Some(None), 4, false));
    // Those of another head have a set still.
    line.push_str(" s/*.rs s/*.md s/*.c s/*.h")?;
    let want = (Some(Some((5, WILDCARD))), 5, true);
    assert!(rt; told(rt.alloc(), line.as_str(), "s/a.md")? == want);
    Ok(())
}

/// What a skip question answers and tells: whether a walk may skip, how many excludes are asked, and whether the set told or gave up.
type Skipped = (bool, usize, bool, bool);

/// What a skip question tells, in a scratch that another search of the same texts made.
fn skipped(alloc: Global, line: &str, directory: &str) -> Result<Skipped, Fail> {
    let search = search_of_line(alloc, line, "")?;
    let mut scratch = scratch_of(alloc, &*search_of_line(alloc, line, "")?)?;
    let may_skip = may_skip(&search, directory.as_bytes(), &mut scratch)?;
    let tested = scratch.last_tested();
    Ok((
        may_skip,
        tested,
        scratch.last_by_set(),
        scratch.last_gave_up(),
    ))
}

#[test]
#[rattlefmt::skip]
fn a_set_of_excludes_answers_as_they_do_one_by_one(rt: HostRuntime) -> Result<(), Fail> {
    const ROWS: &[(&str, &str, Skipped)] = &[
        (":!*/t/* :!*/n/* :!*/c/* :!*/d/*", "x/n", (true, 0, true, false)),
        (":!*/t/* :!*/n/* :!*/c/* :!*/d/*", "x/y/d", (true, 0, true, false)),
        (":!*/t/* :!*/n/* :!*/c/* :!*/d/*", "x/y", (false, 0, true, false)),
        (":!*/t/* :!*/n/* :!*/c/* :!*/d/*", "n", (false, 0, true, false)),
        (":!*/t/* :!*/n/* :!*/c/* :!*/d/*", "", (false, 0, false, false)),
        // Three excludes make no set, nor do those that list attributes, want a directory, or take nothing below one.
        (":!*/t/* :!*/n/* :!*/c/*", "x/n", (true, 2, false, false)),
        (":!*/t/* :!*/n/* :!*/c/* :(exclude,attr:gen)*/d/*", "x/d", (false, 3, false, false)),
        (":!*/t/* :!*/n/* :!*/c/* :!*/d/*/", "x/d", (false, 3, false, false)),
        (":!*/t/* :!*/n/* :!*/c/* :!*/d", "x/d", (false, 3, false, false)),
        // A directory that begins with a wildcard byte may be the text of an exclude.
        (":!*/t/* :!*/n/* :!*/c/* :!*/d/*", "*/n", (true, 2, false, false)),
        (":!*/t/* :!*/n/* :!*/c/* :!*/d/*", "[a]/b", (false, 4, false, false)),
        // In a new scratch the set gives up where a directory fills more than eight cells of its table.
        (":!*/abcdefghij/* :!*/n/* :!*/c/* :!*/d/*", "x/abcdefghij", (true, 1, false, true)),
        // Both cases, and globs whose stars stop at a slash.
        (":!*/t/* :(exclude,icase)*/N/* :!*/c/* :!*/d/*", "x/n", (true, 0, true, false)),
        (":(exclude,glob)**/n/** :!*/t/* :!*/c/* :!*/d/*", "n", (true, 0, true, false)),
        (":(exclude,glob)*/n/** :!*/t/* :!*/c/* :!*/d/*", "x/y/n", (false, 0, true, false)),
        // An exclude with a head stands beside the set, and is asked where the set finds none.
        (":!*/t/* :!*/n/* :!*/c/* :!*/d/* :(exclude,glob)s/g/**", "s/g", (true, 1, true, false)),
        (":!*/t/* :!*/n/* :!*/c/* :!*/d/* :(exclude,glob)s/g/**", "s/n", (true, 0, true, false)),
        (":!*/t/* :!*/n/* :!*/c/* :!*/d/* :(exclude,glob)s/g/**", "r/g", (false, 0, true, false)),
    ];
    for (line, directory, want) in ROWS {
        assert!(rt; skipped(rt.alloc(), line, directory)? == *want, "{line} {directory}");
    }
    Ok(())
}

// A directory and its slash are three bytes, and the first exclude of a row needs no look.
#[test]
fn a_set_of_excludes_counts_its_steps(rt: HostRuntime) -> Result<(), Fail> {
    let search = search_of_line(rt.alloc(), ":!*/t/* :!*/n/* :!*/c/* :!*/d/*", "")?;
    let mut scratch = scratch_of(rt.alloc(), &search)?;
    may_skip(&search, b"/n", &mut scratch)?;
    let first = scratch.last_stepped();
    may_skip(&search, b"/n", &mut scratch)?;
    assert!(rt; scratch.last_stepped() == 3);
    may_skip(&search, b"", &mut scratch)?;
    assert!(rt; scratch.last_stepped() == 0 && scratch.total_stepped() == first.wrapping_add(3));
    Ok(())
}

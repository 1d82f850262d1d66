//! Directories that a walk may skip, what a visit answers, and what both count.
use crate::searches::{Texts, is_selected, may_skip, scratch_of, search_of_many, visited};
use bitflags::Flags;
use gix_pathspec::search::{Scratch, Visit};
use gix_pathspec::{Error, MagicSignature, Pattern, Search};
use pathspec_test_searches::{build_from, pattern_of, search_of_line};
use std::alloc::Global;
use std::test::Fail;

#[test]
#[rattlefmt::skip]
fn excludes_take_directories_and_bury_includes(rt: HostRuntime) -> Result<(), Fail> {
    // The texts in a line, the directory that they are given in, a directory, and whether a walk may skip what lies below it.
    const ROWS: &[(&str, &str, &str, bool)] = &[
        ("*.md :!crates", "", "crates", true),
        (":(exclude,glob)**/node_modules/**", "", "a/node_modules", true),
        // Excludes stand above, at and below includes, and each include has one of its own.
        ("a/b/c :!a", "", "a/b", true),
        ("a/b a/b :!a/b :!a/b", "", "a", true),
        ("a/b :!a/b/c", "", "a/b", false),
        ("a/b a/c/d :!a/c :!a/b", "", "a", true),
        ("a/b a/c/d :!a/b :!a/c/d/e", "", "a", false),
        ("a/b :(exclude,attr:x)a/b", "", "a", false),
        (":(attr:x)a/b :!a/b", "", "a", true),
        // A directory that is called like the glob is taken whole, by its name.
        (":(exclude,glob)a*", "", "a*/b", true),
        (":(exclude,glob)a*", "", "ab/c", false),
        ("a*/b :!a*", "", "a*", true),
        // A path with a slash at its end begins with the path and a slash.
        (":!a", "", "a//", true),
        (":!a", "", "/a", false),
        (":(exclude,glob)a/**", "", "a/", true),
        // Case counts in the prefix directory, where a directory is wanted or what lies below it.
        (":(exclude,icase)B", "p", "p/B", true),
        (":(exclude,icase)*", "p", "p", true),
        (":(exclude,icase)*", "p", "P/q", false),
        (":(exclude,icase).", "p", "P", true),
        (":(exclude,icase)./", "p", "p", true),
        (":(exclude,icase)./", "p", "P", false),
        ("B :!B", "p", "p", true),
    ];
    for (line, prefix, directory, want) in ROWS {
        let search = search_of_line(rt.alloc(), line, prefix)?;
        let mut scratch = scratch_of(rt.alloc(), &search)?;
        assert!(rt; may_skip(&search, directory.as_bytes(), &mut scratch)? == *want, "{line} {directory}");
    }
    Ok(())
}

/// The bits of a spec without case, of an exclude, and of a spec that wants a directory; and some that have no meaning.
const ICASE: u32 = 2;

const EXCLUDE: u32 = 4;

const DIRECTORY: u32 = 8;

const UNKNOWN: u32 = 256 + 4096;

/// The patterns of a text, with these bits of its signature, and of a text beside it, or "" for none.
fn by_hand(alloc: Global, text: &str, bits: u32, beside: &str) -> Result<Vec<Pattern>, Error> {
    let mut patterns = Vec::new(alloc);
    let mut pattern = pattern_of(alloc, text)?;
    pattern.signature = MagicSignature::from_bits_retain(bits);
    patterns.push(pattern)?;
    if !beside.is_empty() {
        patterns.push(pattern_of(alloc, beside)?)?;
    }
    Ok(patterns)
}

#[test]
#[rattlefmt::skip]
fn signatures_may_be_set_by_hand(rt: HostRuntime) -> Result<(), Fail> {
    // A text, the bits of its signature, a text beside it, a directory, and whether a walk may skip what lies below it.
    const ROWS: &[(&str, u32, &str, &str, bool)] = &[
        // A nil spec may be an exclude, which takes all.
        (":", EXCLUDE, "", "a/b", true),
        (":", EXCLUDE, "a", "", false),
        (":", EXCLUDE + DIRECTORY, "", "a", true),
        (":", EXCLUDE + ICASE, "", "a", true),
        (":", UNKNOWN, ":!a", "a", true),
        (":", UNKNOWN, ":!a", "b", false),
        // Unknown bits mean nothing.
        ("a", EXCLUDE + UNKNOWN, "", "a", true),
        ("a", UNKNOWN, "", "b", true),
        ("a/b", EXCLUDE + UNKNOWN, "a/b", "a", true),
        (":(glob)a/**", EXCLUDE + UNKNOWN, "", "a", true),
        (":(glob)a/**", EXCLUDE + UNKNOWN + DIRECTORY, "", "a", false),
        ("A", EXCLUDE + UNKNOWN + ICASE, "", "a", true),
    ];
    for (text, bits, beside, directory, want) in ROWS {
        let search = build_from(rt.alloc(), by_hand(rt.alloc(), text, *bits, beside)?, "")??;
        let mut scratch = scratch_of(rt.alloc(), &search)?;
        assert!(rt; may_skip(&search, directory.as_bytes(), &mut scratch)? == *want, "{text} {bits}");
    }
    Ok(())
}

#[test]
#[rattlefmt::skip]
fn both_questions_are_counted_in_a_scratch(rt: HostRuntime) -> Result<(), Fail> {
    // A path, whether it is asked for skipping, the answer, how many specs are asked, and how many so far.
    const STEPS: &[(&str, bool, bool, usize, u128)] = &[
        ("a", true, true, 1, 1),
        ("x.c", false, true, 1, 2),
        // The tables answer, and nothing is asked.
        ("b", true, true, 0, 2),
        ("a/x.c", false, false, 1, 3),
        ("", true, false, 0, 3),
        ("c", true, false, 0, 3),
        ("b", false, false, 1, 4),
        ("ab", true, false, 1, 5),
        ("a/b", true, true, 1, 6),
    ];
    let search = search_of_line(rt.alloc(), ":(exclude,glob)a/** :!b *.c", "")?;
    let mut scratch = scratch_of(rt.alloc(), &search)?;
    for (path, is_skipping, want, tested, total) in STEPS {
        let answer = ask(&search, &mut scratch, path.as_bytes(), *is_skipping)?;
        assert!(rt; answer == *want && scratch.last_tested() == *tested && scratch.total_tested() == *total, "{path}");
        assert!(rt; scratch.last_compared() <= 4, "{path}");
    }
    Ok(())
}

/// Whether a walk may skip a directory, or whether a file is selected.
fn ask(
    search: &Search,
    scratch: &mut Scratch,
    path: &[u8],
    is_skipping: bool,
) -> Result<bool, Fail> {
    if is_skipping {
        may_skip(search, path, scratch)
    } else {
        is_selected(search, path, false, scratch)
    }
}

/// A directory, whether a walk may skip what lies below it, and how many excludes are asked.
type Asked<'a> = (&'a str, bool, usize);

/// Asserts what a search answers of so many excludes, with these texts before and behind a number. It compares no more heads
/// than ten thousand excludes allow, which are fewer than 2^14.
fn assert_answers(
    alloc: Global,
    count: u32,
    (before, behind): (&str, &str),
    rows: &[Asked<'_>],
) -> Result<(), Fail> {
    let search = search_of_many(alloc, count, Texts::Between(before, behind))?;
    let mut scratch = scratch_of(alloc, &search)?;
    for (path, want, tested) in rows {
        let answer = may_skip(&search, path.as_bytes(), &mut scratch)?;
        let is_counted = scratch.last_tested() == *tested && scratch.last_compared() <= 16;
        if answer != *want || !is_counted {
            return Err(Fail::new(format_args!("{path}")));
        }
    }
    Ok(())
}

#[test]
fn ten_thousand_excludes_ask_one_or_none(rt: HostRuntime) -> Result<(), Fail> {
    const IN_ONE: &[Asked<'_>] = &[
        ("x/19999", true, 1),
        ("x/15000/a/b", true, 1),
        ("x/150001", false, 1),
        ("x/20000", false, 0),
        ("x", false, 0),
        ("", false, 0),
    ];
    const OF_MANY: &[Asked<'_>] = &[
        ("d10000/x", true, 1),
        ("d15000/x/y", true, 1),
        ("d15000", false, 0),
        ("d20000/x", false, 0),
    ];
    const PLAIN: &[Asked<'_>] = &[
        ("x/19999/y", true, 0),
        ("x/199990", false, 0),
        ("x", false, 0),
    ];
    assert_answers(rt.alloc(), 10_000, (":(exclude,glob)x/", "/**"), IN_ONE)?;
    assert_answers(rt.alloc(), 10_000, (":(exclude,glob)d", "/x/**"), OF_MANY)?;
    assert_answers(rt.alloc(), 10_000, (":!x/", ""), PLAIN)
}

#[test]
fn a_thousand_excludes_of_one_head_are_asked_in_turn(rt: HostRuntime) -> Result<(), Fail> {
    const ROWS: &[Asked<'_>] = &[
        ("x/a10000", true, 1),
        ("x/10001/b", true, 2),
        ("x/a10999", true, 1000),
        ("x/y", false, 1000),
        ("y/a10000", false, 0),
    ];
    assert_answers(rt.alloc(), 1000, (":(exclude,glob)x/*", "/**"), ROWS)
}

#[test]
#[rattlefmt::skip]
fn a_walk_visits_each_entry_once(rt: HostRuntime) -> Result<(), Fail> {
    // The texts in a line, a path, whether it is a directory, whether a walk gives and enters it, and how many specs are asked
    // for that.
    const ROWS: &[(&str, &str, bool, (bool, bool), u128)] = &[
        // A table tells that an exclude takes the directory whole, and one match takes the file.
        (":!node_modules", "node_modules", true, (false, false), 0),
        (":!node_modules", "node_modules", false, (false, false), 1),
        (":!node_modules", "src", true, (true, true), 0),
        // An include in a glob that nothing prunes is asked.
        ("*.md :!crates", "docs", true, (false, true), 1),
        // The match of a glob tells nothing of what lies below, so the exclude is asked a second time where it may take it.
        (":(exclude,glob)*.d", "x.d", true, (false, true), 1),
        (":(exclude,glob)**/target/**", "target", true, (true, false), 2),
        (":(exclude,glob)**/target/**", "target/a", false, (false, false), 1),
        // No include reaches the directory, or an exclude takes all that one does.
        ("a/b", "c", true, (false, false), 0),
        ("a/b :!a/b", "a", true, (false, false), 0),
        // The empty path is the tree itself.
        (":!a", "", true, (true, true), 0),
    ];
    for (line, path, is_dir, (is_selected, is_entered), tested) in ROWS {
        let search = search_of_line(rt.alloc(), line, "")?;
        let mut scratch = scratch_of(rt.alloc(), &search)?;
        let visit = visited(&search, path.as_bytes(), *is_dir, &mut scratch)?;
        let want = Visit { is_selected: *is_selected, is_entered: *is_entered };
        assert!(rt; visit == want && scratch.total_tested() == *tested, "{line} {path}");
    }
    Ok(())
}

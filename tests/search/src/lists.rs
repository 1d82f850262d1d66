//! What a walk over directories gives, tells and asks.
use gix_pathspec::attributes::NoAttributes;
use pathspec_list::{ListError, walk_selected};
use pathspec_parts::attributes::LookUp;
use pathspec_select_tests::memory_directories::{DIRECTORIES, Fault, MemoryDirectories, Notes};
use pathspec_test_searches::search_of_line;
use pathspec_test_support::look_ups::Marks;
use std::alloc::{AllocError, Global};
use std::test::Fail;

/// What a walk is made over, and what is wanted of it.
#[derive(Clone, Copy)]
struct Walk<'a> {
    directories: &'a [(&'a str, &'a str)],
    /// A path at which nothing can be seen, if it isn't empty.
    refused: &'a str,
    with_directories: bool,
    ends_at_faults: bool,
}

/// A walk for files over the directories of the tests, of which all can be seen.
const FOR_FILES: Walk<'static> = Walk {
    directories: DIRECTORIES,
    refused: "",
    with_directories: false,
    ends_at_faults: false,
};

/// How a walk ended, and what it left.
#[derive(Drop)]
struct Walked<'a, F> {
    ended: Result<(), ListError<F, Fault>>,
    directories: MemoryDirectories<'a>,
    notes: Notes,
}

impl<'a> Walk<'a> {
    /// Makes the walk, for the search of a line of specs.
    fn make<L: LookUp>(
        self,
        alloc: Global,
        line: &str,
        look_up: &mut L,
    ) -> Result<Walked<'a, L::Fault>, Fail> {
        let search = search_of_line(alloc, line, "")?;
        let mut directories = MemoryDirectories::new(alloc, self.directories, self.refused);
        let mut notes = Notes::new(alloc, self.ends_at_faults);
        let ended = walk_selected(
            alloc,
            &mut directories,
            &search,
            self.with_directories,
            look_up,
            &mut notes,
        );
        Ok(Walked {
            ended,
            directories,
            notes,
        })
    }
}

/// A walk to its end: the specs of its search in a line, what its visitor notes, and what is asked of the directories.
struct Row(&'static str, &'static str, &'static str);

fn assert_rows(alloc: Global, walk: Walk<'_>, rows: &[Row]) -> Result<(), Fail> {
    for (number, row) in rows.iter().enumerate() {
        let walked = walk.make(alloc, row.0, &mut NoAttributes)?;
        if walked.ended.is_err()
            || !walked.notes.are(row.1)
            || !walked.directories.were_asked(row.2)
        {
            return Err(Fail::new(format_args!("row {number}")));
        }
    }
    Ok(())
}

#[test]
fn files_are_listed_and_directories_opened_where_they_matter(rt: HostRuntime) -> Result<(), Fail> {
    const ROWS: &[Row] = &[
        Row(
            "",
            "Makefile a/b a/c/d a/c/x.c a/x.c docs/README.md x.c ",
            " Makefile a a/b a/c a/c/d a/c/x.c a/x.c docs docs/README.md x.c ",
        ),
        Row("docs", "docs/README.md ", " docs docs/README.md "),
        Row("a/c/d", "a/c/d ", " a a/c a/c/d "),
        Row("a :!a/c", "a/b a/x.c ", " a a/b a/x.c "),
        Row("a/b/e", "", " a a/b "),
        Row(
            ":(exclude,glob)docs/**",
            "Makefile a/b a/c/d a/c/x.c a/x.c x.c ",
            " Makefile a a/b a/c a/c/d a/c/x.c a/x.c docs x.c ",
        ),
    ];
    assert_rows(rt.alloc(), FOR_FILES, ROWS)
}

#[test]
fn directories_are_listed_before_what_lies_in_them(rt: HostRuntime) -> Result<(), Fail> {
    const ROWS: &[Row] = &[
        Row(
            "a",
            "a/ a/b a/c/ a/c/d a/c/x.c a/x.c ",
            " a a/b a/c a/c/d a/c/x.c a/x.c ",
        ),
        Row("a/c/d", "a/c/d ", " a a/c a/c/d "),
    ];
    let walk = Walk {
        with_directories: true,
        ..FOR_FILES
    };
    assert_rows(rt.alloc(), walk, ROWS)
}

#[test]
fn a_fault_is_told_and_the_walk_goes_on(rt: HostRuntime) -> Result<(), Fail> {
    const ROWS: &[Row] = &[
        Row("a", "a/b !a/c a/x.c ", " a a/b a/c a/x.c "),
        Row("docs", "docs/README.md ", " docs docs/README.md "),
    ];
    let walk = Walk {
        refused: "a/c",
        ..FOR_FILES
    };
    assert_rows(rt.alloc(), walk, ROWS)
}

#[test]
fn a_visitor_ends_the_walk(rt: HostRuntime) -> Result<(), Fail> {
    let walk = Walk {
        refused: "a/c",
        ends_at_faults: true,
        ..FOR_FILES
    };
    let walked = walk.make(rt.alloc(), "a", &mut NoAttributes)?;
    assert!(rt; matches!(walked.ended, Err(ListError::Stopped(Fault::Refused))));
    assert!(rt; walked.notes.are("a/b !a/c ") && walked.notes.stops == 1);
    Ok(())
}

#[test]
fn a_walk_goes_on_over_thousands_of_paths(rt: HostRuntime) -> Result<(), Fail> {
    let alloc = rt.alloc();
    let names = "x ".repeat(alloc, 5_000)?;
    let rows = [("", names.as_str())];
    let walk = Walk {
        directories: &rows,
        ..FOR_FILES
    };
    let walked = walk.make(alloc, "", &mut NoAttributes)?;
    assert!(rt;
        walked.ended.is_ok() && walked.notes.are(names.as_str()) && walked.notes.stops == 0
    );
    Ok(())
}

#[test]
fn the_top_is_a_directory(rt: HostRuntime) -> Result<(), Fail> {
    let walk = Walk {
        directories: &[],
        ..FOR_FILES
    };
    let walked = walk.make(rt.alloc(), "", &mut NoAttributes)?;
    assert!(rt; matches!(walked.ended, Err(ListError::NoDirectory)) && walked.notes.are(""));
    Ok(())
}

#[test]
fn a_failed_look_up_ends_the_walk(rt: HostRuntime) -> Result<(), Fail> {
    let mut look_up = Marks::failing_after(1);
    let walked = FOR_FILES.make(rt.alloc(), ":(attr:gen).", &mut look_up)?;
    assert!(rt; matches!(walked.ended, Err(ListError::LookUp(AllocError))) && walked.notes.are(""));
    assert!(rt; look_up.asked == 2 && look_up.failed == 1);
    assert!(rt; walked.directories.were_asked(" Makefile a a/b "));
    Ok(())
}

//! The defaults that the environment asks for.
use bitflags::Flags;
use gix_pathspec::{Defaults, SearchMode};
use pathspec_test_support::look_ups::text_of;
use std::alloc::Global;
use std::test::Fail;

/// Variables by their names, with their texts.
type Variables<'v> = &'v [(&'v str, &'v str)];

/// The bits, the mode and the literalness of defaults, or the kind of an error.
type Wanted<'a> = Result<(u32, SearchMode, bool), &'a str>;

/// Whether variables ask for this, and so many of the variables of pathspecs are asked for.
fn ask_for(alloc: Global, variables: Variables<'_>, want: Wanted<'_>, count: usize) -> bool {
    let mut asked: usize = 0;
    let mut var = |name: &str| -> Option<&str> {
        asked = asked.saturating_add(1);
        text_of(variables, name)
    };
    let is_found = match Defaults::from_environment(alloc, &mut var) {
        Ok(defaults) => {
            let bits = defaults.signature.bits();
            want == Ok((bits, defaults.search_mode, defaults.literal))
        }
        Err(error) => want == Err(error.kind()),
    };
    is_found && asked == count
}

// What git(1) says of these variables.
#[test]
#[rattlefmt::skip]
fn variables_set_the_defaults(rt: HostRuntime) -> Result<(), Fail> {
    const ROWS: &[(Variables<'_>, Wanted<'_>, usize)] = &[
        (&[], Ok((0, SearchMode::ShellGlob, false)), 4),
        (&[("GIT_NOGLOB_PATHSPECS", "1")], Ok((0, SearchMode::Literal, false)), 4),
        (&[("GIT_GLOB_PATHSPECS", "on")], Ok((0, SearchMode::PathAwareGlob, false)), 4),
        (&[("GIT_LITERAL_PATHSPECS", "1"), ("GIT_ICASE_PATHSPECS", "on"), ("GIT_NOGLOB_PATHSPECS", "x")],
            Ok((2, SearchMode::Literal, true)), 2),
        (&[("git_icase_pathspecs", "1"), ("GIT_ICASE", "1")], Ok((0, SearchMode::ShellGlob, false)), 4),
        (&[("GIT_GLOB_PATHSPECS", "x"), ("GIT_NOGLOB_PATHSPECS", "y")], Err("NotTruth"), 3),
        (&[("GIT_GLOB_PATHSPECS", "1"), ("GIT_NOGLOB_PATHSPECS", "1")], Err("GlobAndNoGlob"), 4),
    ];
    for (number, (variables, want, count)) in ROWS.iter().enumerate() {
        assert!(rt; ask_for(rt.alloc(), variables, *want, *count), "{number}");
    }
    Ok(())
}

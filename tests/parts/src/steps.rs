//! The steps of globs, and the scratches that fit them.
use crate::globs::{answer, boxed_room};
use pathspec_glob::Case::Sensitive;
use pathspec_glob::Glob;
use pathspec_glob::Mode::{self, PathAware, Shell};
use std::test::Fail;

#[test]
fn a_step_is_a_token_tested_on_a_byte(rt: HostRuntime) -> Result<(), Fail> {
    const ROWS: &[(&str, Mode, &str, bool, u128)] = &[
        ("ab", Shell, "ab", true, 2),
        ("ab", Shell, "ac", false, 2),
        ("a", Shell, "xyz", false, 1),
        ("a*b", Shell, "aab", true, 3),
        ("a*b", Shell, "aac", false, 1),
        ("a*b", Shell, "xab", false, 2),
        ("*.rs", Shell, "a.c", false, 3),
        ("*", PathAware, "a/b", false, 2),
        ("**/x", PathAware, "x", true, 1),
        ("**/*", PathAware, "a/b", true, 3),
        ("**/*.c", PathAware, "a/b.c", true, 5),
        ("*a*", Shell, "bab", true, 9),
        ("*a*", PathAware, "b/a", false, 6),
        ("", Shell, "a", false, 0),
    ];
    for (pattern, mode, text, want, steps) in ROWS {
        let found = answer(rt.alloc(), *mode, Sensitive, pattern, text.as_bytes())?;
        assert!(rt; found == (*want, *steps), "{pattern} {text}");
    }
    Ok(())
}

#[test]
fn a_scratch_fits_globs_of_at_most_its_tokens(rt: HostRuntime) -> Result<(), Fail> {
    let glob = Glob::compile(rt.alloc(), b"a?c", Shell)?;
    for (tokens, fits) in [(0, false), (2, false), (3, true), (4, true)] {
        assert!(rt;
            glob.fits(&*boxed_room(rt.alloc(), tokens)?) == fits,
            "{tokens}"
        );
    }
    assert_eq!(rt; glob.tokens(), 3);
    Ok(())
}

#[test]
fn all_steps_of_a_scratch_are_counted(rt: HostRuntime) -> Result<(), Fail> {
    let glob = Glob::compile(rt.alloc(), b"abc", Shell)?;
    let mut scratch = boxed_room(rt.alloc(), glob.tokens())?;
    for total in [3, 6] {
        assert!(rt; glob.fits(&scratch));
        glob.matches(b"abc", Sensitive, &mut scratch);
        assert!(rt; scratch.last_steps() == 3 && scratch.total_steps() == total);
    }
    Ok(())
}

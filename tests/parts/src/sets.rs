//! Sets of globs beside the globs themselves.
use crate::numbers::Numbers;
use pathspec_glob::Case::{Fold, Sensitive};
use pathspec_glob::Mode::{PathAware, Shell};
pub use pathspec_parts_tests::sets::{Searched, Written, is_right, listed, made, next};
use std::alloc::{AllocError, Global};
use std::test::Fail;

/// How many random sets there are of each size. `bench/glob_sets` has more.
const SETS: usize = 4;

/// How many texts each of them is asked about.
const TEXTS: usize = 12;

/// What a set finds from a number on, of the text that was read last.
pub fn next_of(searched: &mut Searched, from: usize) -> Option<usize> {
    if from > searched.scratch.len() {
        return None;
    }
    searched.scratch.next_of(from)
}

/// Patterns that look random.
fn patterns(
    alloc: Global,
    numbers: &mut Numbers,
    count: usize,
) -> Result<Vec<Written>, AllocError> {
    let mut written = Vec::new(alloc);
    for _glob in 0..count {
        let pattern = numbers.pattern(alloc)?;
        let mode = if numbers.below(2) == 0 {
            Shell
        } else {
            PathAware
        };
        let case = if numbers.below(3) == 0 {
            Fold
        } else {
            Sensitive
        };
        let mut one = Written::new(alloc, pattern, mode, case)?;
        one.cuts = numbers.below(4) == 0;
        written.push(one)?;
    }
    Ok(written)
}

/// Lets all globs cut.
pub fn cutting(written: &mut [Written]) {
    for one in written {
        one.cuts = true;
    }
}

#[test]
fn a_set_finds_what_its_globs_match(rt: HostRuntime) -> Result<(), Fail> {
    let mut numbers = Numbers(1);
    for count in [0, 1, 2, 5, 12, 31, 63, 64, 65] {
        for _set in 0..SETS {
            let written = patterns(rt.alloc(), &mut numbers, count)?;
            let mut searched = made(rt.alloc(), &written)?;
            for _text in 0..TEXTS {
                let text = numbers.text(rt.alloc(), 24)?;
                assert!(rt;
                    is_right(rt.alloc(), &written, &mut searched, &text)?,
                    "{count}"
                );
            }
        }
    }
    Ok(())
}

#[test]
fn a_scratch_fits_its_own_set(rt: HostRuntime) -> Result<(), Fail> {
    const SETS: &[&[&[u8]]] = &[
        &[],
        &[b"*"],
        &[b"*", b"*"],
        &[b"*.rs"],
        &[b"*.rc"],
        &[b"**"],
        &[b"?"],
        &[b"["],
    ];
    for (number, patterns) in SETS.iter().enumerate() {
        let own = made(
            rt.alloc(),
            &listed(rt.alloc(), patterns, PathAware, Sensitive)?,
        )?;
        for (other_number, others) in SETS.iter().enumerate() {
            let other = made(
                rt.alloc(),
                &listed(rt.alloc(), others, PathAware, Sensitive)?,
            )?;
            let is_same = number == other_number;
            assert!(rt;
                own.set.fits(&other.scratch) == is_same,
                "{number} {other_number}"
            );
        }
    }
    Ok(())
}

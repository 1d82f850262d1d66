//! Tables that are filled, cleared, and given up.
use crate::numbers::Numbers;
use crate::sets::{Written, cutting, is_right, listed, made, next, next_of};
use pathspec_glob::Case::Sensitive;
use pathspec_glob::Mode::{PathAware, Shell};
use pathspec_glob::Tokens;
use pathspec_glob_set::{GlobSet, Member};
use std::alloc::{AllocError, Global};
use std::test::Fail;

/// Globs of which each asks for another fifth byte. A row tells the last five bytes that were read, so there are 8^5.
const FIFTHS: &[&[u8]] = &[
    b"????a*", b"????b*", b"????c*", b"????d*", b"????e*", b"????f*", b"????g*", b"????h*",
];

/// How many of their texts fill a table of 1,024 rows: each has eight bytes, and so eight new rows at most.
const ROUNDS: usize = 600;

/// A text of so many letters.
fn letters(alloc: Global, numbers: &mut Numbers, count: usize) -> Result<Vec<u8>, AllocError> {
    let mut text = Vec::new(alloc);
    for _letter in 0..count {
        if let Some(letter) = b"abcdefgh".get(numbers.below(8)) {
            text.push(*letter)?;
        }
    }
    Ok(text)
}

/// The globs by their fifth bytes.
fn fifths(alloc: Global) -> Result<Vec<Written>, AllocError> {
    listed(alloc, FIFTHS, Shell, Sensitive)
}

#[test]
fn a_cell_is_filled_once(rt: HostRuntime) -> Result<(), Fail> {
    let written = fifths(rt.alloc())?;
    let mut searched = made(rt.alloc(), &written)?;
    for steps in [8 + 8 * 57, 8, 8] {
        assert_eq!(rt; next(&mut searched, b"abcdefgh", 0, written.len()), Some(4));
        assert_eq!(rt; searched.scratch.last_steps(), steps);
    }
    assert_eq!(rt; searched.scratch.total_steps(), 8 * 57 + 24);
    Ok(())
}

#[test]
fn a_table_is_cleared_in_the_middle_of_a_text(rt: HostRuntime) -> Result<(), Fail> {
    let mut numbers = Numbers(3);
    let written = fifths(rt.alloc())?;
    let mut searched = made(rt.alloc(), &written)?;
    next(&mut searched, b"abcdefgh", 0, written.len());
    let mut was_cleared = false;
    for _round in 0..ROUNDS {
        let text = letters(rt.alloc(), &mut numbers, 8)?;
        assert!(rt; is_right(rt.alloc(), &written, &mut searched, &text)?);
        assert!(rt; !searched.scratch.gave_up());
        next(&mut searched, b"abcdefgh", 0, written.len());
        was_cleared = was_cleared || searched.scratch.last_steps() > 8;
    }
    assert!(rt; was_cleared);
    Ok(())
}

#[test]
fn further_questions_read_nothing(rt: HostRuntime) -> Result<(), Fail> {
    // The first glob of all is known without a look, and each other that is passed or found takes one.
    const ASKED: &[(usize, Option<usize>, usize)] = &[
        (0, Some(0), 0),
        (1, Some(2), 2),
        (3, Some(4), 2),
        (5, None, 0),
    ];
    let patterns: &[&[u8]] = &[b"*a", b"*b", b"?a", b"*c", b"x*"];
    let written = listed(rt.alloc(), patterns, Shell, Sensitive)?;
    let mut searched = made(rt.alloc(), &written)?;
    searched.scratch.read(b"xa");
    let steps = searched.scratch.last_steps();
    for (from, found, looks) in ASKED {
        assert_eq!(rt; next_of(&mut searched, *from), *found);
        assert_eq!(rt; searched.scratch.last_looks(), *looks);
        assert_eq!(rt; searched.scratch.last_steps(), steps);
    }
    assert_eq!(rt; searched.scratch.total_steps(), steps + 4);
    Ok(())
}

#[test]
fn a_table_that_was_never_full_is_not_spent(rt: HostRuntime) -> Result<(), Fail> {
    let mut numbers = Numbers(11);
    let written = fifths(rt.alloc())?;
    let mut searched = made(rt.alloc(), &written)?;
    let mut has_given_up = false;
    // Of 64 bytes eight lead to new rows, so 64 texts fill half of the table.
    for _round in 0..64u8 {
        let text = letters(rt.alloc(), &mut numbers, 64)?;
        next(&mut searched, &text, 0, written.len());
        has_given_up = has_given_up || searched.scratch.gave_up();
    }
    assert!(rt; has_given_up);
    for _round in 0..300u16 {
        next(&mut searched, b"hhhhhhhhgggggggg", 0, written.len());
    }
    assert!(rt; !searched.scratch.gave_up() && !searched.scratch.is_spent());
    Ok(())
}

#[test]
fn a_scratch_is_spent_by_texts_that_give_up(rt: HostRuntime) -> Result<(), Fail> {
    let mut numbers = Numbers(5);
    let written = fifths(rt.alloc())?;
    let mut searched = made(rt.alloc(), &written)?;
    for _round in 0..ROUNDS {
        let text = letters(rt.alloc(), &mut numbers, 64)?;
        next(&mut searched, &text, 0, written.len());
    }
    assert!(rt; searched.scratch.is_spent());
    assert_eq!(rt; next(&mut searched, b"", 3, written.len()), Some(3));
    assert!(rt; searched.scratch.gave_up() && searched.scratch.last_steps() == 0);
    Ok(())
}

#[test]
fn losses_are_won_back(rt: HostRuntime) -> Result<(), Fail> {
    let mut numbers = Numbers(7);
    let written = fifths(rt.alloc())?;
    let mut searched = made(rt.alloc(), &written)?;
    for _round in 0..ROUNDS {
        let text = letters(rt.alloc(), &mut numbers, 64)?;
        next(&mut searched, &text, 0, written.len());
        next(&mut searched, b"a", 0, written.len());
    }
    assert!(rt; !searched.scratch.is_spent());
    Ok(())
}

#[test]
fn what_globs_cut_off_fills_no_cells(rt: HostRuntime) -> Result<(), Fail> {
    const EIGHT: &[&[u8]] = &[
        b"*a*", b"*b*", b"*c*", b"*d*", b"*e*", b"*f*", b"*g*", b"*h*",
    ];
    let mut numbers = Numbers(9);
    let mut written = listed(rt.alloc(), EIGHT, Shell, Sensitive)?;
    cutting(&mut written);
    let mut searched = made(rt.alloc(), &written)?;
    for _round in 0..ROUNDS {
        let text = letters(rt.alloc(), &mut numbers, 8)?;
        assert!(rt; is_right(rt.alloc(), &written, &mut searched, &text)?);
    }
    // A row tells the least letter, of eight or none, and has a cell for each letter. A filled cell is 33 steps. A question looks at
    // eight globs at most.
    let before = searched.scratch.total_steps();
    assert!(rt;
        before <= (ROUNDS as u128) * (8 + 8) * 9 + 9 * 8 * 33,
        "{before}"
    );
    Ok(())
}

#[test]
fn globs_cut_off_behind_the_first_word(rt: HostRuntime) -> Result<(), Fail> {
    // Each has four places, so those of the letters that are read stand in the second word of a row.
    const LETTERS: &[&[u8]] = &[
        b"*i*", b"*j*", b"*k*", b"*l*", b"*m*", b"*n*", b"*o*", b"*p*", b"*q*", b"*r*", b"*s*",
        b"*t*", b"*u*", b"*v*", b"*w*", b"*x*", b"*a*", b"*b*", b"*c*", b"*d*", b"*e*", b"*f*",
        b"*g*", b"*h*",
    ];
    let mut numbers = Numbers(13);
    let mut written = listed(rt.alloc(), LETTERS, Shell, Sensitive)?;
    cutting(&mut written);
    let mut searched = made(rt.alloc(), &written)?;
    for _round in 0..ROUNDS {
        let text = letters(rt.alloc(), &mut numbers, 8)?;
        next(&mut searched, &text, 0, written.len());
    }
    // A row tells the least letter, of eight or none, and has a cell for each letter. A filled cell is 97 steps.
    let before = searched.scratch.total_steps();
    assert!(rt; before <= (ROUNDS as u128) * 8 + 9 * 8 * 97, "{before}");
    Ok(())
}

#[test]
fn a_set_of_too_many_places_is_not_made(rt: HostRuntime) -> Result<(), Fail> {
    // A place for each token, and one more for each glob.
    for (bytes, count, is_made) in [(10_000, 1, true), (131_072, 1, false), (100_000, 2, false)] {
        let alloc = rt.alloc();
        let pattern = vec![in alloc; b'a'; bytes]?;
        let mut globs = Vec::new(alloc);
        for _glob in 0..count {
            globs.push(Member {
                tokens: Tokens::of_pattern(alloc, &pattern, Shell)?,
                case: Sensitive,
                cuts: true,
            })?;
        }
        let Some(set) = GlobSet::new(alloc, &globs)? else {
            assert!(rt; !is_made);
            continue;
        };
        let mut scratch = set.new_scratch(alloc, 9 << 20)?;
        let count = set.len();
        assert!(rt; is_made && count == 1 && set.fits(&scratch));
        if set.fits(&scratch) {
            assert_eq!(rt; set.next(&pattern, 0, &mut scratch), Some(0));
            assert!(rt; scratch.gave_up());
        }
    }
    Ok(())
}

#[test]
fn ten_thousand_globs_are_one_set(rt: HostRuntime) -> Result<(), Fail> {
    const FOUND: &[(&[u8], Option<usize>)] = &[
        (b"a.0", Some(0)),
        (b"b.9999", Some(9_999)),
        (b".500", Some(500)),
        (b"500", None),
        (b"", None),
    ];
    let alloc = rt.alloc();
    let mut written = Vec::new(alloc);
    for number in 0..10_000u32 {
        let pattern = format!(in alloc; "*.{number}")?.into_bytes();
        written.push(Written::new(alloc, pattern, Shell, Sensitive)?)?;
    }
    cutting(&mut written);
    let mut searched = made(alloc, &written)?;
    for (text, found) in FOUND {
        assert_eq!(rt; next(&mut searched, text, 0, 10_000), *found);
        assert!(rt; !searched.scratch.gave_up());
    }
    Ok(())
}

#[test]
fn a_text_of_a_million_bytes_is_walked(rt: HostRuntime) -> Result<(), Fail> {
    let alloc = rt.alloc();
    let mut text = vec![in alloc; b'x'; 1_000_000]?;
    let written = listed(alloc, &[b"*/aa/*", b"*.rs", b"xa*"], Shell, Sensitive)?;
    let mut searched = made(alloc, &written)?;
    assert_eq!(rt; next(&mut searched, &text, 0, 3), None);
    text[1] = b'a';
    assert_eq!(rt; next(&mut searched, &text, 0, 3), Some(2));
    assert_eq!(rt; next(&mut searched, &text, 3, 3), None);
    Ok(())
}

// Behind the dot of an end, or before a slash, each byte leads back to its row, and so ends the walk.
#[test]
fn a_text_is_read_as_far_as_bytes_tell(rt: HostRuntime) -> Result<(), Fail> {
    const ROWS: &[(&[u8], Option<usize>, u128)] = &[
        (b"src/lib.rs", Some(1), 4),
        (b".rs", Some(1), 3),
        (b"a.txt", None, 1),
        (b"a.mrs", None, 3),
        (b"", None, 0),
        (b"a/b/d/aa/b", Some(2), 6),
        (b"a/b/d/ab/c", None, 1),
    ];
    let alloc = rt.alloc();
    let written = listed(alloc, &[b"*.md", b"*.rs", b"*/aa/b"], Shell, Sensitive)?;
    let mut searched = made(alloc, &written)?;
    for (text, found, steps) in ROWS {
        // The first round fills the cells.
        next(&mut searched, text, 0, 3);
        assert_eq!(rt; next(&mut searched, text, 0, 3), *found);
        assert_eq!(rt; searched.scratch.last_steps(), *steps);
    }
    Ok(())
}

// A directory is read as the text of its path and a slash, from the slash on.
#[test]
fn a_directory_is_read_with_its_slash(rt: HostRuntime) -> Result<(), Fail> {
    const ROWS: &[(&[u8], Option<usize>, u128)] = &[
        (b"a/target", Some(0), 9),
        (b"target", None, 7),
        (b"a/b.d", Some(1), 4),
        (b"b.d", Some(1), 4),
        (b"a/b.c", None, 2),
        (b"", None, 1),
        (b"x", None, 2),
    ];
    let alloc = rt.alloc();
    let written = listed(alloc, &[b"*/target/", b"*.d/"], Shell, Sensitive)?;
    let mut searched = made(alloc, &written)?;
    for (directory, found, steps) in ROWS {
        // A text fills eight cells at most.
        for _round in 0..3 {
            searched.scratch.read_directory(directory);
        }
        assert_eq!(rt; next_of(&mut searched, 0), *found);
        assert_eq!(rt; searched.scratch.last_steps(), *steps);
    }
    Ok(())
}

// Where a glob ends with a star, the row of its slash is often a sink.
#[test]
fn a_directory_is_read_as_its_text(rt: HostRuntime) -> Result<(), Fail> {
    let alloc = rt.alloc();
    let globs: &[&[u8]] = &[b"*/node_modules/*", b"*/a/*", b"**/b/**", b"*", b"?/"];
    for mode in [Shell, PathAware] {
        let written = listed(alloc, globs, mode, Sensitive)?;
        let mut searched = made(alloc, &written)?;
        for directory in ["", "a", "x/a", "x/node_modules/y", "b", "/b/c"] {
            let text = format!(in alloc; "{directory}/")?.into_bytes();
            let count = written.len();
            // A text fills eight cells at most.
            for _round in 0..4 {
                next(&mut searched, &text, 0, count);
            }
            let wanted = next(&mut searched, &text, 0, count);
            let steps = searched.scratch.last_steps();
            searched.scratch.read_directory(directory.as_bytes());
            assert_eq!(rt; next_of(&mut searched, 0), wanted);
            assert_eq!(rt; searched.scratch.last_steps(), steps);
        }
    }
    Ok(())
}

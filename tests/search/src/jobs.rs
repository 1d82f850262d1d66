//! What words and the environment ask for: jobs, rows and refusals.
use crate::program::WRONG_USE;
use gix_pathspec::{Search, parse};
use pathspec_parts::attributes::{Outcome, StateRef};
use pathspec_select::{Job, Refusal, Rows};
use pathspec_select_tests::asked::{UNSET, Variables, job_of};
use pathspec_select_tests::runs::add_refusal;
use pathspec_test_support::look_ups::{ask, has_states};
use std::alloc::Global;
use std::test::Fail;

/// Adds the long texts of a search's specs in search order, each with a space after it.
fn add_texts(texts: &mut Vec<u8>, search: &Search) -> Result<(), Fail> {
    for pattern in search.patterns() {
        texts.extend_from_slice(pattern.to_bstring()?.as_bytes())?;
        texts.push(b' ')?;
    }
    Ok(())
}

/// Adds the parts of a job: the byte that ends its records, and then the long texts of its specs. Specs that stand in the
/// input are told by the name of their source.
fn add_job(text: &mut Vec<u8>, job: &Job) -> Result<(), Fail> {
    text.push(job.separator())?;
    match (job.search(), job.source()) {
        (Some(search), None) => add_texts(text, search),
        (None, Some(source)) => {
            text.extend_from_slice(b"--specs-first ")?;
            text.extend_from_slice(source.as_bytes())?;
            Ok(())
        }
        _ => Err("the specs stand in one place".into()),
    }
}

/// Adds the job that is asked for, or what its refusal is told as.
fn add_asked(
    alloc: Global,
    text: &mut Vec<u8>,
    asked: Result<(Box<Job>, Rows), Refusal>,
) -> Result<(), Fail> {
    match asked {
        Ok((job, _rows)) => add_job(text, &job),
        Err(refusal) => Ok(add_refusal(alloc, text, &refusal)?),
    }
}

#[test]
#[rattlefmt::skip]
fn words_and_variables_ask_for_a_job(rt: HostRuntime) -> Result<(), Fail> {
    // Words, variables, and the job that they ask for, or what their refusal is told as.
    const ROWS: &[(&str, Variables<'_>, &str)] = &[
        ("", UNSET, "\n"),
        ("--prefix a -z", UNSET, "\0:(literal,prefix:1)a/ "),
        ("a :!b -z", UNSET, "\n:(exclude)b :()a :()-z "),
        ("--root /s --root /r --prefix a ../b /r/c", UNSET, "\n:()b :()c "),
        ("a* :!b", &[("literal", "yes"), ("glob", "maybe")], "\n:(literal)a* :(literal):!b "),
        ("a", &[("icase", "1"), ("glob", "on")], "\n:(icase,glob)a "),
        ("--specs-first f --specs-first g -z", UNSET, "\0--specs-first g"),
        // Each fault has its status and line, and of two the first is told.
        ("--attr x a=\\ x", UNSET, WRONG_USE),
        ("--attr x a=. :#x", &[("icase", "maybe")], WRONG_USE),
        ("--specs-first f -- :", UNSET, WRONG_USE),
        (":#x", &[("glob", "1"), ("noglob", "1")], "status 3: environment: GlobAndNoGlob"),
        ("../x", &[("icase", "maybe")], "status 3: environment: NotTruth"),
        ("../x :(prefix:9)y", UNSET, "status 3: spec 1: InvalidPrefix"),
        ("--root /rr a /r/a", UNSET, "status 3: spec 1: OutsideRoot"),
    ];
    for (line, variables, want) in ROWS {
        let mut text = Vec::new(rt.alloc());
        add_asked(rt.alloc(), &mut text, job_of(rt.alloc(), line, variables)?)?;
        assert!(rt; text.as_slice() == want.as_bytes(), "{line}");
    }
    Ok(())
}

/// Whether an attribute is in this state at a path.
fn has_state(
    alloc: Global,
    rows: &mut Rows,
    path: &str,
    name: &str,
    state: StateRef<'_>,
) -> Result<bool, Fail> {
    let listed = parse::attributes(alloc, name.as_bytes())?;
    let mut found = Outcome::for_assignments(alloc, &listed)?;
    Ok(ask(rows, path, &mut found)? && has_states(&found, &[state]))
}

#[test]
fn rows_assign_in_their_order(rt: HostRuntime) -> Result<(), Fail> {
    const WORDS: &str = "--attr x a --attr y -a --attr x !a --attr x b=1 --attr x/ c";
    let (_, mut rows) = job_of(rt.alloc(), WORDS, UNSET)??;
    assert!(rt; has_state(rt.alloc(), &mut rows, "x", "a", StateRef::Unspecified)?);
    assert!(rt; has_state(rt.alloc(), &mut rows, "x", "b", StateRef::Value(b"1"))?);
    assert!(rt; has_state(rt.alloc(), &mut rows, "y", "a", StateRef::Unset)?);
    assert!(rt; has_state(rt.alloc(), &mut rows, "x", "c", StateRef::Unspecified)?);
    Ok(())
}

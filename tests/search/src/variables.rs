//! What is read of the environment.
use pathspec_select::{Environment, Refusal};
use pathspec_select_tests::asked::Variables;
use pathspec_select_tests::environments::{NOT_UTF8, has_words, read};
use std::test::Fail;

/// Whether an environment with these words is read, or, for None, a wrong use is told.
fn is_read(found: &Result<Environment, Refusal>, want: Option<Variables<'_>>) -> bool {
    match (found, want) {
        (Ok(environment), Some(words)) => has_words(environment, words),
        (Err(refusal), None) => matches!(refusal, Refusal::Usage),
        _ => false,
    }
}

#[test]
#[rattlefmt::skip]
fn only_variables_that_count_are_read(rt: HostRuntime) -> Result<(), Fail> {
    // Variables; the words that are read, by the names of their fields, or None where one that counts isn't UTF-8, and how
    // many were asked for.
    const ROWS: &[(Variables<'_>, Option<Variables<'_>>, usize)] = &[
        (&[("GIT_LITERAL_PATHSPECS", "0"), ("GIT_ICASE_PATHSPECS", "1"), ("GIT_GLOB_PATHSPECS", "on"), ("GIT_NOGLOB_PATHSPECS", "off")],
            Some(&[("literal", "0"), ("icase", "1"), ("glob", "on"), ("noglob", "off")]), 4),
        (&[("GIT_LITERAL_PATHSPECS", "1"), ("GIT_ICASE_PATHSPECS", "no"), ("GIT_GLOB_PATHSPECS", NOT_UTF8)],
            Some(&[("literal", "1"), ("icase", "no")]), 2),
        (&[("GIT_LITERAL_PATHSPECS", "maybe"), ("GIT_ICASE_PATHSPECS", NOT_UTF8)], Some(&[("literal", "maybe")]), 1),
        (&[("GIT_ICASE_PATHSPECS", "maybe"), ("GIT_GLOB_PATHSPECS", NOT_UTF8)], Some(&[("icase", "maybe")]), 2),
        (&[("GIT_GLOB_PATHSPECS", "x"), ("GIT_NOGLOB_PATHSPECS", NOT_UTF8)], Some(&[("glob", "x")]), 3),
        (&[("GIT_LITERAL_PATHSPECS", NOT_UTF8), ("GIT_ICASE_PATHSPECS", "maybe")], None, 1),
        (&[("GIT_LITERAL_PATHSPECS", "1"), ("GIT_ICASE_PATHSPECS", NOT_UTF8)], None, 2),
        (&[("GIT_NOGLOB_PATHSPECS", NOT_UTF8)], None, 4),
    ];
    for (number, (variables, want, asked)) in ROWS.iter().enumerate() {
        let (found, count) = read(rt.alloc(), variables);
        assert!(rt; is_read(&found, *want) && count == *asked, "{number}");
    }
    Ok(())
}

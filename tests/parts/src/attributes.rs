//! Names, states, assignments and outcomes.
use crate::orders::assert_rising;
use pathspec_parts::attributes::{Name, Outcome, State, StateRef};
use pathspec_test_support::look_ups::{has_states, listed};
use std::alloc::{AllocError, Global};
use std::test::Fail;

#[test]
fn names_are_letters_digits_and_three_marks(rt: HostRuntime) -> Result<(), Fail> {
    const ROWS: &[(&str, bool)] = &[
        ("a-b", true),
        ("", true),
        ("._1", true),
        ("-a", false),
        ("é", false),
        ("a!", false),
    ];
    for (text, is_name) in ROWS {
        let is_same = match Name::from_bytes(rt.alloc(), text.as_bytes())? {
            Some(name) => *is_name && name.as_bytes().as_bytes() == text.as_bytes(),
            None => !*is_name,
        };
        assert!(rt; is_same, "{text}");
    }
    Ok(())
}

/// Copies of names in rising order.
fn names(alloc: Global) -> Result<Vec<Name>, AllocError> {
    const TEXTS: &[&str] = &["", ".", "A", "_", "a", "aa", "b"];
    let mut names = Vec::new(alloc);
    for text in TEXTS {
        if let Some(name) = Name::from_bytes(alloc, text.as_bytes())? {
            names.push(name.try_clone()?)?;
        }
    }
    Ok(names)
}

#[test]
fn names_are_compared_by_their_bytes(rt: HostRuntime) -> Result<(), Fail> {
    let (names, others) = (names(rt.alloc())?, names(rt.alloc())?);
    assert!(rt; names.len() == 7);
    assert_rising(&names, &others)?;
    Ok(())
}

/// States in rising order.
const STATES: &[StateRef<'static>] = &[
    StateRef::Set,
    StateRef::Unset,
    StateRef::Value(b""),
    StateRef::Value(b"x"),
    StateRef::Value(b"xa"),
    StateRef::Value(b"y"),
    StateRef::Unspecified,
];

fn states(alloc: Global) -> Result<Vec<State>, AllocError> {
    let mut states = Vec::new(alloc);
    for state in STATES {
        states.push(state.to_state(alloc)?.try_clone()?)?;
    }
    Ok(states)
}

#[test]
fn states_are_compared_by_variant_and_then_by_value(rt: HostRuntime) -> Result<(), Fail> {
    assert_rising(STATES, STATES)?;
    let (states, others) = (states(rt.alloc())?, states(rt.alloc())?);
    assert_rising(&states, &others)?;
    Ok(())
}

#[test]
fn assignments_are_compared_by_name_and_then_by_state(rt: HostRuntime) -> Result<(), Fail> {
    const RISING: &[(&str, StateRef<'_>)] = &[
        ("a", StateRef::Set),
        ("a", StateRef::Unset),
        ("a", StateRef::Value(b"x")),
        ("a", StateRef::Unspecified),
        ("b", StateRef::Set),
    ];
    let (assignments, others) = (listed(rt.alloc(), RISING)?, listed(rt.alloc(), RISING)?);
    assert_rising(&assignments, &others)?;
    for (assignment, other) in assignments.iter().zip(&others) {
        assert!(rt; assignment.try_clone()? == *other);
    }
    Ok(())
}

/// An outcome for `a`, `b` and `a`.
fn outcome(alloc: Global) -> Result<Outcome, AllocError> {
    const SET: StateRef<'static> = StateRef::Set;
    Outcome::for_assignments(
        alloc,
        &listed(alloc, &[("a", SET), ("b", SET), ("a", SET)])?,
    )
}

/// Whether an outcome has these names.
fn has_names(found: &Outcome, want: &[&str]) -> bool {
    for (place, text) in want.iter().enumerate() {
        if place >= found.len() || found.name(place).as_bytes() != text.as_bytes() {
            return false;
        }
    }
    found.len() == want.len() && !found.is_empty()
}

#[test]
fn a_name_is_set_at_each_of_its_places(rt: HostRuntime) -> Result<(), Fail> {
    let mut found = outcome(rt.alloc())?;
    found.set(b"b", StateRef::Set)?;
    found.reset();
    found.set(b"a", StateRef::Value(b"x"))?;
    found.set(b"c", StateRef::Set)?;
    assert!(rt;
        has_states(
            &found,
            &[
                StateRef::Value(b"x"),
                StateRef::Unspecified,
                StateRef::Value(b"x")
            ]
        )
    );
    assert!(rt; has_names(&found, &["a", "b", "a"]));
    Ok(())
}

//! The lines that are left out, each with its reason.
use pathspec_attributes::{AttributeFiles, Place, Reason};
use std::test::Fail;

#[test]
fn each_line_that_git_drops_is_told(rt: HostRuntime) -> Result<(), Fail> {
    const TEXT: &[u8] = b"* a@b\n# comment\n\n!a x\n[attr]m x\n* x\n\"!b\" x";
    const BELOW: &[(usize, Reason)] = &[
        (1, Reason::InvalidName),
        (4, Reason::Negative),
        (5, Reason::MacroHere),
        (7, Reason::Negative),
    ];
    const AT_TOP: &[(usize, Reason)] = &[
        (1, Reason::InvalidName),
        (4, Reason::Negative),
        (7, Reason::Negative),
    ];
    let mut files = AttributeFiles::new(rt.alloc())?;
    for (place, want) in [(Place::Directory(b"t"), BELOW), (Place::Info, AT_TOP)] {
        let told = files.add(place, TEXT)?;
        assert!(rt; told.len() == want.len());
        for (line, (number, reason)) in told.iter().zip(want) {
            assert!(rt; line.line == *number && line.reason == *reason);
        }
    }
    Ok(())
}

#[test]
fn a_line_may_have_2047_bytes(rt: HostRuntime) -> Result<(), Fail> {
    let mut files = AttributeFiles::new(rt.alloc())?;
    let mut line = Vec::from_slice(rt.alloc(), b"* x")?;
    for _ in 0..2044 {
        line.push(b' ')?;
    }
    assert!(rt; files.add(Place::Global, line.as_slice())?.is_empty());
    line.push(b' ')?;
    let told = files.add(Place::Global, line.as_slice())?;
    assert!(rt; told.len() == 1);
    for line in &told {
        assert!(rt; line.line == 1 && line.reason == Reason::TooLong);
    }
    Ok(())
}

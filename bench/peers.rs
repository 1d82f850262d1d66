//! Times what `puneloviash` and `globset` take to say of each path of a listing whether it is selected:
//!
//!     peers LISTING ROUNDS SPEC... -- GLOB... -- LINE... --
//!
//! One line: nanoseconds a path of both, the least of the rounds, and how many paths are selected. It ends with an error where
//! the two select different numbers. `bench/bindings` runs it; the lines are for its sibling in Python.
use globset::{Glob, GlobSetBuilder};
use puneloviash::Search;
use std::error::Error;
use std::time::Instant;

/// How many paths are selected, and nanoseconds a path.
fn timed(paths: &[&str], is_selected: impl Fn(&str) -> bool) -> (usize, f64) {
    let start = Instant::now();
    let selected = paths.iter().filter(|path| is_selected(path)).count();
    (
        selected,
        start.elapsed().as_nanos() as f64 / paths.len() as f64,
    )
}

fn main() -> Result<(), Box<dyn Error>> {
    let words: Vec<_> = std::env::args().skip(1).collect();
    let text = std::fs::read_to_string(&words[0])?;
    let paths: Vec<_> = text.lines().collect();
    let mut lists = words[2..].split(|word| word == "--");
    let (specs, globs) = (lists.next().unwrap(), lists.next().unwrap());
    let matcher = Search::new(specs)?.matcher()?;
    let mut builder = GlobSetBuilder::new();
    for glob in globs {
        builder.add(Glob::new(glob)?);
    }
    let set = builder.build()?;
    let mut least = (f64::MAX, f64::MAX, 0);
    for _ in 0..words[1].parse()? {
        let (selected, ours) = timed(&paths, |path| matcher.is_selected(path, false));
        let (matched, theirs) = timed(&paths, |path| set.is_match(path));
        if selected != matched {
            return Err(format!("{specs:?}: {selected} are selected, and globset matches {matched}").into());
        }
        least = (least.0.min(ours), least.1.min(theirs), selected);
    }
    println!("{:9.1} {:9.1} {:9}", least.0, least.1, least.2);
    Ok(())
}

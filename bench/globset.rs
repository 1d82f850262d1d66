//! Times sets of `globset` over paths, for `bench/set_times`, which writes what it reads, and reads what it writes. Times are of the
//! processor, the least of three rounds.
use globset::{GlobBuilder, GlobSet, GlobSetBuilder};
use std::error::Error;
use std::io::Read;

/// Seconds and nanoseconds, as C has them.
#[repr(C)]
struct Time {
    seconds: i64,
    nanoseconds: i64,
}

unsafe extern "C" {
    fn clock_gettime(clock: i32, time: *mut Time) -> i32;
}

/// Nanoseconds of the processor that this thread has used.
fn now() -> i64 {
    const THREAD: i32 = 3;
    let mut time = Time {
        seconds: 0,
        nanoseconds: 0,
    };
    // SAFETY: the call writes the time, and nothing else.
    unsafe { clock_gettime(THREAD, &mut time) };
    time.seconds * 1_000_000_000 + time.nanoseconds
}

/// The set of the globs of a row.
fn set_of(mode: &str, case: &str, globs: &[&str]) -> Result<GlobSet, globset::Error> {
    let mut builder = GlobSetBuilder::new();
    for glob in globs {
        let mut one = GlobBuilder::new(glob);
        builder.add(
            one.literal_separator(mode == "paths")
                .case_insensitive(case == "fold")
                .build()?,
        );
    }
    builder.build()
}

fn main() -> Result<(), Box<dyn Error>> {
    let mut text = String::new();
    std::io::stdin().read_to_string(&mut text)?;
    let (rows, paths) = text.split_once("\n\n").ok_or("no paths")?;
    let paths: Vec<_> = paths.lines().collect();
    for row in rows.lines() {
        let words: Vec<_> = row.split('\t').collect();
        let [name, mode, case, globs @ ..] = words.as_slice() else {
            return Err(format!("no set: {row}").into());
        };
        let set = set_of(mode, case, globs)?;
        let some: Vec<_> = paths.iter().step_by((globs.len() / 10) | 1).collect();
        let (mut least, mut matched) = (i64::MAX, 0);
        for _ in 0..3 {
            let start = now();
            matched = some.iter().filter(|path| set.is_match(path)).count();
            least = least.min(now() - start);
        }
        println!(
            "{name}\t{case}\t{}\t{}\t{least}\t{matched}",
            globs.len(),
            some.len()
        );
    }
    Ok(())
}

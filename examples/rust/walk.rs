//! Prints the files below a directory that pathspecs select, each ended by the byte 0.
//!
//!     walk [-v] DIRECTORY [SPEC...]
//!
//! With -v the last line on standard error says how many directories were opened.
use puneloviash::Search;
use std::error::Error;
use std::io::{self, BufWriter, Write};
use std::os::unix::ffi::OsStrExt;

fn main() -> Result<(), Box<dyn Error>> {
    let mut words = std::env::args_os().skip(1).peekable();
    let verbose = words.next_if(|word| word == "-v").is_some();
    let top = words.next().ok_or("usage: walk [-v] DIRECTORY [SPEC...]")?;
    let matcher = Search::new(words)?.matcher()?;
    let mut out = BufWriter::new(io::stdout().lock());
    let mut walk = matcher.walk(top);
    for path in &mut walk {
        out.write_all(path?.as_os_str().as_bytes())?;
        out.write_all(&[0])?;
    }
    out.flush()?;
    if verbose {
        eprintln!("opened {}", walk.opened());
    }
    Ok(())
}

//! Finds `libpathspec.a`: in the folder `PATHSPEC_LIB_DIR`, or else where pkg-config's file of
//! `pathspec` says.
use std::env;
use std::path::{Path, PathBuf};
use std::process::{self, Command};

/// The number of the declarations that `src/library.rs` has, `PS_VERSION` of `pathspec.h`.
const VERSION: &str = "2";

const ARCHIVE: &str = "libpathspec.a";

fn main() {
    println!("cargo:rerun-if-changed=build.rs");
    for name in ["PATHSPEC_LIB_DIR", "PKG_CONFIG", "PKG_CONFIG_PATH"] {
        println!("cargo:rerun-if-env-changed={name}");
    }
    let folder = folder().unwrap_or_else(|reason| {
        eprintln!("{reason}");
        eprintln!("In a clone of Puneloviash run `make library`, and then either");
        eprintln!("  set PATHSPEC_LIB_DIR to its folder target/library, as an absolute path, or");
        eprintln!("  run `make install`, and let pkg-config find pathspec.pc (PKG_CONFIG_PATH).");
        process::exit(1);
    });
    println!("cargo:rerun-if-changed={}", folder.join(ARCHIVE).display());
    println!("cargo:rustc-link-search=native={}", folder.display());
    println!("cargo:rustc-link-lib=static=pathspec");
}

/// The folder that has the archive.
fn folder() -> Result<PathBuf, String> {
    match env::var_os("PATHSPEC_LIB_DIR") {
        Some(folder) => with_archive(folder.as_ref(), "PATHSPEC_LIB_DIR"),
        None => {
            let found = pkg_config("--modversion")?;
            if found != VERSION {
                return Err(format!(
                    "pathspec.pc is of version {found}, and this crate is written for {VERSION}"
                ));
            }
            with_archive(pkg_config("--variable=libdir")?.as_ref(), "pathspec.pc")
        }
    }
}

fn with_archive(folder: &Path, source: &str) -> Result<PathBuf, String> {
    if folder.join(ARCHIVE).is_file() {
        Ok(folder.to_owned())
    } else {
        Err(format!(
            "{source} says that {ARCHIVE} lies in {}, and it doesn't",
            folder.display()
        ))
    }
}

/// What pkg-config prints of `pathspec`.
fn pkg_config(option: &str) -> Result<String, String> {
    let program = env::var_os("PKG_CONFIG").unwrap_or_else(|| "pkg-config".into());
    let absent = "PATHSPEC_LIB_DIR isn't set, and";
    match Command::new(program).args([option, "pathspec"]).output() {
        Ok(output) if output.status.success() => {
            Ok(String::from_utf8_lossy(&output.stdout).trim().to_owned())
        }
        Ok(_) => Err(format!("{absent} pkg-config doesn't know pathspec")),
        Err(error) => Err(format!("{absent} pkg-config can't be run: {error}")),
    }
}

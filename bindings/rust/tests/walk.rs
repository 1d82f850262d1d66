//! Walks over directories made for them.
use puneloviash::{Matcher, Search};
use std::env;
use std::ffi::OsStr;
use std::fs;
use std::io;
use std::os::unix::ffi::OsStrExt;
use std::os::unix::fs::symlink;
use std::os::unix::net::UnixListener;
use std::path::{Path, PathBuf};
use std::process;

/// A directory that is removed with this value.
struct Tree {
    top: PathBuf,
}

impl Tree {
    fn new(name: &str, files: &[&str]) -> Tree {
        let top = env::temp_dir().join(format!("puneloviash-{}-{name}", process::id()));
        let tree = Tree { top };
        fs::create_dir(&tree.top).unwrap();
        for file in files {
            tree.add(Path::new(file));
        }
        tree
    }

    fn add(&self, file: &Path) {
        let path = self.top.join(file);
        fs::create_dir_all(path.parent().unwrap()).unwrap();
        fs::write(path, "").unwrap();
    }

    /// The paths of a walk, sorted, and how many directories it opened.
    fn walk(&self, matcher: &Matcher) -> (Vec<PathBuf>, usize) {
        let mut walk = matcher.walk(&self.top);
        let mut paths = walk.by_ref().collect::<io::Result<Vec<_>>>().unwrap();
        paths.sort();
        (paths, walk.opened())
    }
}

impl Drop for Tree {
    fn drop(&mut self) {
        fs::remove_dir_all(&self.top).unwrap();
    }
}

fn matcher_of(specs: &[&str]) -> Matcher {
    Search::new(specs).unwrap().matcher().unwrap()
}

fn paths(names: &[&str]) -> Vec<PathBuf> {
    names.iter().map(PathBuf::from).collect()
}

#[test]
fn what_may_be_skipped_is_not_entered() {
    let files = [
        "docs/guide.md",
        "src/gen/table.rs",
        "src/lib.rs",
        "src/a/b.rs",
        "tests/all.rs",
    ];
    let tree = Tree::new("skip", &files);
    let (found, opened) = tree.walk(&matcher_of(&["src/*.rs", ":!src/gen"]));
    assert_eq!(found, paths(&["src/a/b.rs", "src/lib.rs"]));
    assert_eq!(opened, 3);
    let (found, opened) = tree.walk(&matcher_of(&[]));
    assert_eq!(found.len(), files.len());
    assert_eq!(opened, 6);
}

#[test]
fn links_are_files() {
    let tree = Tree::new("links", &["a/b", ".git/config", "c/.git"]);
    symlink(".", tree.top.join("a/again")).unwrap();
    symlink("nowhere", tree.top.join("c/lost")).unwrap();
    let _socket = UnixListener::bind(tree.top.join("c/socket")).unwrap();
    let (found, opened) = tree.walk(&matcher_of(&[]));
    assert_eq!(found, paths(&["a/again", "a/b", "c/lost"]));
    assert_eq!(opened, 3);
}

#[test]
fn names_that_are_no_utf_8() {
    let tree = Tree::new("bytes", &[]);
    let name = Path::new(OsStr::from_bytes(b"\xff\xfe"));
    tree.add(name);
    let matcher = Search::new([&b"\xff*"[..]]).unwrap().matcher().unwrap();
    assert_eq!(tree.walk(&matcher).0, [name]);
}

#[test]
fn a_walk_goes_on_after_an_error() {
    let matcher = matcher_of(&[]);
    let mut walk = matcher.walk("/nowhere/at/all");
    let error = walk.next().unwrap().unwrap_err();
    assert_eq!(error.kind(), io::ErrorKind::NotFound);
    assert!(error.to_string().starts_with("/nowhere/at/all"));
    assert!(walk.next().is_none());
    assert_eq!(walk.opened(), 0);

    let tree = Tree::new("errors", &["a/x", "b/x", "z"]);
    let mut walk = matcher.walk(&tree.top);
    // (so few entries are read at once, with the names of both directories)
    assert_eq!(walk.next().unwrap().unwrap(), Path::new("z"));
    fs::remove_dir_all(tree.top.join("a")).unwrap();
    let (found, errors): (Vec<_>, Vec<_>) = walk.partition(Result::is_ok);
    assert_eq!(found.len(), 1);
    assert_eq!(errors.len(), 1);
}

#[test]
fn attributes_count() {
    let tree = Tree::new("attributes", &["a", "b"]);
    let mut matcher = matcher_of(&[":(attr:x)*"]);
    matcher.assign("b", "x").unwrap();
    assert_eq!(tree.walk(&matcher).0, paths(&["b"]));
}

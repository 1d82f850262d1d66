//! What needs a process without other threads: each allocation refused in turn, and a fork.
//!
//! Rust's allocator goes past the malloc of this program, so that what it counts and refuses is the
//! library's alone. It is that of `examples/c/refusals.c`.
use puneloviash::{Error, MatchKind, Matcher, Search};
use std::alloc::{GlobalAlloc, Layout};
use std::ffi::c_void;
use std::ptr;
use std::sync::atomic::{AtomicIsize, Ordering::Relaxed};

extern "C" {
    fn __libc_malloc(size: usize) -> *mut c_void;
    fn __libc_realloc(block: *mut c_void, size: usize) -> *mut c_void;
    fn __libc_memalign(align: usize, size: usize) -> *mut c_void;
    fn __libc_free(block: *mut c_void);
    fn fork() -> i32;
    fn waitpid(id: i32, status: *mut i32, options: i32) -> i32;
    fn _exit(status: i32) -> !;
}

/// How many allocations are granted before one is refused; below 0 none is refused.
static LEFT: AtomicIsize = AtomicIsize::new(-1);
static LIVE: AtomicIsize = AtomicIsize::new(0);
static REQUESTS: AtomicIsize = AtomicIsize::new(0);

fn is_refused() -> bool {
    REQUESTS.fetch_add(1, Relaxed);
    LEFT.load(Relaxed) >= 0 && LEFT.fetch_sub(1, Relaxed) == 0
}

#[no_mangle]
unsafe extern "C" fn malloc(size: usize) -> *mut c_void {
    let block = match is_refused() {
        true => ptr::null_mut(),
        false => __libc_malloc(size),
    };
    LIVE.fetch_add(isize::from(!block.is_null()), Relaxed);
    block
}

#[no_mangle]
unsafe extern "C" fn realloc(old: *mut c_void, size: usize) -> *mut c_void {
    let block = match is_refused() {
        true => ptr::null_mut(),
        false => __libc_realloc(old, size),
    };
    LIVE.fetch_add(isize::from(old.is_null() && !block.is_null()), Relaxed);
    block
}

#[no_mangle]
unsafe extern "C" fn free(block: *mut c_void) {
    LIVE.fetch_sub(isize::from(!block.is_null()), Relaxed);
    __libc_free(block);
}

struct PastMalloc;

unsafe impl GlobalAlloc for PastMalloc {
    unsafe fn alloc(&self, layout: Layout) -> *mut u8 {
        __libc_memalign(layout.align(), layout.size()).cast()
    }

    unsafe fn dealloc(&self, block: *mut u8, _: Layout) {
        __libc_free(block.cast());
    }
}

#[global_allocator]
static ALLOCATOR: PastMalloc = PastMalloc;

/// What a call gives with the allocation of this number refused, and whether it came to that.
fn refusing<T>(number: isize, call: impl FnOnce() -> T) -> (T, bool) {
    LEFT.store(number, Relaxed);
    let given = call();
    let was_refused = LEFT.swap(-1, Relaxed) < 0;
    (given, was_refused)
}

fn make() -> Result<(Search, Matcher), Error> {
    let specs = [
        "src/*.c",
        ":!gen",
        ":(icase)x*y*z",
        ":(glob,attr:a -b c=d)**/q",
        ":!a/**",
    ];
    let search = Search::builder().prefix("d/e").root("/r").build(specs)?;
    let mut matcher = search.matcher()?;
    matcher.assign("d/e/q", "a -b c=d")?;
    let other = search.share()?;
    Ok((other, matcher))
}

/// Each allocation of what makes a search and a matcher, until none is refused; and how many there
/// were.
fn refuse_in_making() -> isize {
    for number in 0.. {
        let before = LIVE.load(Relaxed);
        let (made, was_refused) = refusing(number, make);
        match made {
            Ok((_other, matcher)) => {
                assert!(!was_refused);
                refuse_in_matching(&matcher);
            }
            Err(error) => {
                assert!(was_refused);
                assert_eq!(error, Error::Memory);
            }
        }
        assert_eq!(LIVE.load(Relaxed), before, "all is freed");
        if !was_refused {
            return number;
        }
    }
    unreachable!()
}

/// A match takes memory only for a look-up of attributes; without it, the path counts as selected.
fn refuse_in_matching(matcher: &Matcher) {
    let requests = REQUESTS.load(Relaxed);
    assert!(matcher.may_skip("x"));
    assert!(matcher.is_selected("d/e/src/a.c", false));
    assert_eq!(REQUESTS.load(Relaxed), requests, "none is taken");
    for number in 0.. {
        let (found, was_refused) = refusing(number, || matcher.settle("d/e/q", false));
        let found = found.unwrap();
        assert!(!found.is_excluded);
        if !was_refused {
            assert_eq!((found.number, found.kind), (3, MatchKind::Wildcard));
            return;
        }
        assert_eq!(found.kind, MatchKind::NoMemory);
        assert!(refusing(number, || matcher.is_selected("d/e/q", false)).0);
    }
}

/// Where the message of a fault has no memory, its kind stands for it.
fn refuse_in_faults() {
    for number in 0.. {
        let (made, was_refused) = refusing(number, || Search::new(["a", ":(b"]));
        match made.unwrap_err() {
            Error::Memory => assert!(was_refused),
            error => {
                assert_eq!(error.number(), Some(1));
                let words = error.to_string();
                assert_eq!(words == "spec 1: MissingParen", was_refused, "{words}");
            }
        }
        if !was_refused {
            return;
        }
    }
}

/// A child asks and frees what its parent made, and so does the parent.
fn fork_once() {
    let search = Search::new(["src/*.c", ":!src/gen"]).unwrap();
    let matcher = search.matcher().unwrap();
    let asks_well = || {
        let own = search.matcher().unwrap();
        [&own, &matcher]
            .iter()
            .all(|matcher| matcher.is_selected("src/a.c", false) && matcher.may_skip("src/gen"))
    };
    let mut status = -1;
    unsafe {
        let child = fork();
        assert!(child >= 0);
        if child == 0 {
            let is_well = asks_well();
            drop((search, matcher));
            _exit(i32::from(!is_well));
        }
        assert_eq!(waitpid(child, &mut status, 0), child);
    }
    assert_eq!(status, 0);
    assert!(asks_well());
}

fn main() {
    let refused = refuse_in_making();
    refuse_in_faults();
    println!("refusals: {refused}, nothing kept");
    fork_once();
    println!("fork: asked on both sides");
}

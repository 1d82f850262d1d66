//! The declarations of `pathspec.h`, and a safe call for each. No other module has unsafe code.
//!
//! A slice's pointer is never null, as the header wants it, and what a call writes is its caller's
//! own: `&mut`, or a value of the call's frame. So it overlaps nothing that is read.
use std::cell::UnsafeCell;
use std::ffi::c_void;
use std::ptr;

/// The number of these declarations, `PS_VERSION` of the header.
pub(crate) const VERSION: u32 = 2;

// What calls answer, as the header names it. A question answers `NO` or `YES`.
const NO: u32 = 0;
const YES: u32 = 1;
const OK: u32 = 0;
pub(crate) const MEMORY: u32 = 3;
pub(crate) const PREFIX: u32 = 4;
pub(crate) const MIXED: u32 = 6;

/// `ps_match`: what settles a path.
#[repr(C)]
#[derive(Clone, Copy, Default)]
pub(crate) struct PsMatch {
    pub(crate) number: usize,
    pub(crate) kind: u32,
    pub(crate) is_excluded: u32,
}

/// `ps_fault`: why a call answered `PS_FAULT`.
#[repr(C)]
#[derive(Clone, Copy, Default)]
pub(crate) struct PsFault {
    pub(crate) number: usize,
    pub(crate) kind: u32,
}

/// `ps_left_out`: what git leaves out of an attribute file.
#[repr(C)]
#[derive(Clone, Copy, Default)]
pub(crate) struct PsLeftOut {
    pub(crate) count: usize,
    pub(crate) line: usize,
    pub(crate) reason: u32,
}

/// `ps_search`: a search, or none.
#[repr(C)]
struct PsSearch {
    at: *mut c_void,
}

/// What `ps_search_new` and `ps_search_from_lines` have in common.
type Make = unsafe extern "C" fn(
    *mut PsSearch,
    *const u8,
    usize,
    *const u8,
    usize,
    *const u8,
    usize,
    u32,
    *mut PsFault,
) -> u32;

/// What `ps_search_message` and `ps_lines_message` have in common.
type Tell = unsafe extern "C" fn(
    *const u8,
    usize,
    *const u8,
    usize,
    *const u8,
    usize,
    u32,
    *mut u8,
    usize,
    *mut usize,
) -> u32;

/// What the calls that copy a text of a search have in common.
type Copy = unsafe extern "C" fn(*mut PsSearch, *mut u8, usize, *mut usize) -> u32;

extern "C" {
    fn ps_search_new(
        search: *mut PsSearch,
        specs: *const u8,
        specs_length: usize,
        prefix: *const u8,
        prefix_length: usize,
        root: *const u8,
        root_length: usize,
        defaults: u32,
        fault: *mut PsFault,
    ) -> u32;
    fn ps_search_from_lines(
        search: *mut PsSearch,
        text: *const u8,
        text_length: usize,
        prefix: *const u8,
        prefix_length: usize,
        root: *const u8,
        root_length: usize,
        defaults: u32,
        fault: *mut PsFault,
    ) -> u32;
    fn ps_search_share(search: *mut PsSearch, other: *mut PsSearch) -> u32;
    fn ps_search_assign(
        search: *mut PsSearch,
        path: *const u8,
        path_length: usize,
        list: *const u8,
        list_length: usize,
        fault: *mut PsFault,
    ) -> u32;
    fn ps_search_add_attributes(
        search: *mut PsSearch,
        place: u32,
        directory: *const u8,
        directory_length: usize,
        text: *const u8,
        text_length: usize,
        left_out: *mut PsLeftOut,
    ) -> u32;
    fn ps_search_free(search: *mut PsSearch);
    fn ps_search_match(
        search: *mut PsSearch,
        path: *const u8,
        path_length: usize,
        is_dir: bool,
        found: *mut PsMatch,
    ) -> u32;
    fn ps_search_selects(
        search: *mut PsSearch,
        path: *const u8,
        path_length: usize,
        is_dir: bool,
    ) -> u32;
    fn ps_search_may_skip(
        search: *mut PsSearch,
        directory: *const u8,
        directory_length: usize,
    ) -> u32;
    fn ps_search_can_match(
        search: *mut PsSearch,
        path: *const u8,
        path_length: usize,
        is_dir: bool,
    ) -> u32;
    fn ps_search_common_prefix(
        search: *mut PsSearch,
        room: *mut u8,
        room_length: usize,
        length: *mut usize,
    ) -> u32;
    fn ps_search_longest_common_directory(
        search: *mut PsSearch,
        room: *mut u8,
        room_length: usize,
        length: *mut usize,
    ) -> u32;
    fn ps_search_prefix_directory(
        search: *mut PsSearch,
        room: *mut u8,
        room_length: usize,
        length: *mut usize,
    ) -> u32;
    fn ps_search_message(
        specs: *const u8,
        specs_length: usize,
        prefix: *const u8,
        prefix_length: usize,
        root: *const u8,
        root_length: usize,
        defaults: u32,
        room: *mut u8,
        room_length: usize,
        length: *mut usize,
    ) -> u32;
    fn ps_lines_message(
        text: *const u8,
        text_length: usize,
        prefix: *const u8,
        prefix_length: usize,
        root: *const u8,
        root_length: usize,
        defaults: u32,
        room: *mut u8,
        room_length: usize,
        length: *mut usize,
    ) -> u32;
    fn ps_list_message(
        list: *const u8,
        list_length: usize,
        room: *mut u8,
        room_length: usize,
        length: *mut usize,
    ) -> u32;
    #[cfg(test)]
    fn ps_fault_name(kind: u32, room: *mut u8, room_length: usize, length: *mut usize) -> u32;
    fn ps_defaults_from_words(
        literal: *const u8,
        literal_length: usize,
        icase: *const u8,
        icase_length: usize,
        glob: *const u8,
        glob_length: usize,
        noglob: *const u8,
        noglob_length: usize,
        defaults: *mut u32,
        fault: *mut PsFault,
    ) -> u32;
    fn ps_version() -> u32;
}

/// What a search is made of.
#[derive(Clone, Copy)]
pub(crate) struct Source<'a> {
    pub(crate) texts: &'a [u8],
    /// Whether the texts are the lines of one, and else each is ended by the byte 0.
    pub(crate) is_lines: bool,
    pub(crate) prefix: &'a [u8],
    pub(crate) root: &'a [u8],
    pub(crate) defaults: u32,
}

impl Source<'_> {
    /// The message of the fault of this source, if memory lasts.
    pub(crate) fn message(&self) -> Option<Vec<u8>> {
        let tell: Tell = match self.is_lines {
            true => ps_lines_message,
            false => ps_search_message,
        };
        // SAFETY: see the head of this module.
        copied(|room, length| unsafe {
            tell(
                self.texts.as_ptr(),
                self.texts.len(),
                self.prefix.as_ptr(),
                self.prefix.len(),
                self.root.as_ptr(),
                self.root.len(),
                self.defaults,
                room.as_mut_ptr(),
                room.len(),
                length,
            )
        })
    }
}

/// The text that a call copies to the room that it is given, if there is one.
fn copied(mut copy: impl FnMut(&mut [u8], &mut usize) -> u32) -> Option<Vec<u8>> {
    let mut room = vec![0; 256];
    let mut length = 0;
    let mut status = copy(&mut room, &mut length);
    if length > room.len() {
        room.resize(length, 0);
        status = copy(&mut room, &mut length);
    }
    room.truncate(length);
    (status == YES).then_some(room)
}

/// The message of the fault of a list of attributes, if memory lasts.
pub(crate) fn list_message(list: &[u8]) -> Option<Vec<u8>> {
    // SAFETY: see the head of this module.
    copied(|room, length| unsafe {
        ps_list_message(
            list.as_ptr(),
            list.len(),
            room.as_mut_ptr(),
            room.len(),
            length,
        )
    })
}

/// The name of a fault's kind, if it is one.
#[cfg(test)]
pub(crate) fn fault_name(kind: u32) -> Option<Vec<u8>> {
    // SAFETY: see the head of this module.
    copied(|room, length| unsafe { ps_fault_name(kind, room.as_mut_ptr(), room.len(), length) })
}

/// The bits that the words of git's four variables ask for: of literal, icase, glob and noglob.
pub(crate) fn defaults_from_words(words: [&[u8]; 4]) -> Result<u32, PsFault> {
    let [literal, icase, glob, noglob] = words;
    let (mut defaults, mut fault) = (0, PsFault::default());
    // SAFETY: see the head of this module.
    let status = unsafe {
        ps_defaults_from_words(
            literal.as_ptr(),
            literal.len(),
            icase.as_ptr(),
            icase.len(),
            glob.as_ptr(),
            glob.len(),
            noglob.as_ptr(),
            noglob.len(),
            &mut defaults,
            &mut fault,
        )
    };
    if status == OK {
        Ok(defaults)
    } else {
        Err(fault)
    }
}

/// The number of the declarations that the archive was built with.
pub(crate) fn version() -> u32 {
    // SAFETY: it reads and writes nothing.
    unsafe { ps_version() }
}

/// A `ps_search` that owns a search.
pub(crate) struct Handle {
    search: UnsafeCell<PsSearch>,
}

// SAFETY: a ps_search may be used by one thread and then by another. A handle isn't `Sync`, so that
// no two calls have it at a time.
unsafe impl Send for Handle {}

impl Handle {
    fn empty() -> Handle {
        Handle {
            search: UnsafeCell::new(PsSearch {
                at: ptr::null_mut(),
            }),
        }
    }

    /// Makes a search, or gives the status and what is at fault.
    pub(crate) fn new(source: &Source<'_>) -> Result<Handle, (u32, PsFault)> {
        let make: Make = match source.is_lines {
            true => ps_search_from_lines,
            false => ps_search_new,
        };
        let handle = Handle::empty();
        let mut fault = PsFault::default();
        // SAFETY: see the head of this module; the handle is empty.
        let status = unsafe {
            make(
                handle.search.get(),
                source.texts.as_ptr(),
                source.texts.len(),
                source.prefix.as_ptr(),
                source.prefix.len(),
                source.root.as_ptr(),
                source.root.len(),
                source.defaults,
                &mut fault,
            )
        };
        if status == OK {
            Ok(handle)
        } else {
            Err((status, fault))
        }
    }

    /// Another handle on the same search, or none where memory runs out.
    pub(crate) fn share(&self) -> Option<Handle> {
        let other = Handle::empty();
        // SAFETY: the two are apart, and the other is empty.
        let status = unsafe { ps_search_share(self.search.get(), other.search.get()) };
        (status == OK).then_some(other)
    }

    /// Gives a path attributes, or gives the status and what is at fault.
    pub(crate) fn assign(&mut self, path: &[u8], list: &[u8]) -> Result<(), (u32, PsFault)> {
        let mut fault = PsFault::default();
        // SAFETY: see the head of this module.
        let status = unsafe {
            ps_search_assign(
                self.search.get(),
                path.as_ptr(),
                path.len(),
                list.as_ptr(),
                list.len(),
                &mut fault,
            )
        };
        if status == OK {
            Ok(())
        } else {
            Err((status, fault))
        }
    }

    /// Adds an attribute file, and tells the lines that git leaves out; or gives the status.
    pub(crate) fn add_attributes(
        &mut self,
        place: u32,
        directory: &[u8],
        text: &[u8],
    ) -> Result<PsLeftOut, u32> {
        let mut left_out = PsLeftOut::default();
        // SAFETY: see the head of this module.
        let status = unsafe {
            ps_search_add_attributes(
                self.search.get(),
                place,
                directory.as_ptr(),
                directory.len(),
                text.as_ptr(),
                text.len(),
                &mut left_out,
            )
        };
        if status == OK {
            Ok(left_out)
        } else {
            Err(status)
        }
    }

    pub(crate) fn settle(&self, path: &[u8], is_dir: bool) -> PsMatch {
        let mut found = PsMatch::default();
        // SAFETY: see the head of this module.
        unsafe {
            ps_search_match(
                self.search.get(),
                path.as_ptr(),
                path.len(),
                is_dir,
                &mut found,
            )
        };
        found
    }

    pub(crate) fn selects(&self, path: &[u8], is_dir: bool) -> bool {
        // SAFETY: see the head of this module.
        unsafe { ps_search_selects(self.search.get(), path.as_ptr(), path.len(), is_dir) != NO }
    }

    pub(crate) fn may_skip(&self, directory: &[u8]) -> bool {
        // SAFETY: see the head of this module.
        unsafe { ps_search_may_skip(self.search.get(), directory.as_ptr(), directory.len()) != NO }
    }

    pub(crate) fn can_match(&self, path: &[u8], is_dir: bool) -> bool {
        // SAFETY: see the head of this module.
        unsafe { ps_search_can_match(self.search.get(), path.as_ptr(), path.len(), is_dir) != NO }
    }

    pub(crate) fn common_prefix(&self) -> Option<Vec<u8>> {
        self.text(ps_search_common_prefix)
    }

    pub(crate) fn longest_common_directory(&self) -> Option<Vec<u8>> {
        self.text(ps_search_longest_common_directory)
    }

    pub(crate) fn prefix_directory(&self) -> Option<Vec<u8>> {
        self.text(ps_search_prefix_directory)
    }

    fn text(&self, copy: Copy) -> Option<Vec<u8>> {
        // SAFETY: see the head of this module.
        copied(|room, length| unsafe {
            copy(self.search.get(), room.as_mut_ptr(), room.len(), length)
        })
    }
}

impl Drop for Handle {
    fn drop(&mut self) {
        // SAFETY: nothing uses the handle afterwards.
        unsafe { ps_search_free(self.search.get()) }
    }
}

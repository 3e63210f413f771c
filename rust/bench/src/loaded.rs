//! Shared libraries that are found when the program runs.

use std::ffi::{c_char, c_int, c_void, CStr};
use std::ptr::NonNull;

extern "C" {
    fn dlopen(name: *const c_char, flags: c_int) -> *mut c_void;
    fn dlsym(library: *mut c_void, name: *const c_char) -> *mut c_void;
}

/// Look all names up at once.
const RTLD_NOW: c_int = 2;

/// A library that was loaded, and is never closed.
pub struct Loaded(NonNull<c_void>);

impl Loaded {
    /// The library of that name, or nothing if there is none.
    ///
    /// # Safety
    ///
    /// Whatever the library does on being loaded must not disturb this program.
    pub unsafe fn open(name: &CStr) -> Option<Loaded> {
        // SAFETY: the name ends with a zero byte; the rest is the caller's.
        NonNull::new(unsafe { dlopen(name.as_ptr(), RTLD_NOW) }).map(Loaded)
    }

    /// Where what the library calls by that name stands.
    pub fn symbol(&self, name: &CStr) -> Option<NonNull<c_void>> {
        // SAFETY: the library was loaded and is never closed, and the name ends with a zero byte.
        NonNull::new(unsafe { dlsym(self.0.as_ptr(), name.as_ptr()) })
    }
}

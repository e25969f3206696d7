//! A layer over the C library's allocation, to be loaded before a program: of its calls of `malloc` and `realloc` the one whose number, from
//! 1, stands in FAIL_ALLOC fails, and then an `x` is written to the file descriptor 9. Without that variable none fails.

use std::ffi::{c_char, c_int, c_void};
use std::ptr::null_mut;
use std::sync::atomic::{AtomicU64, Ordering};

unsafe extern "C" {
    fn __libc_malloc(size: usize) -> *mut c_void;
    fn __libc_realloc(block: *mut c_void, size: usize) -> *mut c_void;
    fn getenv(name: *const c_char) -> *const c_char;
    fn atoll(text: *const c_char) -> i64;
    fn write(file: c_int, bytes: *const c_void, count: usize) -> isize;
}

/// How many calls were made.
static CALLS: AtomicU64 = AtomicU64::new(0);

/// Whether this call is the one that fails. Nothing here takes memory.
fn fails() -> bool {
    let number = CALLS.fetch_add(1, Ordering::Relaxed) + 1;
    // SAFETY: the name ends with a zero, and so does what the environment holds.
    let wanted = unsafe {
        let text = getenv(c"FAIL_ALLOC".as_ptr());
        if text.is_null() { 0 } else { atoll(text) }
    };
    if wanted != number as i64 {
        return false;
    }
    // SAFETY: there is one byte to be written.
    unsafe { write(9, c"x".as_ptr().cast(), 1) };
    true
}

/// The C library's `malloc`, which fails in the call that is to fail.
///
/// # Safety
///
/// As of the C library's.
#[unsafe(no_mangle)]
pub unsafe extern "C" fn malloc(size: usize) -> *mut c_void {
    if fails() {
        return null_mut();
    }
    unsafe { __libc_malloc(size) }
}

/// The C library's `realloc`, which fails in the call that is to fail.
///
/// # Safety
///
/// As of the C library's.
#[unsafe(no_mangle)]
pub unsafe extern "C" fn realloc(block: *mut c_void, size: usize) -> *mut c_void {
    if fails() {
        return null_mut();
    }
    unsafe { __libc_realloc(block, size) }
}

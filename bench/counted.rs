//! Counts the memory of a program: a library that is loaded before the C library's own (`LD_PRELOAD`). At the second write to
//! the standard output it writes two numbers to the standard error: how many bytes more were held at most between the first
//! write and the second than at the first, and how many more are held at the second.

use std::ffi::{c_char, c_int, c_void};
use std::sync::atomic::{AtomicIsize, AtomicUsize, Ordering::SeqCst};

static LIVE: AtomicIsize = AtomicIsize::new(0);
static MOST: AtomicIsize = AtomicIsize::new(0);
static FIRST: AtomicIsize = AtomicIsize::new(0);
static WRITES: AtomicUsize = AtomicUsize::new(0);

unsafe extern "C" {
    fn __libc_malloc(size: usize) -> *mut c_void;
    fn __libc_calloc(count: usize, size: usize) -> *mut c_void;
    fn __libc_realloc(old: *mut c_void, size: usize) -> *mut c_void;
    fn __libc_memalign(align: usize, size: usize) -> *mut c_void;
    fn __libc_free(old: *mut c_void);
    fn malloc_usable_size(old: *mut c_void) -> usize;
    fn __write(file: c_int, bytes: *const c_void, count: usize) -> isize;
    fn snprintf(to: *mut c_char, most: usize, form: *const c_char, ...) -> c_int;
}

fn add(more: isize) {
    let live = LIVE.fetch_add(more, SeqCst) + more;
    MOST.fetch_max(live, SeqCst);
}

unsafe fn size_of(place: *mut c_void) -> isize {
    if place.is_null() { 0 } else { unsafe { malloc_usable_size(place) as isize } }
}

#[unsafe(no_mangle)]
pub unsafe extern "C" fn malloc(size: usize) -> *mut c_void {
    let place = unsafe { __libc_malloc(size) };
    add(unsafe { size_of(place) });
    place
}

#[unsafe(no_mangle)]
pub unsafe extern "C" fn calloc(count: usize, size: usize) -> *mut c_void {
    let place = unsafe { __libc_calloc(count, size) };
    add(unsafe { size_of(place) });
    place
}

/// Both the old and the new piece are held while one is copied into the other.
#[unsafe(no_mangle)]
pub unsafe extern "C" fn realloc(old: *mut c_void, size: usize) -> *mut c_void {
    let before = unsafe { size_of(old) };
    let place = unsafe { __libc_realloc(old, size) };
    if !place.is_null() {
        if place != old {
            add(unsafe { size_of(place) });
            add(-before);
        } else {
            add(unsafe { size_of(place) } - before);
        }
    }
    place
}

#[unsafe(no_mangle)]
pub unsafe extern "C" fn memalign(align: usize, size: usize) -> *mut c_void {
    let place = unsafe { __libc_memalign(align, size) };
    add(unsafe { size_of(place) });
    place
}

#[unsafe(no_mangle)]
pub unsafe extern "C" fn aligned_alloc(align: usize, size: usize) -> *mut c_void {
    unsafe { memalign(align, size) }
}

#[unsafe(no_mangle)]
pub unsafe extern "C" fn posix_memalign(out: *mut *mut c_void, align: usize, size: usize) -> c_int {
    let place = unsafe { memalign(align, size) };
    unsafe { *out = place };
    if place.is_null() { 12 } else { 0 }
}

#[unsafe(no_mangle)]
pub unsafe extern "C" fn free(old: *mut c_void) {
    add(-unsafe { size_of(old) });
    unsafe { __libc_free(old) };
}

#[unsafe(no_mangle)]
pub unsafe extern "C" fn write(file: c_int, bytes: *const c_void, count: usize) -> isize {
    if file == 1 {
        let live = LIVE.load(SeqCst);
        match WRITES.fetch_add(1, SeqCst) {
            0 => {
                FIRST.store(live, SeqCst);
                MOST.store(live, SeqCst);
            }
            1 => {
                let first = FIRST.load(SeqCst);
                let mut text = [0 as c_char; 64];
                let form = c"%ld %ld\n".as_ptr();
                let length = unsafe { snprintf(text.as_mut_ptr(), 64, form, MOST.load(SeqCst) - first, live - first) };
                unsafe { __write(2, text.as_ptr().cast(), length as usize) };
            }
            _ => {}
        }
    }
    unsafe { __write(file, bytes, count) }
}

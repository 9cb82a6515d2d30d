//! A library for `bench/refuse` that replaces the C library's allocations and starts of threads
//! (LD_PRELOAD), and refuses some of them: the allocation whose number, counted from 1, stands in
//! REFUSE_ALLOCATION, the start whose number stands in REFUSE_THREAD, and each start from the one
//! whose number stands in REFUSE_THREADS_FROM. Where one is refused, descriptor 9 gets the line
//! `refused`, and the line `again` where the next allocation is of no more bytes: a vector that
//! can't double asks for just what it needs.

use std::ffi::{c_char, c_int, c_void};
use std::sync::atomic::{AtomicU64, AtomicUsize, Ordering};

const NO_MEMORY: c_int = 12;
const TRY_AGAIN: c_int = 11;

extern "C" {
    fn __libc_malloc(size: usize) -> *mut c_void;
    fn __libc_calloc(count: usize, size: usize) -> *mut c_void;
    fn __libc_realloc(old: *mut c_void, size: usize) -> *mut c_void;
    fn __libc_memalign(align: usize, size: usize) -> *mut c_void;
    fn getenv(name: *const c_char) -> *const c_char;
    fn write(fd: c_int, bytes: *const u8, count: usize) -> isize;
    fn dlsym(handle: *mut c_void, name: *const c_char) -> *mut c_void;
    fn __errno_location() -> *mut c_int;
}

/// The library behind this one.
const NEXT: *mut c_void = -1isize as *mut c_void;

static ALLOCATIONS: AtomicU64 = AtomicU64::new(0);
static THREADS: AtomicU64 = AtomicU64::new(0);

/// How many bytes the allocation asked for that was refused last.
static REFUSED: AtomicUsize = AtomicUsize::new(0);

/// The number that the environment gives this name, or 0.
fn number(name: &'static [u8]) -> u64 {
    let mut value = 0;
    unsafe {
        let mut digit = getenv(name.as_ptr().cast());
        while !digit.is_null() && (*digit as u8).is_ascii_digit() {
            value = 10 * value + u64::from(*digit as u8 - b'0');
            digit = digit.add(1);
        }
    }
    value
}

fn tell(line: &[u8]) {
    unsafe { write(9, line.as_ptr(), line.len()) };
}

/// The number of a call, counted from 1.
fn counted(count: &AtomicU64) -> u64 {
    count.fetch_add(1, Ordering::SeqCst) + 1
}

/// Whether an allocation is the one to be refused; then `errno` says so, as the C library has it.
fn no_memory(size: usize) -> bool {
    if counted(&ALLOCATIONS) == number(b"REFUSE_ALLOCATION\0") {
        tell(b"refused\n");
        REFUSED.store(size, Ordering::SeqCst);
        unsafe { *__errno_location() = NO_MEMORY };
        return true;
    }
    if size <= REFUSED.swap(0, Ordering::SeqCst) {
        tell(b"again\n");
    }
    false
}

#[no_mangle]
pub unsafe extern "C" fn malloc(size: usize) -> *mut c_void {
    if no_memory(size) {
        return std::ptr::null_mut();
    }
    __libc_malloc(size)
}

#[no_mangle]
pub unsafe extern "C" fn calloc(count: usize, size: usize) -> *mut c_void {
    if no_memory(count.saturating_mul(size)) {
        return std::ptr::null_mut();
    }
    __libc_calloc(count, size)
}

#[no_mangle]
pub unsafe extern "C" fn realloc(old: *mut c_void, size: usize) -> *mut c_void {
    if no_memory(size) {
        return std::ptr::null_mut();
    }
    __libc_realloc(old, size)
}

#[no_mangle]
pub unsafe extern "C" fn aligned_alloc(align: usize, size: usize) -> *mut c_void {
    if no_memory(size) {
        return std::ptr::null_mut();
    }
    __libc_memalign(align, size)
}

#[no_mangle]
pub unsafe extern "C" fn posix_memalign(out: *mut *mut c_void, align: usize, size: usize) -> c_int {
    let made = aligned_alloc(align, size);
    if made.is_null() {
        return NO_MEMORY;
    }
    *out = made;
    0
}

type Create = unsafe extern "C" fn(*mut c_void, *const c_void, *const c_void, *mut c_void) -> c_int;

#[no_mangle]
pub unsafe extern "C" fn pthread_create(
    thread: *mut c_void,
    attributes: *const c_void,
    start: *const c_void,
    argument: *mut c_void,
) -> c_int {
    let (at, from) = (counted(&THREADS), number(b"REFUSE_THREADS_FROM\0"));
    if at == number(b"REFUSE_THREAD\0") || (from > 0 && at >= from) {
        tell(b"refused\n");
        return TRY_AGAIN;
    }
    let create = dlsym(NEXT, b"pthread_create\0".as_ptr().cast());
    let create: Create = std::mem::transmute(create);
    create(thread, attributes, start, argument)
}

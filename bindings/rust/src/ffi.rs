//! The functions and types of `c/rtheap.h` and `c/rtheap_shared.h` that this crate uses.
use core::ffi::{c_char, c_void};

/// The words of a handle.
pub const HANDLE_WORDS: usize = 32;

#[repr(C)]
#[derive(Debug)]
pub struct Handle {
    words: [u64; HANDLE_WORDS],
}

impl Handle {
    pub const CLOSED: Handle = Handle {
        words: [0; HANDLE_WORDS],
    };
}

#[repr(C)]
pub struct Config {
    pub size: u32,
    pub width: u32,
    pub threads: u32,
    pub blocks: u32,
    pub live: u32,
    pub object: u32,
    pub shared: u32,
}

#[repr(C)]
#[derive(Clone, Copy, Default)]
pub struct Reply {
    pub kind: u32,
    pub thread: u32,
    pub value: u64,
}

#[repr(C)]
#[derive(Clone, Copy)]
pub struct Command {
    pub kind: u32,
    pub a: u32,
    pub b: u32,
    pub v: u32,
    pub n: u64,
}

#[repr(C)]
pub struct Error {
    pub status: u32,
    pub argument: *const c_char,
    pub value: u64,
    pub least: u64,
    pub most: u64,
}

#[repr(C)]
#[derive(Default)]
pub struct Statistics {
    pub numbers: [u64; 9],
}

extern "C" {
    pub fn rtheap_version_number() -> u32;
    pub fn rtheap_status_text(status: u32) -> *const c_char;
    #[cfg(feature = "alloc")]
    pub fn rtheap_open(heap: *mut Handle, config: *const Config) -> u32;
    #[cfg(feature = "alloc")]
    pub fn rtheap_load(
        heap: *mut Handle,
        config: *const Config,
        bytes: *const c_void,
        size: usize,
    ) -> u32;
    #[cfg(feature = "alloc")]
    pub fn rtheap_save(
        heap: *const Handle,
        bytes: *mut c_void,
        size: usize,
        length: *mut usize,
    ) -> u32;
    #[cfg(feature = "alloc")]
    pub fn rtheap_graph_text(
        heap: *const Handle,
        text: *mut c_void,
        size: usize,
        length: *mut usize,
    ) -> u32;
    #[cfg(feature = "alloc")]
    pub fn rtheap_graph_dot(
        heap: *const Handle,
        text: *mut c_void,
        size: usize,
        length: *mut usize,
    ) -> u32;
    pub fn rtheap_open_in(
        heap: *mut Handle,
        config: *const Config,
        memory: *mut c_void,
        bytes: usize,
    ) -> u32;
    pub fn rtheap_close(heap: *mut Handle) -> u32;
    pub fn rtheap_ask(heap: *mut Handle, command: Command, reply: *mut Reply) -> u32;
    // A value of C has the form of a reply that carries it.
    pub fn rtheap_peek(heap: *const Handle, s: u32, i: u64, value: *mut Reply) -> u32;
    pub fn rtheap_peek_path(
        heap: *const Handle,
        s: u32,
        path: *const u64,
        count: usize,
        value: *mut Reply,
    ) -> u32;
    pub fn rtheap_read_statistics(heap: *const Handle, out: *mut Statistics, size: usize) -> u32;
    pub fn rtheap_last_error(heap: *const Handle, out: *mut Error, size: usize) -> u32;
}

#[cfg(feature = "alloc")]
extern "C" {
    pub fn rtheap_group_open(group: *mut Handle, config: *const Config) -> u32;
    pub fn rtheap_group_attach(group: *mut Handle, worker: *mut Handle) -> u32;
    pub fn rtheap_group_return(group: *mut Handle, worker: *mut Handle) -> u32;
    pub fn rtheap_group_finish(group: *mut Handle, cycles: *mut u64) -> u32;
    pub fn rtheap_group_close(group: *mut Handle) -> u32;
    pub fn rtheap_group_last_error(group: *const Handle, out: *mut Error, size: usize) -> u32;
    pub fn rtheap_worker_start(worker: *mut Handle, command: Command) -> u32;
    pub fn rtheap_worker_poll(worker: *mut Handle, most: u64, reply: *mut Reply) -> u32;
    pub fn rtheap_worker_stamp(worker: *mut Handle, stamp: *mut u64) -> u32;
    pub fn rtheap_worker_follow(worker: *mut Handle, stamp: u64) -> u32;
    pub fn rtheap_worker_thread(worker: *const Handle, thread: *mut u32) -> u32;
    pub fn rtheap_worker_close(worker: *mut Handle) -> u32;
    pub fn rtheap_worker_last_error(worker: *const Handle, out: *mut Error, size: usize) -> u32;
}

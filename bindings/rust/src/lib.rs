//! A garbage-collected heap for control programs: each command takes a bounded number of steps, and
//! memory suffices while the program keeps few enough blocks reachable. The heap is proved, in the
//! language Rattle; `c/README.md` of rtheap says what of it, and what of the C around it is tested.
//! This crate is tested.
//!
//! A heap has 16 registers, 0 to 15, and objects: records with fields and arrays with elements. A
//! register, field or element holds nil, a number below 2^62, or a reference. Register 0 starts as a
//! reference to an array of `shared` elements. What the registers do not reach is reclaimed.
//!
//! ```
//! use rtheap::{Config, Heap, Value};
//!
//! let mut heap = Heap::open(&Config { shared: 80, ..Config::new(512, 128) })?;
//! heap.record(1, 2)?; // register 1: a new record of 2 fields
//! heap.set(2, 1250)?; // register 2: the number 1250
//! heap.put(1, 0, 2)?; // field 0 of the record: that number
//! assert_eq!(heap.get(3, 1, 0)?, Value::Int(1250));
//! # Ok::<(), rtheap::Error>(())
//! ```
//!
//! After [`ErrorKind::Full`] register `d` keeps its old object, which the next `put` would change: so
//! leave out the rest of the step, as `?` does.
//!
//! Without the feature `alloc` the crate takes no memory but what the program lends:
//! [`Heap::open_in`]. It is `no_std`. It links with `librtheap.a`, or with the feature `lent` with
//! `librtheap_lent.a`, which calls no `malloc`.
#![no_std]
#![warn(missing_docs)]
#![deny(unsafe_op_in_unsafe_fn)]

#[cfg(feature = "alloc")]
extern crate alloc;

mod commands;
mod error;
mod ffi;
mod heap;
pub mod numbers;
#[cfg(feature = "alloc")]
mod shared;

pub use commands::{Command, Name, Reply, Value};
pub use error::{Error, ErrorKind};
pub use heap::{Config, Heap, Statistics, Width};
#[cfg(feature = "alloc")]
pub use shared::{Group, Worker};

/// Whether the library that the program is linked with has a version that this crate knows.
#[must_use]
pub fn is_known_version() -> bool {
    // SAFETY: it reads nothing.
    let number = unsafe { ffi::rtheap_version_number() };
    number / 100 == 1
}

//! Heaps that threads share.
use alloc::boxed::Box;
use core::marker::PhantomData;

use crate::commands::{Command, Reply};
use crate::error::Error;
use crate::ffi;
use crate::heap::Config;

const NOT_DONE: u32 = 17;

// A handle is of one thread at a time.
type NotSync = PhantomData<*mut u8>;

/// A heap that 1 to 16 threads share, with its workers that no thread has.
///
/// ```
/// use rtheap::{Command, Config, Group, Reply, Value};
/// use std::thread;
///
/// let mut group = Group::open(&Config { threads: 2, shared: 1, ..Config::new(512, 128) })?;
/// let (mut one, mut two) = (group.attach()?, group.attach()?);
/// let other = thread::spawn(move || {
///     one.ask(Command::Set { d: 1, value: 5 }, thread::yield_now)?;
///     one.ask(Command::Put { s: 0, i: 0, v: 1 }, thread::yield_now)?;
///     Ok::<_, rtheap::Error>(one)
/// });
/// let one = other.join().unwrap()?;
/// let got = two.ask(Command::Get { d: 1, s: 0, i: 0 }, thread::yield_now)?;
/// assert_eq!(got, Reply::Value(Value::Int(5)));
/// assert!(group.give_back(one).is_ok() && group.give_back(two).is_ok());
/// assert!(group.finish().is_ok());
/// # Ok::<(), rtheap::Error>(())
/// ```
#[derive(Debug)]
pub struct Group(Box<ffi::Handle>, NotSync);

/// A worker of a shared heap, for one thread at a time. A command has to be polled to its end: until
/// then the others may not get on. A worker that is dropped within a command is lost, and its heap's
/// memory is never freed. It may be sent to another thread, but not shared:
///
/// ```compile_fail
/// fn needs_sync<T: Sync>() {}
/// needs_sync::<rtheap::Worker>();
/// ```
#[derive(Debug)]
pub struct Worker(Box<ffi::Handle>, NotSync);

// SAFETY: calls on different handles are independent, and a handle may pass from thread to thread.
unsafe impl Send for Group {}
// SAFETY: as above.
unsafe impl Send for Worker {}

impl Group {
    fn checked(&self, status: u32) -> Result<(), Error> {
        if status == 0 {
            return Ok(());
        }
        // SAFETY: it is the handle of a group.
        Err(unsafe { Error::of(status, &*self.0, ffi::rtheap_group_last_error) })
    }

    /// Opens a heap of `config.threads` threads.
    ///
    /// # Errors
    ///
    /// As for `Heap::open`.
    pub fn open(config: &Config) -> Result<Group, Error> {
        let mut group = Group(Box::new(ffi::Handle::CLOSED), PhantomData);
        // SAFETY: the handle is closed, and stays in its box.
        let status = unsafe { ffi::rtheap_group_open(&mut *group.0, &config.coded()) };
        group.checked(status)?;
        Ok(group)
    }

    /// The next worker, in thread order; those that were given back come last.
    ///
    /// # Errors
    ///
    /// `NoWorker` and `Memory`.
    pub fn attach(&mut self) -> Result<Worker, Error> {
        let mut worker = Worker(Box::new(ffi::Handle::CLOSED), PhantomData);
        // SAFETY: the worker's handle is closed, and stays in its box.
        let status = unsafe { ffi::rtheap_group_attach(&mut *self.0, &mut *worker.0) };
        self.checked(status)?;
        Ok(worker)
    }

    /// Takes a worker back, which may be attached again.
    ///
    /// # Errors
    ///
    /// The worker, with `Busy`, `WrongGroup` or `Memory`.
    pub fn give_back(&mut self, mut worker: Worker) -> Result<(), (Worker, Error)> {
        // SAFETY: both handles are open.
        let status = unsafe { ffi::rtheap_group_return(&mut *self.0, &mut *worker.0) };
        self.checked(status).map_err(|error| (worker, error))
    }

    /// Closes the heap with the workers that are here. Returns how many cycles of collection were
    /// started.
    ///
    /// # Errors
    ///
    /// The group, with `NoWorker` or `WorkersOut`.
    pub fn finish(mut self) -> Result<u64, (Group, Error)> {
        let mut cycles = 0;
        // SAFETY: the handle is open.
        let status = unsafe { ffi::rtheap_group_finish(&mut *self.0, &mut cycles) };
        match self.checked(status) {
            Ok(()) => Ok(cycles),
            Err(error) => Err((self, error)),
        }
    }
}

impl Worker {
    fn checked(&self, status: u32) -> Result<(), Error> {
        if status == 0 {
            return Ok(());
        }
        // SAFETY: it is the handle of a worker.
        Err(unsafe { Error::of(status, &*self.0, ffi::rtheap_worker_last_error) })
    }

    /// Announces a command, and carries out none of it.
    ///
    /// # Errors
    ///
    /// `Bounds`, `Life` or `Busy`.
    pub fn start(&mut self, command: Command) -> Result<(), Error> {
        // SAFETY: the handle is open.
        let status = unsafe { ffi::rtheap_worker_start(&mut *self.0, command.coded()) };
        self.checked(status)
    }

    /// Carries out at most `most` steps of the command that was started. `None`: it is not done yet.
    ///
    /// # Errors
    ///
    /// `Full`, `Nil`, `NotObject` or `Range`, as for a heap of one thread; or no command was started.
    pub fn poll(&mut self, most: u64) -> Result<Option<Reply>, Error> {
        let mut reply = ffi::Reply::default();
        // SAFETY: the handle is open.
        let status = unsafe { ffi::rtheap_worker_poll(&mut *self.0, most, &mut reply) };
        if status == NOT_DONE {
            return Ok(None);
        }
        self.checked(status)?;
        Ok(Some(Reply::of(reply)))
    }

    /// Starts a command and polls it to its end. Between two polls it calls `wait`, which lets other
    /// threads run, such as `std::thread::yield_now`.
    ///
    /// # Errors
    ///
    /// Those of `start` and `poll`.
    pub fn ask(&mut self, command: Command, mut wait: impl FnMut()) -> Result<Reply, Error> {
        self.start(command)?;
        loop {
            if let Some(reply) = self.poll(64)? {
                return Ok(reply);
            }
            wait();
        }
    }

    /// The number of its thread.
    #[must_use]
    pub fn thread(&self) -> u32 {
        let mut thread = 0;
        // SAFETY: the handle is open.
        let status = unsafe { ffi::rtheap_worker_thread(&*self.0, &mut thread) };
        debug_assert_eq!(status, 0);
        thread
    }

    /// Draws a stamp, a number that may pass to other threads by any channel.
    ///
    /// # Errors
    ///
    /// `Busy`.
    pub fn stamp(&mut self) -> Result<u64, Error> {
        let mut stamp = 0;
        // SAFETY: the handle is open.
        let status = unsafe { ffi::rtheap_worker_stamp(&mut *self.0, &mut stamp) };
        self.checked(status)?;
        Ok(stamp)
    }

    /// Follows a stamp of another worker: what this one is given from now on comes after all that
    /// the other had seen when it drew the stamp.
    ///
    /// # Errors
    ///
    /// `NotSeen` and `Busy`.
    pub fn follow(&mut self, stamp: u64) -> Result<(), Error> {
        // SAFETY: the handle is open.
        let status = unsafe { ffi::rtheap_worker_follow(&mut *self.0, stamp) };
        self.checked(status)
    }
}

impl Drop for Group {
    fn drop(&mut self) {
        // SAFETY: the handle is of a group, and closing a closed one does nothing.
        unsafe { ffi::rtheap_group_close(&mut *self.0) };
    }
}

impl Drop for Worker {
    fn drop(&mut self) {
        // SAFETY: as for a group. Within a command the worker is not closed, and its heap is lost.
        unsafe { ffi::rtheap_worker_close(&mut *self.0) };
    }
}

//! Heaps of one thread.
use core::marker::PhantomData;
use core::ptr::NonNull;

use crate::commands::{Command, Name, Reply, Value};
use crate::error::Error;
use crate::ffi;

/// The words of a block.
#[derive(Clone, Copy, Debug, PartialEq, Eq)]
pub enum Width {
    /// Blocks of four words, without the commands `swap`, `cas` and `idle`.
    Four,
    /// Blocks of eight words.
    Eight,
}

/// What a heap is opened with.
#[derive(Clone, Copy, Debug, PartialEq, Eq)]
pub struct Config {
    /// The words of a block.
    pub width: Width,
    /// The threads of a shared heap, 1 to 16; else 1.
    pub threads: u32,
    /// The size of the heap, 1 to 65,535 blocks.
    pub blocks: u32,
    /// The most blocks that the program keeps reachable. While it keeps to this, no allocation is
    /// [`Full`](crate::ErrorKind::Full).
    pub live: u32,
    /// The largest object, 1 to 1,024 blocks.
    pub object: u32,
    /// The length of the array in register 0, at most 1,024.
    pub shared: u32,
}

impl Config {
    /// Blocks of eight words, one thread, objects of one block, no shared array.
    #[must_use]
    pub const fn new(blocks: u32, live: u32) -> Config {
        Config {
            width: Width::Eight,
            threads: 1,
            blocks,
            live,
            object: 1,
            shared: 0,
        }
    }

    /// The words that [`Heap::open_in`] needs.
    #[must_use]
    pub const fn words(&self) -> usize {
        let of_block = match self.width {
            Width::Four => 7,
            Width::Eight => 11,
        };
        let lists = (self.object as usize).div_ceil(2);
        ffi::HANDLE_WORDS + 128 + of_block * self.blocks as usize + lists
    }

    pub(crate) fn coded(&self) -> ffi::Config {
        ffi::Config {
            size: size_of::<ffi::Config>() as u32,
            width: match self.width {
                Width::Four => 4,
                Width::Eight => 8,
            },
            threads: self.threads,
            blocks: self.blocks,
            live: self.live,
            object: self.object,
            shared: self.shared,
        }
    }
}

/// What a heap has done, and what is left of its life.
#[derive(Clone, Copy, Debug, PartialEq, Eq)]
#[allow(missing_docs)] // each pair is what was done, and what is left
pub struct Statistics {
    pub commands: u64,
    pub commands_left: u64,
    pub units: u64,
    pub units_left: u64,
    pub objects: u64,
    pub objects_left: u64,
    /// Allocations that were full.
    pub fulls: u64,
    /// The cycle that the last of them named; 0 if there was none.
    pub full_cycle: u64,
    /// The units that an allocation does for each block.
    pub rate: u64,
}

impl Statistics {
    fn of(n: [u64; 9]) -> Statistics {
        Statistics {
            commands: n[0],
            commands_left: n[1],
            units: n[2],
            units_left: n[3],
            objects: n[4],
            objects_left: n[5],
            fulls: n[6],
            full_cycle: n[7],
            rate: n[8],
        }
    }
}

/// A heap, which is closed when it is dropped. It may be sent to another thread, and is of one thread
/// at a time:
///
/// ```compile_fail
/// fn needs_sync<T: Sync>() {}
/// needs_sync::<rtheap::Heap>();
/// ```
///
/// A result that is not used is a warning, and the value of one that failed cannot be had:
///
/// ```compile_fail
/// #![deny(unused_must_use)]
/// let mut heap = rtheap::Heap::open(&rtheap::Config::new(64, 20)).unwrap();
/// heap.record(1, 2);
/// ```
#[derive(Debug)]
pub struct Heap<'m> {
    // A handle has to stay where it is: in a box, or at the start of lent memory.
    handle: NonNull<ffi::Handle>,
    is_boxed: bool,
    lent: PhantomData<&'m mut [u64]>,
}

// SAFETY: calls on different handles are independent, and a handle may pass from thread to thread.
unsafe impl Send for Heap<'_> {}

#[cfg(feature = "alloc")]
impl Heap<'static> {
    /// Opens a heap with memory from `malloc`.
    ///
    /// # Errors
    ///
    /// `Bounds`, `Live` or `Rate` where the configuration is not one of a heap, and `Memory`.
    pub fn open(config: &Config) -> Result<Heap<'static>, Error> {
        let heap = Heap::closed();
        // SAFETY: the handle is closed, and the configuration is one of C.
        let status = unsafe { ffi::rtheap_open(heap.handle.as_ptr(), &config.coded()) };
        heap.checked(status)?;
        Ok(heap)
    }

    /// Opens a heap that has what was saved as these bytes, with memory from `malloc`. It needs room
    /// for a table of all objects, too.
    ///
    /// # Errors
    ///
    /// As of `open`; `Object` and `NoRoom` where the configuration allows too little;
    /// `NotSaved`, `SavedVersion`, `Torn`, `Checksum` and `Malformed` of bytes that are no saved
    /// heap.
    pub fn load(config: &Config, bytes: &[u8]) -> Result<Heap<'static>, Error> {
        let heap = Heap::closed();
        // SAFETY: the handle is closed, the configuration is one of C, and so many bytes are there.
        let status = unsafe {
            ffi::rtheap_load(
                heap.handle.as_ptr(),
                &config.coded(),
                bytes.as_ptr().cast(),
                bytes.len(),
            )
        };
        heap.checked(status)?;
        Ok(heap)
    }

    // A closed handle in a box, which is freed where the heap is dropped.
    fn closed() -> Heap<'static> {
        let handle = alloc::boxed::Box::new(ffi::Handle::CLOSED);
        Heap {
            handle: NonNull::from(alloc::boxed::Box::leak(handle)),
            is_boxed: true,
            lent: PhantomData,
        }
    }
}

#[cfg(feature = "alloc")]
type Writes =
    unsafe extern "C" fn(*const ffi::Handle, *mut core::ffi::c_void, usize, *mut usize) -> u32;

#[cfg(feature = "alloc")]
impl Heap<'_> {
    /// What the registers reach, as bytes for [`Heap::load`].
    ///
    /// # Errors
    ///
    /// `Memory`, and `TooLarge` where there are more objects than can be loaded.
    pub fn save(&self) -> Result<alloc::vec::Vec<u8>, Error> {
        self.written(ffi::rtheap_save, 0)
    }

    /// What the registers reach, as a text: a line for the registers, and one for each object.
    ///
    /// # Errors
    ///
    /// `Memory`.
    pub fn text(&self) -> Result<alloc::string::String, Error> {
        let text = self.written(ffi::rtheap_graph_text, 1)?;
        Ok(alloc::string::String::from_utf8_lossy(&text).into_owned())
    }

    /// The same as a drawing for Graphviz's `dot`.
    ///
    /// # Errors
    ///
    /// `Memory`.
    pub fn dot(&self) -> Result<alloc::string::String, Error> {
        let text = self.written(ffi::rtheap_graph_dot, 1)?;
        Ok(alloc::string::String::from_utf8_lossy(&text).into_owned())
    }

    // The bytes that a call writes, which needs room for so many more.
    fn written(&self, writes: Writes, more: usize) -> Result<alloc::vec::Vec<u8>, Error> {
        const TOO_SMALL: u32 = 15;
        let mut length = 0;
        // SAFETY: the handle is open and of this thread; nothing is written where there is no room.
        let status = unsafe { writes(self.handle.as_ptr(), core::ptr::null_mut(), 0, &mut length) };
        if status != TOO_SMALL {
            self.checked(status)?;
        }
        let mut bytes = alloc::vec![0; length + more];
        // SAFETY: so many bytes are there.
        let status = unsafe {
            writes(
                self.handle.as_ptr(),
                bytes.as_mut_ptr().cast(),
                bytes.len(),
                &mut length,
            )
        };
        self.checked(status)?;
        bytes.truncate(length);
        Ok(bytes)
    }
}

impl<'m> Heap<'m> {
    /// Opens a heap in lent memory, of at least [`Config::words`] words. Nothing is allocated.
    ///
    /// ```
    /// use rtheap::{Config, Heap};
    ///
    /// const CONFIG: Config = Config::new(64, 20);
    /// let mut memory = [0; CONFIG.words()];
    /// let mut heap = Heap::open_in(&CONFIG, &mut memory)?;
    /// heap.set(1, 5)?;
    /// # Ok::<(), rtheap::Error>(())
    /// ```
    ///
    /// # Errors
    ///
    /// `TooSmall` where the words are too few, and otherwise as for `open`.
    pub fn open_in(config: &Config, memory: &'m mut [u64]) -> Result<Heap<'m>, Error> {
        let mut own = ffi::Handle::CLOSED;
        if memory.len() < ffi::HANDLE_WORDS {
            // SAFETY: the handle is closed; no memory is lent.
            let status =
                unsafe { ffi::rtheap_open_in(&mut own, &config.coded(), core::ptr::null_mut(), 0) };
            // SAFETY: it is a handle of a heap.
            return Err(unsafe { Error::of(status, &own, ffi::rtheap_last_error) });
        }
        let (words, rest) = memory.split_at_mut(ffi::HANDLE_WORDS);
        words.fill(0);
        let handle = NonNull::from(words).cast::<ffi::Handle>();
        let bytes = size_of_val(rest);
        // SAFETY: zeros are a closed handle, and nobody else uses the memory for 'm.
        let status = unsafe {
            ffi::rtheap_open_in(
                handle.as_ptr(),
                &config.coded(),
                rest.as_mut_ptr().cast(),
                bytes,
            )
        };
        let heap = Heap {
            handle,
            is_boxed: false,
            lent: PhantomData,
        };
        heap.checked(status)?;
        Ok(heap)
    }

    fn checked(&self, status: u32) -> Result<(), Error> {
        if status == 0 {
            return Ok(());
        }
        // SAFETY: it is the handle of a heap.
        Err(unsafe { Error::of(status, self.handle.as_ptr(), ffi::rtheap_last_error) })
    }

    /// Carries out a command.
    ///
    /// # Errors
    ///
    /// `Bounds` and `Life`, and the heap is unchanged; `Full`, `Nil`, `NotObject` and `Range`, where
    /// the command was carried out and failed, and no register or field has changed.
    pub fn ask(&mut self, command: Command) -> Result<Reply, Error> {
        let mut reply = ffi::Reply::default();
        // SAFETY: the handle is open, and `reply` is a reply of C.
        let status = unsafe { ffi::rtheap_ask(self.handle.as_ptr(), command.coded(), &mut reply) };
        self.checked(status)?;
        Ok(Reply::of(reply))
    }

    /// What field `i` of the object in register `s` holds, as [`Heap::get`] returns it, but without
    /// a command: no register changes, and nothing of the life is taken.
    ///
    /// # Errors
    ///
    /// `Bounds`, `Nil`, `NotObject` and `Range`.
    pub fn peek(&self, s: u8, i: u64) -> Result<Value, Error> {
        let mut value = ffi::Reply::default();
        // SAFETY: the handle is open and of this thread, and `value` has the form of one of C.
        let status = unsafe { ffi::rtheap_peek(self.handle.as_ptr(), s.into(), i, &mut value) };
        self.checked(status)?;
        Ok(Reply::of(value).value())
    }

    /// What is at the end of a path of indices from register `s`; with none what it holds. It is no
    /// command.
    ///
    /// # Errors
    ///
    /// As of [`Heap::peek`].
    pub fn peek_path(&self, s: u8, path: &[u64]) -> Result<Value, Error> {
        let mut value = ffi::Reply::default();
        // SAFETY: as above; the path has as many indices as are given.
        let status = unsafe {
            ffi::rtheap_peek_path(
                self.handle.as_ptr(),
                s.into(),
                path.as_ptr(),
                path.len(),
                &mut value,
            )
        };
        self.checked(status)?;
        Ok(Reply::of(value).value())
    }

    /// What it has done, and what is left of its life. It changes nothing.
    #[must_use]
    pub fn statistics(&self) -> Statistics {
        let mut told = ffi::Statistics::default();
        let size = size_of::<ffi::Statistics>();
        // SAFETY: the handle is open, and `told` has the size that is given.
        let status = unsafe { ffi::rtheap_read_statistics(self.handle.as_ptr(), &mut told, size) };
        debug_assert_eq!(status, 0);
        Statistics::of(told.numbers)
    }
}

/// One call for each command. Each has the errors of [`Heap::ask`].
#[allow(clippy::missing_errors_doc)]
impl Heap<'_> {
    /// Register `d`: a new record, whose fields are nil. Returns its name.
    pub fn record(&mut self, d: u8, fields: u32) -> Result<Name, Error> {
        self.made(Command::Record { d, fields })
    }

    /// Register `d`: a new array, whose elements are nil. Returns its name.
    pub fn array(&mut self, d: u8, elements: u32) -> Result<Name, Error> {
        self.made(Command::Array { d, elements })
    }

    /// Register `d`: a number below 2^62.
    pub fn set(&mut self, d: u8, value: u64) -> Result<(), Error> {
        self.ask(Command::Set { d, value }).map(drop)
    }

    /// Register `d`: nil.
    pub fn nil(&mut self, d: u8) -> Result<(), Error> {
        self.ask(Command::Nil { d }).map(drop)
    }

    /// Register `d`: what register `s` holds.
    pub fn mov(&mut self, d: u8, s: u8) -> Result<(), Error> {
        self.ask(Command::Mov { d, s }).map(drop)
    }

    /// Register `d`: what field `i` of the object in register `s` holds, which it returns.
    pub fn get(&mut self, d: u8, s: u8, i: u64) -> Result<Value, Error> {
        self.ask(Command::Get { d, s, i }).map(Reply::value)
    }

    /// Field `i` of the object in register `s`: what register `v` holds.
    pub fn put(&mut self, s: u8, i: u64, v: u8) -> Result<(), Error> {
        self.ask(Command::Put { s, i, v }).map(drop)
    }

    /// The length of the object in register `s`.
    pub fn len(&mut self, s: u8) -> Result<u64, Error> {
        match self.ask(Command::Len { s })? {
            Reply::Len(length) => Ok(length),
            _ => Ok(0),
        }
    }

    /// Whether registers `a` and `b` hold the same.
    pub fn same(&mut self, a: u8, b: u8) -> Result<bool, Error> {
        self.ask(Command::Same { a, b }).map(Reply::is_yes)
    }

    /// What register `s` holds.
    pub fn say(&mut self, s: u8) -> Result<Value, Error> {
        self.ask(Command::Say { s }).map(Reply::value)
    }

    /// Exchanges field `i` of the object in register `s` with register `v`. Returns what the field
    /// held.
    pub fn swap(&mut self, s: u8, i: u64, v: u8) -> Result<Value, Error> {
        self.ask(Command::Swap { s, i, v }).map(Reply::value)
    }

    /// If field `i` of the object in register `s` holds what register `a` does, copies register `v`
    /// to it. Returns whether it did.
    pub fn cas(&mut self, s: u8, i: u64, a: u8, v: u8) -> Result<bool, Error> {
        self.ask(Command::Cas { s, i, a, v }).map(Reply::is_yes)
    }

    /// So many units of collection, at most 131,070.
    pub fn idle(&mut self, units: u64) -> Result<(), Error> {
        self.ask(Command::Idle { units }).map(drop)
    }

    fn made(&mut self, command: Command) -> Result<Name, Error> {
        match self.ask(command)?.value() {
            Value::Ref(name) => Ok(name),
            _ => Ok(Name {
                thread: 0,
                serial: 0,
            }),
        }
    }
}

impl Drop for Heap<'_> {
    fn drop(&mut self) {
        // SAFETY: the handle is of a heap, and closing a closed one does nothing.
        unsafe { ffi::rtheap_close(self.handle.as_ptr()) };
        #[cfg(feature = "alloc")]
        if self.is_boxed {
            // SAFETY: `open` made it of a box.
            drop(unsafe { alloc::boxed::Box::from_raw(self.handle.as_ptr()) });
        }
        let _ = self.is_boxed;
    }
}

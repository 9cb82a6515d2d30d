//! Why a call was refused or failed.
use core::ffi::CStr;
use core::fmt;

use crate::ffi;

/// The kind of an error: a status of `c/rtheap.h`.
#[derive(Clone, Copy, Debug, PartialEq, Eq)]
#[non_exhaustive]
pub enum ErrorKind {
    /// A number is out of range, or not for blocks of this width.
    Bounds,
    /// Too little is left of the heap's life.
    Life,
    /// Registers and shared array exceed the live limit.
    Live,
    /// The heap has too few blocks for the live limit.
    Rate,
    /// An allocation failed.
    Memory,
    /// No room: more blocks than the live limit were reachable. `Error::value` is the cycle.
    Full,
    /// The register, or a field on a path, holds nil, and no reference.
    Nil,
    /// The register, or a field on a path, holds a number, and no reference.
    NotObject,
    /// The object has no such field or element.
    Range,
    /// The lent memory is too small.
    TooSmall,
    /// The worker's last command is not done.
    Busy,
    /// The group has no worker.
    NoWorker,
    /// The worker has not seen all that came before the stamp.
    NotSeen,
    /// A worker of the heap was not given back.
    WorkersOut,
    /// The worker is of another group.
    WrongGroup,
    /// There are too many objects to be saved and loaded.
    TooLarge,
    /// The bytes are not those of a saved heap.
    NotSaved,
    /// The heap was saved in another version.
    SavedVersion,
    /// The saved heap is cut short or too long.
    Torn,
    /// The saved heap was changed.
    Checksum,
    /// The saved heap has no picture of a heap.
    Malformed,
    /// `object` is too small for a saved object, or for a table of them.
    Object,
    /// `live` is too small for what was saved.
    NoRoom,
    /// Another status, which is in the text.
    Other(u32),
}

impl ErrorKind {
    fn of(status: u32) -> ErrorKind {
        match status {
            2 => ErrorKind::Bounds,
            3 => ErrorKind::Life,
            6 => ErrorKind::Live,
            7 => ErrorKind::Rate,
            8 => ErrorKind::Memory,
            11 => ErrorKind::Full,
            12 => ErrorKind::Nil,
            13 => ErrorKind::NotObject,
            14 => ErrorKind::Range,
            15 => ErrorKind::TooSmall,
            16 => ErrorKind::Busy,
            20 => ErrorKind::NoWorker,
            21 => ErrorKind::NotSeen,
            22 => ErrorKind::WorkersOut,
            26 => ErrorKind::WrongGroup,
            31 => ErrorKind::TooLarge,
            32 => ErrorKind::NotSaved,
            33 => ErrorKind::SavedVersion,
            34 => ErrorKind::Torn,
            35 => ErrorKind::Checksum,
            36 => ErrorKind::Malformed,
            37 => ErrorKind::Object,
            38 => ErrorKind::NoRoom,
            other => ErrorKind::Other(other),
        }
    }
}

/// Why a call was refused or failed, and which argument was wrong.
#[derive(Clone, Copy, Debug, PartialEq, Eq)]
pub struct Error {
    /// The kind of the error.
    pub kind: ErrorKind,
    /// The name of the argument that was wrong, such as `"blocks"` or `"d"`.
    pub argument: Option<&'static str>,
    /// Its value; of [`ErrorKind::Full`] the cycle that the reply named.
    pub value: u64,
    /// The least that it may be, or 0.
    pub least: u64,
    /// The most that it may be, or `u64::MAX`.
    pub most: u64,
    status: u32,
}

type Tells = unsafe extern "C" fn(*const ffi::Handle, *mut ffi::Error, usize) -> u32;

impl Error {
    fn plain(status: u32) -> Error {
        Error {
            kind: ErrorKind::of(status),
            argument: None,
            value: 0,
            least: 0,
            most: u64::MAX,
            status,
        }
    }

    /// The error of a call with this status, as the handle tells it.
    ///
    /// # Safety
    ///
    /// The handle is one of the kind of `tells`.
    pub(crate) unsafe fn of(status: u32, handle: *const ffi::Handle, tells: Tells) -> Error {
        let mut told = ffi::Error {
            status: 0,
            argument: core::ptr::null(),
            value: 0,
            least: 0,
            most: 0,
        };
        let plain = Error::plain(status);
        // SAFETY: `told` has room for the size that is given.
        let none = unsafe { tells(handle, &mut told, size_of::<ffi::Error>()) } != 0;
        if none || told.status != status {
            return plain;
        }
        Error {
            argument: text_at(told.argument),
            value: told.value,
            least: told.least,
            most: told.most,
            ..plain
        }
    }
}

/// A text of the library, which never changes.
fn text_at(at: *const core::ffi::c_char) -> Option<&'static str> {
    if at.is_null() {
        return None;
    }
    // SAFETY: the library's texts are constants that end with a zero byte.
    unsafe { CStr::from_ptr(at) }.to_str().ok()
}

impl fmt::Display for Error {
    fn fmt(&self, out: &mut fmt::Formatter<'_>) -> fmt::Result {
        // SAFETY: it returns a constant for any number.
        let text = text_at(unsafe { ffi::rtheap_status_text(self.status) });
        out.write_str(text.unwrap_or("no text"))?;
        let Some(argument) = self.argument else {
            return Ok(());
        };
        write!(out, ": {argument} is {}", self.value)?;
        if self.least > 0 {
            write!(out, "; at least {}", self.least)?;
        }
        if self.most < u64::MAX {
            write!(out, "; at most {}", self.most)?;
        }
        Ok(())
    }
}

impl core::error::Error for Error {}

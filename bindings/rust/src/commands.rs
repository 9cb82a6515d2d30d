//! Commands and their replies.
use crate::ffi;

/// The name of an object: the thread that made it, and a number. It keeps nothing alive.
#[derive(Clone, Copy, Debug, PartialEq, Eq, Hash)]
pub struct Name {
    /// The thread, or the number of threads for the shared array.
    pub thread: u32,
    /// The number, from 1.
    pub serial: u64,
}

/// What a register, field or element holds.
#[derive(Clone, Copy, Debug, PartialEq, Eq, Hash)]
pub enum Value {
    /// Nothing.
    Nil,
    /// A number below 2^62.
    Int(u64),
    /// A reference to the object of this name.
    Ref(Name),
}

impl Value {
    /// The number, if it is one.
    #[must_use]
    pub fn number(self) -> Option<u64> {
        match self {
            Value::Int(number) => Some(number),
            _ => None,
        }
    }
}

/// A command as a value. Registers are 0 to 15.
#[derive(Clone, Copy, Debug, PartialEq, Eq)]
#[allow(missing_docs)] // the operands, which the variants name
pub enum Command {
    /// Register `d`: a new record, whose fields are nil.
    Record { d: u8, fields: u32 },
    /// Register `d`: a new array, whose elements are nil.
    Array { d: u8, elements: u32 },
    /// Register `d`: a number.
    Set { d: u8, value: u64 },
    /// Register `d`: nil.
    Nil { d: u8 },
    /// Register `d`: what register `s` holds.
    Mov { d: u8, s: u8 },
    /// Register `d`: what field `i` of the object in register `s` holds.
    Get { d: u8, s: u8, i: u64 },
    /// Field `i` of the object in register `s`: what register `v` holds.
    Put { s: u8, i: u64, v: u8 },
    /// The length of the object in register `s`.
    Len { s: u8 },
    /// Whether registers `a` and `b` hold the same.
    Same { a: u8, b: u8 },
    /// What register `s` holds.
    Say { s: u8 },
    /// Exchanges a field and register `v`; the reply has what the field held.
    Swap { s: u8, i: u64, v: u8 },
    /// Copies register `v` to a field that holds what register `a` does; whether it did.
    Cas { s: u8, i: u64, a: u8, v: u8 },
    /// So many units of collection, at most 131,070.
    Idle { units: u64 },
}

fn coded(kind: u32, a: u8, b: u32, v: u8, n: u64) -> ffi::Command {
    ffi::Command {
        kind,
        a: a.into(),
        b,
        v: v.into(),
        n,
    }
}

impl Command {
    pub(crate) fn coded(self) -> ffi::Command {
        match self {
            Command::Record { d, fields } => coded(0, d, fields, 0, 0),
            Command::Array { d, elements } => coded(1, d, elements, 0, 0),
            Command::Set { d, value } => coded(2, d, 0, 0, value),
            Command::Nil { d } => coded(3, d, 0, 0, 0),
            Command::Mov { d, s } => coded(4, d, s.into(), 0, 0),
            Command::Get { d, s, i } => coded(5, d, s.into(), 0, i),
            Command::Put { s, i, v } => coded(6, s, 0, v, i),
            Command::Len { s } => coded(7, s, 0, 0, 0),
            Command::Same { a, b } => coded(8, a, b.into(), 0, 0),
            Command::Say { s } => coded(9, s, 0, 0, 0),
            Command::Swap { s, i, v } => coded(10, s, 0, v, i),
            Command::Cas { s, i, a, v } => coded(11, s, a.into(), v, i),
            Command::Idle { units } => coded(12, 0, 0, 0, units),
        }
    }
}

/// What a command that was done replied.
#[derive(Clone, Copy, Debug, PartialEq, Eq)]
pub enum Reply {
    /// The name of the new object.
    New(Name),
    /// The value is stored.
    Stored,
    /// A value.
    Value(Value),
    /// A length.
    Len(u64),
    /// Yes or no.
    Answer(bool),
    /// The units are done.
    Idled,
}

impl Reply {
    /// The reply of a command with status 0. Failures have another.
    pub(crate) fn of(told: ffi::Reply) -> Reply {
        let name = Name {
            thread: told.thread,
            serial: told.value,
        };
        match told.kind {
            0 => Reply::New(name),
            3 => Reply::Value(Value::Nil),
            4 => Reply::Value(Value::Int(told.value)),
            5 => Reply::Value(Value::Ref(name)),
            6 => Reply::Len(told.value),
            7 => Reply::Answer(true),
            8 => Reply::Answer(false),
            12 => Reply::Idled,
            _ => Reply::Stored,
        }
    }

    /// The value, or nil where there is none.
    pub(crate) fn value(self) -> Value {
        match self {
            Reply::Value(value) => value,
            Reply::New(name) => Value::Ref(name),
            _ => Value::Nil,
        }
    }

    /// Whether it is a yes.
    #[must_use]
    pub fn is_yes(self) -> bool {
        self == Reply::Answer(true)
    }
}

"""A garbage-collected heap with 16 registers, by the shared object librtheap (c/README.md).

    with rtheap.Heap(blocks=512, live=128, shared=80) as heap:
        heap.record(1, fields=2)    # register 1: a new record of 2 fields
        heap.set(2, 1250)           # register 2: the number 1250
        heap.put(1, 0, 2)           # field 0 of the record: that number
        print(heap.get(2, 1, 0))    # 1250

A call that is refused or fails raises an Error, which has the status and says which argument was
wrong. A value is None (nil), an int below 2**62 or a Name (a reference). After an Error with
Status.ERR_FULL register d keeps its old object.

For trying and for tests: ctypes takes some microseconds for each call. The shared object is looked
for where the variable RTHEAP_LIBRARY says, or else where the loader looks.
"""
import ctypes
import ctypes.util
import enum
import os
import time
from ctypes import POINTER, byref, c_bool, c_char_p, c_size_t, c_uint32, c_uint64, c_void_p
from typing import NamedTuple, Optional, Union

VERSION = (0, 1)  # the first two numbers of the library's version


class Status(enum.IntEnum):
    """What a call returned."""
    OK = 0
    ERR_CLOSED = 1
    ERR_BOUNDS = 2
    ERR_LIFE = 3
    ERR_OPEN = 4
    ERR_WIDTH = 5
    ERR_LIVE = 6
    ERR_RATE = 7
    ERR_MEMORY = 8
    ERR_NULL_HANDLE = 10
    ERR_FULL = 11
    ERR_NIL = 12
    ERR_NOT_OBJECT = 13
    ERR_RANGE = 14
    ERR_TOO_SMALL = 15
    ERR_BUSY = 16
    NOT_DONE = 17
    ERR_NO_COMMAND = 18
    ERR_NO_SUCH_COMMAND = 19
    ERR_NO_WORKER = 20
    ERR_NOT_SEEN = 21
    ERR_WORKERS_OUT = 22
    ERR_IN_USE = 23
    ERR_MOVED = 24
    ERR_WRONG_HANDLE = 25
    ERR_WRONG_GROUP = 26
    ERR_NULL_POINTER = 27
    ERR_CONFIG_SIZE = 28
    ERR_NOT_NUMBER = 29
    ERR_USED = 30
    ERR_TOO_LARGE = 31
    ERR_NOT_SAVED = 32
    ERR_SAVED_VERSION = 33
    ERR_TORN = 34
    ERR_CHECKSUM = 35
    ERR_MALFORMED = 36
    ERR_OBJECT = 37
    ERR_NO_ROOM = 38


class Name(NamedTuple):
    """The name of an object: the thread that made it, and a number. It keeps nothing alive."""
    thread: int
    serial: int


Value = Union[None, int, Name]


class Statistics(NamedTuple):
    commands: int
    commands_left: int
    units: int
    units_left: int
    objects: int
    objects_left: int
    fulls: int
    full_cycle: int
    rate: int


class Error(Exception):
    """Why a call was refused or failed. `argument` is the name of what was wrong, or None."""

    def __init__(self, status, argument=None, value=0, least=0, most=2 ** 64 - 1):
        self.status = Status(status)
        self.argument, self.value, self.least, self.most = argument, value, least, most
        text = _library.rtheap_status_text(status).decode()
        if argument is not None:
            text += f": {argument} is {value}"
            text += f"; at least {least}" if least > 0 else ""
            text += f"; at most {most}" if most < 2 ** 64 - 1 else ""
        super().__init__(text)


# ---- The types of C


class _Handle(ctypes.Structure):
    _fields_ = [("words", c_uint64 * 32)]


class _Config(ctypes.Structure):
    _fields_ = [(name, c_uint32) for name in
                ("size", "width", "threads", "blocks", "live", "object", "shared")]


class _Value(ctypes.Structure):
    _fields_ = [("kind", c_uint32), ("thread", c_uint32), ("number", c_uint64)]


class _Reply(ctypes.Structure):
    _fields_ = [("kind", c_uint32), ("thread", c_uint32), ("value", c_uint64)]


class Command(ctypes.Structure):
    """A command as a value, made by a function below: get(d, s, i) is that of Heap.get."""
    _fields_ = [("kind", c_uint32), ("a", c_uint32), ("b", c_uint32), ("v", c_uint32),
                ("n", c_uint64)]


class _Statistics(ctypes.Structure):
    _fields_ = [(name, c_uint64) for name in Statistics._fields]


class _Error(ctypes.Structure):
    _fields_ = [("status", c_uint32), ("argument", c_char_p), ("value", c_uint64),
                ("least", c_uint64), ("most", c_uint64)]


_WAIT = ctypes.CFUNCTYPE(None, c_void_p)
_H = POINTER(_Handle)
_R, _N, _S = c_uint32, c_uint64, c_size_t

# The arguments of the functions that return a status.
_CALLS = {
    "open": [_H, POINTER(_Config)], "close": [_H], "ask": [_H, Command, POINTER(_Reply)],
    "record": [_H, _R, _R], "array": [_H, _R, _R], "set": [_H, _R, _N], "nil": [_H, _R],
    "mov": [_H, _R, _R], "get": [_H, _R, _R, _N, POINTER(_Value)], "put": [_H, _R, _N, _R],
    "len": [_H, _R, POINTER(_N)], "same": [_H, _R, _R, POINTER(c_bool)],
    "say": [_H, _R, POINTER(_Value)], "swap": [_H, _R, _N, _R, POINTER(_Value)],
    "cas": [_H, _R, _N, _R, _R, POINTER(c_bool)], "idle": [_H, _N],
    "get_numbers": [_H, _R, _R, _N, POINTER(_N), _S, POINTER(_S)],
    "put_numbers": [_H, _R, _N, _R, POINTER(_N), _S, POINTER(_S)],
    "load": [_H, POINTER(_Config), c_char_p, _S], "save": [_H, c_void_p, _S, POINTER(_S)],
    "graph_text": [_H, c_void_p, _S, POINTER(_S)], "graph_dot": [_H, c_void_p, _S, POINTER(_S)],
    "peek": [_H, _R, _N, POINTER(_Value)],
    "peek_path": [_H, _R, POINTER(_N), _S, POINTER(_Value)],
    "read_statistics": [_H, POINTER(_Statistics), _S], "last_error": [_H, POINTER(_Error), _S],
    "group_open": [_H, POINTER(_Config)], "group_attach": [_H, _H], "group_return": [_H, _H],
    "group_finish": [_H, POINTER(_N)], "group_close": [_H],
    "group_last_error": [_H, POINTER(_Error), _S],
    "worker_ask": [_H, Command, _WAIT, c_void_p, POINTER(_Reply)], "worker_close": [_H],
    "worker_thread": [_H, POINTER(_R)], "worker_stamp": [_H, POINTER(_N)],
    "worker_follow": [_H, _N], "worker_read_statistics": [_H, POINTER(_Statistics), _S],
    "worker_last_error": [_H, POINTER(_Error), _S],
}

# The arguments of the functions that return a command.
_COMMANDS = {
    "record": [_R, _R], "array": [_R, _R], "set": [_R, _N], "nil": [_R], "mov": [_R, _R],
    "get": [_R, _R, _N], "put": [_R, _N, _R], "len": [_R], "same": [_R, _R], "say": [_R],
    "swap": [_R, _N, _R], "cas": [_R, _N, _R, _R], "idle": [_N],
}


def _load():
    path = os.environ.get("RTHEAP_LIBRARY") or ctypes.util.find_library("rtheap")
    if not path:
        raise OSError("librtheap.so was not found; RTHEAP_LIBRARY may say where it is")
    library = ctypes.CDLL(path)
    library.rtheap_version_number.restype = c_uint32
    number = library.rtheap_version_number()
    if (number // 10000, number // 100 % 100) != VERSION:
        raise OSError(f"{path} has version {number}, and this module needs {VERSION}")
    for name, arguments in _CALLS.items():
        function = getattr(library, f"rtheap_{name}")
        function.argtypes, function.restype = arguments, c_uint32
    for name, arguments in _COMMANDS.items():
        function = getattr(library, f"rtheap_cmd_{name}")
        function.argtypes, function.restype = arguments, Command
    for name in ("status_text", "status_name", "version"):
        getattr(library, f"rtheap_{name}").restype = c_char_p
    return library


_library = _load()


def version() -> str:
    """The version of the library."""
    return _library.rtheap_version().decode()


def _value(kind, thread, number) -> Value:
    return {3: None, 4: number, 5: Name(thread, number)}[kind]


def _fits(number, bits):
    """ctypes cuts off what does not fit."""
    if not 0 <= number < 2 ** bits:
        raise OverflowError(f"{number} is not a number of {bits} bits")
    return number


def _numbers(types, arguments):
    widths = {_R: 32, _N: 64}
    return [_fits(it, widths[t]) if t in widths else it for t, it in zip(types, arguments)]


class _Owner:
    """A handle of C, which stays where it is, and the calls of its kind."""
    _kind = ""

    def __init__(self):
        self._handle = _Handle()

    def _call(self, name, *arguments):
        name = self._kind + name
        status = getattr(_library, f"rtheap_{name}")(
            self._handle, *_numbers(_CALLS[name][1:], arguments))
        if status != Status.OK:
            raise self._error(status)

    def _error(self, status):
        """The last error of the handle, if it is of this status."""
        e = _Error()
        last = getattr(_library, f"rtheap_{self._kind}last_error")
        if last(self._handle, byref(e), ctypes.sizeof(e)) or e.status != status or not e.argument:
            return Error(status)
        return Error(status, e.argument.decode(), e.value, e.least, e.most)

    def statistics(self) -> Statistics:
        s = _Statistics()
        self._call("read_statistics", byref(s), ctypes.sizeof(s))
        return Statistics(*(getattr(s, name) for name in Statistics._fields))

    def close(self) -> None:
        self._call("close")

    def __enter__(self):
        return self

    def __exit__(self, *_):
        getattr(_library, f"rtheap_{self._kind}close")(self._handle)

    __del__ = __exit__


def _config(width, threads, blocks, live, object, shared):
    size = ctypes.sizeof(_Config)
    return _Config(size, *(_fits(it, 32) for it in (width, threads, blocks, live, object, shared)))


class Heap(_Owner):
    """A heap of one thread. Registers d, s, a, b, v are 0 to 15."""

    def __init__(self, blocks: int, live: int, object: int = 1, shared: int = 0, width: int = 8):
        super().__init__()
        self._call("open", byref(_config(width, 1, blocks, live, object, shared)))

    def record(self, d: int, fields: int) -> None:
        self._call("record", d, fields)

    def array(self, d: int, elements: int) -> None:
        self._call("array", d, elements)

    def set(self, d: int, value: int) -> None:
        self._call("set", d, value)

    def nil(self, d: int) -> None:
        self._call("nil", d)

    def mov(self, d: int, s: int) -> None:
        self._call("mov", d, s)

    def get(self, d: int, s: int, i: int) -> Value:
        return self._valued("get", d, s, i)

    def put(self, s: int, i: int, v: int) -> None:
        self._call("put", s, i, v)

    def len(self, s: int) -> int:
        length = c_uint64()
        self._call("len", s, byref(length))
        return length.value

    def same(self, a: int, b: int) -> bool:
        return self._decided("same", a, b)

    def say(self, s: int) -> Value:
        return self._valued("say", s)

    def swap(self, s: int, i: int, v: int) -> Value:
        return self._valued("swap", s, i, v)

    def cas(self, s: int, i: int, a: int, v: int) -> bool:
        return self._decided("cas", s, i, a, v)

    def idle(self, units: int) -> None:
        self._call("idle", units)

    def get_numbers(self, d: int, s: int, first: int, count: int) -> list:
        """Fields `first` and on of the object in register s, by way of register d."""
        numbers = (c_uint64 * count)()
        self._call("get_numbers", d, s, first, numbers, count, None)
        return list(numbers)

    def put_numbers(self, s: int, first: int, v: int, numbers) -> None:
        """Stores numbers in fields `first` and on, by way of register v."""
        held = (c_uint64 * len(numbers))(*(_fits(it, 64) for it in numbers))
        self._call("put_numbers", s, first, v, held, len(numbers), None)

    def peek(self, s: int, *path: int) -> Value:
        """What is at the end of a path of indices from register s; without a command."""
        if len(path) == 1:
            return self._valued("peek", s, path[0])
        indices = (c_uint64 * len(path))(*(_fits(it, 64) for it in path))
        return self._valued("peek_path", s, indices, len(path))

    def save(self) -> bytes:
        """What the registers reach, as bytes for Heap.load."""
        return self._written("save", 0)

    @classmethod
    def load(cls, saved: bytes, blocks: int, live: int, object: int = 1, shared: int = 0,
             width: int = 8) -> "Heap":
        """A heap that has what was saved. It needs room for a table of all objects."""
        heap = cls.__new__(cls)
        _Owner.__init__(heap)
        heap._call("load", byref(_config(width, 1, blocks, live, object, shared)), saved,
                   len(saved))
        return heap

    def text(self) -> str:
        """What the registers reach, a line for each object."""
        return self._written("graph_text", 1).decode()

    def dot(self) -> str:
        """The same as a drawing for Graphviz."""
        return self._written("graph_dot", 1).decode()

    def _written(self, name, more):
        """The bytes that a call writes, which needs room for so many more."""
        length = c_size_t()
        try:
            self._call(name, None, 0, byref(length))
        except Error as error:
            if error.status != Status.ERR_TOO_SMALL:
                raise
        written = ctypes.create_string_buffer(length.value + more)
        self._call(name, written, len(written), byref(length))
        return written.raw[:length.value]

    def _valued(self, name, *arguments):
        v = _Value()
        self._call(name, *arguments, byref(v))
        return _value(v.kind, v.thread, v.number)

    def _decided(self, name, *arguments):
        yes = c_bool()
        self._call(name, *arguments, byref(yes))
        return yes.value


def _command(name):
    def make(*arguments):
        return getattr(_library, f"rtheap_cmd_{name}")(*_numbers(_COMMANDS[name], arguments))
    make.__name__ = name
    return make


class command:
    """The commands as values, for Worker.ask: command.get(d, s, i) is that of Heap.get."""


for _name in _COMMANDS:
    setattr(command, _name, staticmethod(_command(_name)))


@_WAIT
def _let_others_run(_):
    time.sleep(0)


class Worker(_Owner):
    """A worker of a shared heap, for one thread. Made by Group.attach."""
    _kind = "worker_"

    def ask(self, asked: Command) -> Union[Value, bool]:
        """Carries out a command: a value, the name of a new object, a length, or whether."""
        reply = _Reply()
        self._call("ask", asked, _let_others_run, None, byref(reply))
        replies = {0: lambda: Name(reply.thread, reply.value), 6: lambda: reply.value,
                   7: lambda: True, 8: lambda: False, 4: lambda: reply.value,
                   5: lambda: Name(reply.thread, reply.value)}
        return replies.get(reply.kind, lambda: None)()

    def thread(self) -> int:
        number = c_uint32()
        self._call("thread", byref(number))
        return number.value

    def stamp(self) -> int:
        drawn = c_uint64()
        self._call("stamp", byref(drawn))
        return drawn.value

    def follow(self, stamp: int) -> None:
        self._call("follow", stamp)


class Group(_Owner):
    """A heap that threads share, with its workers that no thread has."""
    _kind = "group_"

    def __init__(self, threads: int, blocks: int, live: int, object: int = 1, shared: int = 0,
                 width: int = 8):
        super().__init__()
        self._call("open", byref(_config(width, threads, blocks, live, object, shared)))

    def attach(self) -> Worker:
        worker = Worker()
        self._call("attach", worker._handle)
        return worker

    def give_back(self, worker: Worker) -> None:
        self._call("return", worker._handle)

    def finish(self) -> int:
        """Closes the heap with the workers that it has, and returns the cycles of collection."""
        cycles = c_uint64()
        self._call("finish", byref(cycles))
        return cycles.value

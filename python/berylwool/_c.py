"""The C library by ctypes: its types and functions, and what each call of them needs."""
from __future__ import annotations

import contextlib
import ctypes
import operator
import os
import threading
import weakref
from typing import TYPE_CHECKING, Any, Callable, Dict, Iterator, NoReturn, Optional, SupportsIndex, Tuple, Type, TypeVar

from .errors import BerylwoolError, Node, NodeKind, NoMemoryError, NotHeldError, Status, UsageError, VerificationError

if TYPE_CHECKING:
    from _typeshed import ReadableBuffer

    Buffer = ReadableBuffer
    Key = Optional[ReadableBuffer]
    Context = Optional[str]

CHUNK_LEN = 1024
GROUP_CHUNKS = 64
HASH_LEN = 32
ALL = 2**64 - 1

u32, u64, size, address = ctypes.c_uint32, ctypes.c_uint64, ctypes.c_size_t, ctypes.c_void_p


class Mode(ctypes.Structure):
    _fields_ = [("kind", u32), ("key", ctypes.c_uint8 * HASH_LEN)]


class Slice(ctypes.Structure):
    """Which slice of which blob."""

    _fields_ = [("mode", Mode), ("root", ctypes.c_uint8 * HASH_LEN), ("start", u64), ("len", u64)]


class Chunks(ctypes.Structure):
    _fields_ = [("first", u64), ("count", u64)]


class NodeStruct(ctypes.Structure):
    _fields_ = [("kind", u32), ("number", u64)]


class Placed(ctypes.Structure):
    _fields_ = [("kind", u32), ("size", u32), *((it, u64) for it in "number start len combined_at outboard_at".split())]


class ReportStruct(ctypes.Structure):
    _fields_ = [*((it, u64) for it in "committed parents asked refused failed memory".split()), ("too_large", u32)]


class HandleStruct(ctypes.Structure):
    _fields_ = [("at", address)]


_POINTED: Tuple[Any, ...] = (Mode, Slice, Chunks, NodeStruct, Placed, ReportStruct, HandleStruct, size, u64)
_mode, _slice, _chunks, _node, _placed, _report, _handle, _size, _u64 = (ctypes.POINTER(it) for it in _POINTED)
_bytes, _hash = (address, size), address

# The parameters of each function that returns a status.
STATUS_FUNCTIONS: Dict[str, Tuple[Any, ...]] = {
    "bw_mode_derive": (*_bytes, _mode),
    "bw_hash": (_mode, *_bytes, u64, *_bytes),
    "bw_hasher_new": (_mode, _handle),
    "bw_hasher_copy": (_handle, _handle),
    "bw_hasher_update": (_handle, *_bytes),
    "bw_hasher_finish": (_handle, u64, *_bytes),
    "bw_encode": (_mode, *_bytes, *_bytes, _size, _hash),
    "bw_outboard": (_mode, *_bytes, *_bytes, _size, _hash),
    "bw_cut_slice": (*_bytes, u64, u64, *_bytes, _size),
    "bw_node_at": (u64, u64, u64, u64, _placed),
    "bw_check": (_slice, *_bytes, _u64),
    "bw_decode": (_slice, *_bytes, *_bytes, _size, _u64, _u64),
    "bw_feed_new": (_slice, _handle),
    "bw_feed_take": (_handle, *_bytes, *_bytes, _size, _size, _u64),
    "bw_feed_finish": (_handle, *_bytes, _u64),
    "bw_outline_new": (_mode, _hash, *_bytes, _handle, _u64),
    "bw_outline_share": (_handle, _handle),
    "bw_outline_length": (_handle, _u64),
    "bw_outline_check": (_handle, _chunks, *_bytes, _u64),
    "bw_outline_slice": (_handle, _chunks, *_bytes, *_bytes, _size, _u64),
    "bw_outline_commit": (_handle, _handle, _chunks, *_bytes, _u64, _u64, _u64),
    "bw_seat_new": (_mode, _hash, u64, u32, _handle),
    "bw_seat_split": (_handle, _handle),
    "bw_seat_take": (_handle, u32, u64, _u64),
    "bw_seat_give": (_handle, u32, u64, _u64),
    "bw_seat_held": (_handle, u32, _u64),
    "bw_seat_commit": (_handle, u64, u64, *_bytes, _u64, _u64, _u64),
    "bw_seat_commit_chunks": (_handle, u64, u64, *_bytes, _u64, _u64),
    "bw_seat_settle": (_handle, *_bytes, _u64),
    "bw_seat_length": (_handle, _u64),
    "bw_seat_read": (_handle, u64, *_bytes, _u64),
    "bw_seat_read_at": (_handle, u64, *_bytes, _u64),
    "bw_seat_slice": (_handle, u64, u64, *_bytes, _size, _node),
    "bw_seat_finish": (_handle, *_bytes, _size),
    "bw_seat_gather": (_handle, u32, u32, *_bytes, _report),
    "bw_seat_salvage": (_handle, *_bytes, _report),
}
# The result and the parameters of each function.
FUNCTIONS: Dict[str, Tuple[Any, ...]] = {
    "bw_free": (None, _handle),
    "bw_version": (u32,),
    "bw_strerror": (ctypes.c_char_p, u32),
    "bw_outboard_len": (u64, u64),
    "bw_slice_len": (u64, u64, u64, u64),
    **{name: (u32, *kinds) for name, kinds in STATUS_FUNCTIONS.items()},
}


def _load() -> ctypes.CDLL:
    """The library that the environment names, or else the wheel's own, or else the one that ld.so finds."""
    own = os.path.join(os.path.dirname(os.path.abspath(__file__)), "libberylwool.so.0")
    file = os.environ.get("BERYLWOOL_LIBRARY") or (own if os.path.exists(own) else "libberylwool.so.0")
    try:
        loaded = ctypes.CDLL(file)
        for name, (result, *kinds) in FUNCTIONS.items():
            function = getattr(loaded, name)
            function.restype, function.argtypes = result, kinds
    except (OSError, AttributeError) as fault:
        raise ImportError(f"{fault}: BERYLWOOL_LIBRARY can name the file of the C library") from fault
    return loaded


library = _load()


class _View(ctypes.Structure):
    """CPython's Py_buffer."""

    _fields_ = [
        *(("buf", address), ("obj", address), ("len", ctypes.c_ssize_t), ("itemsize", ctypes.c_ssize_t)),
        *(("readonly", ctypes.c_int), ("ndim", ctypes.c_int)),
        *((it, address) for it in ("format", "shape", "strides", "suboffsets", "internal")),
    ]


_get_buffer = ctypes.pythonapi.PyObject_GetBuffer
_get_buffer.argtypes = [ctypes.py_object, ctypes.POINTER(_View), ctypes.c_int]
_release_buffer = ctypes.pythonapi.PyBuffer_Release
_release_buffer.argtypes, _release_buffer.restype = [ctypes.POINTER(_View)], None
_new_bytes = ctypes.pythonapi.PyBytes_FromStringAndSize
_new_bytes.argtypes, _new_bytes.restype = [address, ctypes.c_ssize_t], ctypes.py_object


@contextlib.contextmanager
def viewed(data: Buffer) -> Iterator[Tuple[int, int]]:
    """The address and the number of a buffer's bytes, which stay there meanwhile."""
    view = _View()
    _get_buffer(data, view, 0)
    try:
        yield view.buf, view.len
    finally:
        _release_buffer(view)


def unfilled(length: int) -> bytes:
    """New bytes, which one call fills before anybody else sees them."""
    made: bytes = _new_bytes(None, number(length, "length", 2**63 - 1))
    return made


def number(value: SupportsIndex, name: str, most: int = ALL) -> int:
    """The value, unless it is too large for C: ctypes would cut it down."""
    it = operator.index(value)
    if not 0 <= it <= most:
        raise ValueError(f"{name} must be from 0 to {most}, not {it}")
    return it


def range_of(start: SupportsIndex, length: SupportsIndex) -> Tuple[int, int]:
    return number(start, "start"), number(length, "length")


def hash_of(data: Buffer, name: str = "root") -> bytes:
    it = memoryview(data).tobytes()
    if len(it) != HASH_LEN:
        raise ValueError(f"{name} must have {HASH_LEN} bytes, not {len(it)}")
    return it


def mode(key: Key, context: Context) -> Mode:
    """Keyed hashing, key derivation, or else plain hashing."""
    if key is not None and context is not None:
        raise ValueError("key and context exclude each other")
    if key is not None:
        return Mode(1, (ctypes.c_uint8 * HASH_LEN)(*hash_of(key, "key")))
    made = Mode()
    if context is not None:
        text = str.encode(context)
        must(library.bw_mode_derive(text, len(text), made))
    return made


def slice_of(root: Buffer, start: int, length: int, key: Key, context: Context) -> Slice:
    return Slice(mode(key, context), (ctypes.c_uint8 * HASH_LEN)(*hash_of(root)), *range_of(start, length))


_KINDS = (VerificationError, NotHeldError, NoMemoryError, UsageError)
_PLACED = (Status.SHORT, Status.MISMATCH, Status.TRAILING, Status.MISSING)
_NAMED = (Status.SHORT, Status.MISMATCH, Status.LACKING)
NodeAt = Callable[[int], Optional[Node]]


def must(status: int, at: Optional[ctypes.c_uint64] = None, node_at: NodeAt = lambda at: None) -> None:
    """Raises what a status says. `node_at` finds the node at an offset."""
    if status:
        place = at.value if at is not None and status in _PLACED else None
        node = node_at(place or 0) if status in _NAMED else None
        kind = next((it for it in _KINDS if status in it.statuses), BerylwoolError)
        with contextlib.suppress(ValueError):
            status = Status(status)
        raise kind(status, library.bw_strerror(status).decode(), place, node)


def claim_of(text: Tuple[int, int]) -> int:
    """The length that the encoding at an address claims."""
    return int.from_bytes(ctypes.string_at(text[0], min(text[1], 8)) if text[1] else b"", "little")


def nodes(total: int, start: int, length: int) -> NodeAt:
    """Finds nodes of a slice by their offset in its encoding."""

    def node_at(at: int) -> Optional[Node]:
        it = Placed()
        if library.bw_node_at(total, start, length, at, it) or it.kind > NodeKind.LENGTH:
            return None
        return Node(NodeKind(it.kind), it.number, it.start, it.len, it.combined_at)

    return node_at


Self = TypeVar("Self", bound="Handle")


class Handle:
    """Something that the C library owns.

    A call waits until an earlier call on the same object has ended. A call on a closed object raises ValueError. What
    isn't closed is freed when the object is collected.
    """

    def __init__(self) -> None:
        self._handle, self._lock = HandleStruct(), threading.Lock()
        self._free = weakref.finalize(self, *self._freeing())
        self._free.atexit = False

    def _freeing(self) -> Tuple[Any, ...]:
        """A function that frees the handle, and its arguments."""
        return library.bw_free, self._handle

    @classmethod
    def _empty(cls: Type[Self]) -> Self:
        it = cls.__new__(cls)
        Handle.__init__(it)
        return it

    @contextlib.contextmanager
    def _open(self) -> Iterator[HandleStruct]:
        with self._lock:
            if not self._handle.at:
                raise ValueError(f"this {type(self).__name__} is closed")
            yield self._handle

    def __reduce_ex__(self, protocol: SupportsIndex) -> NoReturn:
        """A copy would be the same object, so there is none."""
        raise TypeError(f"a {type(self).__name__} can't be copied or pickled")

    def close(self) -> None:
        """Frees what the library owns. A closed object may be closed again."""
        with self._lock:
            self._free()

    def __enter__(self: Self) -> Self:
        with self._open():
            return self

    def __exit__(self, *_: object) -> None:
        self.close()

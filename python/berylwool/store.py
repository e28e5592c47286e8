"""A store of a blob's chunks, which threads fill and read together, and which serves slices while it is unfinished.

Chunks are in groups of 64. A mask is of one group: bit j stands for chunk 64 * group + j.
"""
from __future__ import annotations

from typing import TYPE_CHECKING, Any, NamedTuple, Optional, Set, Tuple

from . import _c as c
from .encodings import Committed
from .errors import Node, NodeKind, Status

if TYPE_CHECKING:
    from ._c import Buffer, Context, Key

_MOST = 2**32 - 1


class Report(NamedTuple):
    """What a round of gathering did.

    The chunks committed, the parents stored, the slices asked for, the encodings that a check refused, the fetches
    that failed (always 0), the refusals of memory, and whether a certified length was above the store's capacity.
    """

    committed: int
    parents: int
    asked: int
    refused: int
    failed: int
    memory: int
    too_large: bool


def _give_and_free(handle: c.HandleStruct, groups: Set[int]) -> None:
    """Frees a seat, after giving back its claims, which would stay claimed."""
    for group in groups if handle.at else ():
        c.library.bw_seat_give(handle, group, c.ALL, c.u64())
    c.library.bw_free(handle)


class Seat(c.Handle):
    """A thread's seat of a store. Closing it gives back its claims. The store lives until its last seat is closed."""

    _capacity: int

    def _freeing(self) -> Tuple[Any, ...]:
        self._groups: Set[int] = set()
        return _give_and_free, self._handle, self._groups

    def split(self) -> Seat:
        """Another seat of the same store."""
        other = Seat._empty()
        other._capacity = self._capacity
        with self._open() as handle:
            c.must(c.library.bw_seat_split(handle, other._handle))
        return other

    def take(self, group: int, want: int = c.ALL) -> int:
        """Claims those chunks of the mask `want` that are neither held nor claimed, and returns their mask."""
        group, want, granted = c.number(group, "group", _MOST), c.number(want, "want"), c.u64()
        with self._open() as handle:
            self._groups.add(group)
            c.must(c.library.bw_seat_take(handle, group, want, granted))
        return granted.value

    def give(self, group: int, mask: int = c.ALL) -> int:
        """Ends the seat's claims to chunks of the mask, and returns the mask of those that it had."""
        group, mask, given = c.number(group, "group", _MOST), c.number(mask, "mask"), c.u64()
        with self._open() as handle:
            c.must(c.library.bw_seat_give(handle, group, mask, given))
        return given.value

    def held(self, group: int) -> int:
        """The mask of the group's chunks that are held. The chunk of an empty blob is never reported."""
        group, mask = c.number(group, "group", _MOST), c.u64()
        with self._open() as handle:
            c.must(c.library.bw_seat_held(handle, group, mask))
        return mask.value

    def _stored(self, name: str, range_: Tuple[int, int], encoding: Buffer, *before: int, results: int) -> Any:
        """Calls a function that verifies a slice, and returns its results."""
        at, found = c.u64(), [c.u64() for _ in range(results)]
        with self._open() as handle, c.viewed(encoding) as text:
            status = getattr(c.library, name)(handle, *before, *text, *found, at)
            c.must(status, at, c.nodes(c.claim_of(text), *range_))
        return [it.value for it in found]

    def commit(self, start: int, length: int, encoding: Buffer) -> Committed:
        """Verifies a slice, and stores all that it has, so that the store can serve it. Nothing needs to be claimed.

        Chunks that another seat claims are left out. Raises VerificationError, and BerylwoolError with
        Status.OTHER_LENGTH if the length isn't the recorded one: call `settle` first.
        """
        range_ = c.range_of(start, length)
        return Committed(*self._stored("bw_seat_commit", range_, encoding, *range_, results=2))

    def commit_chunks(self, start: int, length: int, encoding: Buffer) -> int:
        """Verifies a slice, and stores its chunks alone. No length needs to be recorded. Returns their number.

        Raises VerificationError.
        """
        range_ = c.range_of(start, length)
        (count,) = self._stored("bw_seat_commit_chunks", range_, encoding, *range_, results=1)
        return int(count)

    def settle(self, encoding: Buffer) -> None:
        """Verifies the slice (2**64 - 1, 1), which has the last chunk, and records the length that it certifies.

        Raises VerificationError, and BerylwoolError with Status.TOO_LARGE if the length is above the capacity.
        """
        self._stored("bw_seat_settle", (c.ALL, 1), encoding, results=0)

    @property
    def length(self) -> Optional[int]:
        """The recorded length of the blob, or None."""
        length = c.u64()
        with self._open() as handle:
            status = c.library.bw_seat_length(handle, length)
        if status != Status.UNFINISHED:
            c.must(status)
        return None if status else length.value

    def gather(self, encoding: Buffer, number: int = 0, workers: int = 1) -> Report:
        """Takes what is missing from a combined encoding, as worker `number` of `workers` that share out the groups.

        It also records the length. A group of 64 chunks with a damaged byte isn't taken. When all workers have ended,
        one of them goes through each encoding once more, alone. If `Report.memory` isn't 0, call it again.
        """
        workers = c.number(workers, "workers", _MOST)
        return self._gathered("bw_seat_gather", encoding, c.number(number, "number", workers - 1), workers)

    def salvage(self, encoding: Buffer) -> Report:
        """Gathers alone, chunk by chunk, for groups that are damaged in every encoding."""
        return self._gathered("bw_seat_salvage", encoding)

    def _gathered(self, name: str, encoding: Buffer, *worker: int) -> Report:
        report = c.ReportStruct()
        with self._open() as handle, c.viewed(encoding) as text:
            c.must(getattr(c.library, name)(handle, *worker, *text, report))
        made = Report._make(getattr(report, it) for it in Report._fields)
        return made._replace(too_large=bool(made.too_large))

    def read(self, start: int, length: int) -> bytes:
        """The store's bytes of a range. Raises NotHeldError, with the offset of the first byte that isn't held."""
        start, length = c.range_of(start, length)
        # (one byte more than the store can hold is missing as well as all the others)
        out, missing = c.unfilled(min(length, c.CHUNK_LEN * self._capacity + 1)), c.u64()
        with self._open() as handle:
            c.must(c.library.bw_seat_read(handle, start, out, len(out), missing), missing)
        return out

    def serve(self, start: int, length: int) -> bytes:
        """The slice (start, length). Raises NotHeldError, with the node that isn't held once a length is recorded."""
        range_, total, used, lacking = c.range_of(start, length), c.u64(), c.size(), c.NodeStruct()
        with self._open() as handle:
            settled = c.library.bw_seat_length(handle, total) == Status.OK
            out = c.unfilled(c.library.bw_slice_len(total.value, *range_) if settled else 0)
            status = c.library.bw_seat_slice(handle, *range_, out, len(out), used, lacking)
            c.must(status, None, lambda _: Node(NodeKind(lacking.kind), lacking.number))
        return out

    def finish(self) -> bytes:
        """The whole blob, whose hash is the root. Raises NotHeldError if the length or a byte is missing."""
        length, used = c.u64(), c.size()
        with self._open() as handle:
            c.must(c.library.bw_seat_length(handle, length))
            out = c.unfilled(length.value)
            c.must(c.library.bw_seat_finish(handle, out, len(out), used))
        return out


class Store(Seat):
    """A new store, and its first seat; the other threads take theirs by `split`.

    It has room for `capacity` chunks, 1 to 65,536, and takes some 1,096 bytes for each at once. With `first_chunk` it
    is the store of a part of a blob, which records no length and serves no slices. In it chunks, groups and the
    offsets of `read` are counted from that chunk.
    """

    def __init__(
        self, root: Buffer, capacity: int, first_chunk: int = 0, *, key: Key = None, context: Context = None
    ) -> None:
        super().__init__()
        self._capacity, first = c.number(capacity, "capacity", _MOST), c.number(first_chunk, "first_chunk")
        mode, hash_ = c.mode(key, context), c.hash_of(root)
        c.must(c.library.bw_seat_new(mode, hash_, first, self._capacity, self._handle))

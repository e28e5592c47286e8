"""Bao encodings and slices: written, cut out and verified.

The slice (start, length) of a blob has the chunks with its bytes from `start` up to `start + length`, and the parents
above them. A `length` of 0 counts as 1, and a `start` at or past the end selects the last chunk.
"""
from __future__ import annotations

import asyncio
from typing import TYPE_CHECKING, Any, AsyncIterable, AsyncIterator, Iterable, Iterator, NamedTuple, Optional, Tuple

from . import _c as c
from .errors import Node, NodeKind, Status

if TYPE_CHECKING:
    from ._c import Buffer, Context, Key
    from .store import Seat


class Encoded(NamedTuple):
    """A blob's root, and an encoding of it."""

    root: bytes
    encoding: bytes


class Decoded(NamedTuple):
    """Verified bytes, and the blob's length if the slice certifies it by having the last chunk."""

    data: bytes
    length: Optional[int]


class Committed(NamedTuple):
    """How many chunks and parents were stored."""

    chunks: int
    parents: int


def _encoded(name: str, has_bytes: bool, data: Buffer, key: Key, context: Context) -> Encoded:
    with c.viewed(data) as text:
        length = c.library.bw_outboard_len(text[1]) + (text[1] if has_bytes else 0)
        out, root = c.unfilled(length), c.unfilled(c.HASH_LEN)
        c.must(getattr(c.library, name)(c.mode(key, context), *text, out, len(out), c.size(), root))
    return Encoded(root, out)


def encode(data: Buffer, *, key: Key = None, context: Context = None) -> Encoded:
    """The combined encoding of a blob, which is the blob with its hash tree."""
    return _encoded("bw_encode", True, data, key, context)


def outboard(data: Buffer, *, key: Key = None, context: Context = None) -> Encoded:
    """The outboard encoding of a blob, which is its hash tree alone."""
    return _encoded("bw_outboard", False, data, key, context)


def cut_slice(encoding: Buffer, start: int, length: int) -> bytes:
    """The slice (start, length) out of a combined encoding. It isn't verified, and what is missing is left out."""
    range_, used = c.range_of(start, length), c.size()
    with c.viewed(encoding) as text:
        out = c.unfilled(min(text[1], c.library.bw_slice_len(c.claim_of(text), *range_) or text[1]))
        c.must(c.library.bw_cut_slice(*text, *range_, out, len(out), used))
    return out[: used.value]


def slice(data: Buffer, start: int, length: int, *, key: Key = None, context: Context = None) -> Encoded:
    """The slice (start, length) of a blob. It takes memory for the whole encoding."""
    root, encoding = encode(data, key=key, context=context)
    return Encoded(root, cut_slice(encoding, start, length))


def decode_slice(
    root: Buffer, encoding: Buffer, start: int, length: int, *, key: Key = None, context: Context = None
) -> Decoded:
    """Verifies the slice (start, length), and returns the `length` bytes from `start` on, or those before the end.

    Raises VerificationError, with the offset in `encoding`.
    """
    slice_, used, total, at = c.slice_of(root, start, length, key, context), c.size(), c.u64(), c.u64()
    with c.viewed(encoding) as text:
        asked, node_at = (slice_, *text), c.nodes(c.claim_of(text), slice_.start, slice_.len)
        out = b""
        status = c.library.bw_decode(*asked, out, 0, used, total, at)
        if status == Status.ROOM and used.value > text[1]:  # it claims more bytes than it can have
            status = c.library.bw_check(*asked, at)
        elif status == Status.ROOM:
            out = c.unfilled(used.value)
            status = c.library.bw_decode(*asked, out, len(out), used, total, at)
        c.must(status, at, node_at)
    return Decoded(out, None if total.value == c.ALL else total.value)


def decode(
    root: Buffer,
    encoding: Buffer,
    start: int = 0,
    length: Optional[int] = None,
    *,
    outboard: Optional[Buffer] = None,
    key: Key = None,
    context: Context = None,
) -> bytes:
    """Verifies a combined encoding, or a plain copy beside its `outboard` encoding, and returns the blob.

    With `start` or `length` only the chunks of that range are verified, and its bytes returned. Raises
    VerificationError, with the offset in the encoding, in the range's slice, or in the range's chunks of the copy.
    """
    if outboard is not None:
        with Outline(root, outboard, key=key, context=context) as outline:
            return outline.decode(encoding, start, length)
    range_ = c.range_of(start, c.ALL if length is None else length)
    text = encoding if range_ == (0, c.ALL) else cut_slice(encoding, *range_)
    return decode_slice(root, text, *range_, key=key, context=context).data


class Decoder(c.Handle):
    """Verifies a combined encoding, or the slice (start, length), while it arrives, in little memory.

    Of a slice it returns the bytes of all its chunks. What `update` has returned is verified, even if a later call
    raises VerificationError, which closes it. Parts of 256 KiB take less time than small ones.
    """

    def __init__(
        self, root: Buffer, start: int = 0, length: int = c.ALL, *, key: Key = None, context: Context = None
    ) -> None:
        super().__init__()
        self._slice, self._claim, self._rest = c.slice_of(root, start, length, key, context), b"", b""
        c.must(c.library.bw_feed_new(self._slice, self._handle))

    def _node_at(self, offset: int) -> Optional[Node]:
        return c.nodes(int.from_bytes(self._claim, "little"), self._slice.start, self._slice.len)(offset)

    def update(self, part: Buffer) -> bytes:
        """Takes the encoding's next bytes, and returns the blob's bytes that are verified now."""
        at, taken, filled = c.u64(), c.size(), c.size()
        with self._open() as handle:
            if len(self._rest) > c.CHUNK_LEN:  # more than a node has: it follows the last one
                self._finished(handle)
            text = self._rest + memoryview(part).tobytes()
            self._claim = self._claim if len(self._claim) == 8 else text[:8]
            out = c.unfilled(len(text))
            status = c.library.bw_feed_take(handle, text, len(text), out, len(out), taken, filled, at)
            if status:
                self._free()
            c.must(status, at, self._node_at)
            self._rest = text[taken.value :]
        return out[: filled.value]

    def finish(self) -> None:
        """Raises VerificationError unless all that came is an accepted encoding. More may follow."""
        with self._open() as handle:
            self._finished(handle)

    def _finished(self, handle: c.HandleStruct) -> None:
        at = c.u64()
        c.must(c.library.bw_feed_finish(handle, self._rest, len(self._rest), at), at, self._node_at)


def decode_iter(root: Buffer, parts: Iterable[Buffer], *, key: Key = None, context: Context = None) -> Iterator[bytes]:
    """Verifies a combined encoding while it arrives, with a `Decoder`, and yields the blob's bytes.

    What it yields is the blob's beginning, even if it raises VerificationError in the end.
    """
    with Decoder(root, key=key, context=context) as decoder:
        for part in parts:
            if data := decoder.update(part):
                yield data
        decoder.finish()


async def decode_aiter(
    root: Buffer, parts: AsyncIterable[Buffer], *, key: Key = None, context: Context = None
) -> AsyncIterator[bytes]:
    """Does what `decode_iter` does with parts that are awaited. The event loop runs on while a part is verified."""
    run = asyncio.get_running_loop().run_in_executor
    with Decoder(root, key=key, context=context) as decoder:
        async for part in parts:
            if data := await run(None, decoder.update, part):
                yield data
        decoder.finish()


class Outline(c.Handle):
    """An outboard encoding that was verified once. Chunks of plain copies are verified beside it at their own cost.

    `chunks` has the bytes of the blob's chunks from chunk `first` on, of 1,024 bytes each, or fewer in the blob's last.
    Raises VerificationError, with the offset in `outboard` or in `chunks`.
    """

    def __init__(self, root: Buffer, outboard: Buffer, *, key: Key = None, context: Context = None) -> None:
        super().__init__()
        mode, hash_, at = c.mode(key, context), c.hash_of(root), c.u64()
        with c.viewed(outboard) as text:
            c.must(c.library.bw_outline_new(mode, hash_, *text, self._handle, at), at)

    def share(self) -> Outline:
        """Another object for the same outline, for another thread. Nothing is copied."""
        other = Outline._empty()
        with self._open() as handle:
            c.must(c.library.bw_outline_share(handle, other._handle))
        return other

    @property
    def length(self) -> int:
        """The blob's length, as the outline claims it. It is certified once the last chunk was verified."""
        length = c.u64()
        with self._open() as handle:
            c.must(c.library.bw_outline_length(handle, length))
        return length.value

    def check(self, first: int, chunks: Buffer) -> None:
        """Verifies chunks."""
        self._verify("bw_outline_check", first, None, chunks)

    def slice(self, first: int, chunks: Buffer) -> bytes:
        """Verifies chunks, and returns their slice, which is what a server of a plain file sends."""
        with c.viewed(chunks) as text:
            range_ = c.CHUNK_LEN * c.number(first, "first", 2**54), c.CHUNK_LEN * _chunks_of(text[1])
        out, used = c.unfilled(c.library.bw_slice_len(self.length, *range_)), c.size()
        self._verify("bw_outline_slice", first, None, chunks, out, len(out), used)
        return out[: used.value]

    def commit(self, seat: Seat, first: int, chunks: Buffer) -> Committed:
        """Verifies chunks, and stores them and the parents above them, as `Seat.commit` does."""
        stored = c.u64(), c.u64()
        with seat._open() as handle:
            self._verify("bw_outline_commit", first, None, chunks, *stored, seat=(handle,))
        return Committed(*(it.value for it in stored))

    def decode(self, copy: Buffer, start: int = 0, length: Optional[int] = None) -> bytes:
        """Verifies the chunks of a range of a plain copy, and returns its bytes, as `decode` does."""
        total, (start, count) = self.length, c.range_of(start, c.ALL if length is None else length)
        end, first = min(start + count, total), min(start, max(total, 1) - 1) // c.CHUNK_LEN
        chunks = max(-(-end // c.CHUNK_LEN) - first, 1)
        # (a range without an end has all that the copy has, so that what follows the blob is refused)
        after = None if length is None else c.CHUNK_LEN * (first + chunks)
        # What is verified is what is returned, also if the copy changes meanwhile.
        own = memoryview(copy).cast("B")[c.CHUNK_LEN * first : after].tobytes()
        self._verify("bw_outline_check", first, chunks, own)
        return own[start - c.CHUNK_LEN * first : max(end - c.CHUNK_LEN * first, 0)]

    def _verify(
        self, name: str, first: int, count: Optional[int], chunks: Buffer, *after: Any, seat: Tuple[Any, ...] = ()
    ) -> None:
        first, at = c.number(first, "first"), c.u64()

        def node_at(offset: int) -> Node:
            return Node(NodeKind.CHUNK, first + offset // c.CHUNK_LEN, c.CHUNK_LEN * first + offset)

        with self._open() as handle, c.viewed(chunks) as text:
            count = _chunks_of(text[1]) if count is None else count
            c.must(getattr(c.library, name)(handle, *seat, c.Chunks(first, count), *text, *after, at), at, node_at)


def _chunks_of(length: int) -> int:
    return max(-(-length // c.CHUNK_LEN), 1)

"""BLAKE3: hashes, keyed hashes, derived keys and extended output."""
from __future__ import annotations

import os
from typing import TYPE_CHECKING

from . import _c as c

if TYPE_CHECKING:
    from _typeshed import StrOrBytesPath

    from ._c import Buffer, Context, Key

PIECE_LEN = 1 << 20


class Blake3(c.Handle):
    """A hash of bytes that come in parts, with the methods of hashlib's objects.

    With `key`, of 32 bytes, it is a keyed hash. With `context` it derives a key: the context names the purpose, and
    the bytes are the key's material.
    """

    name = "blake3"
    digest_size = c.HASH_LEN
    block_size = 64

    def __init__(self, data: Buffer = b"", *, key: Key = None, context: Context = None) -> None:
        super().__init__()
        c.must(c.library.bw_hasher_new(c.mode(key, context), self._handle))
        self.update(data)

    def update(self, data: Buffer) -> None:
        """Appends the bytes of any contiguous buffer, without a copy."""
        with self._open() as handle, c.viewed(data) as text:
            c.must(c.library.bw_hasher_update(handle, *text))

    def copy(self) -> Blake3:
        """Another object with the same mode and bytes so far: what one of them is given then, the other isn't."""
        other = Blake3._empty()
        with self._open() as handle:
            c.must(c.library.bw_hasher_copy(handle, other._handle))
        return other

    def digest(self, length: int = c.HASH_LEN, seek: int = 0) -> bytes:
        """The hash of the bytes so far: `length` bytes of extended output from its byte `seek` on. More may follow."""
        out, seek = c.unfilled(length), c.number(seek, "seek")
        with self._open() as handle:
            c.must(c.library.bw_hasher_finish(handle, seek, out, len(out)))
        return out

    def hexdigest(self, length: int = c.HASH_LEN, seek: int = 0) -> str:
        """What `digest` returns, in hexadecimal digits."""
        return self.digest(length, seek).hex()


def blake3(
    data: Buffer, length: int = c.HASH_LEN, seek: int = 0, *, key: Key = None, context: Context = None
) -> bytes:
    """The hash of bytes, as `Blake3(data, ..).digest(length, seek)` returns it."""
    out, seek = c.unfilled(length), c.number(seek, "seek")
    with c.viewed(data) as text:
        c.must(c.library.bw_hash(c.mode(key, context), *text, seek, out, len(out)))
    return out


def hash_file(
    path: StrOrBytesPath, length: int = c.HASH_LEN, seek: int = 0, *, key: Key = None, context: Context = None
) -> bytes:
    """The hash of a file, which is read in pieces of 1 MiB. Raises OSError if it can't be read."""
    with Blake3(key=key, context=context) as hasher, open(os.fspath(path), "rb", buffering=0) as file:
        piece = memoryview(bytearray(PIECE_LEN))
        while count := file.readinto(piece):
            hasher.update(piece[:count])
        return hasher.digest(length, seek)

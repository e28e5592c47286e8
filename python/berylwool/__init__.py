"""Verified content-addressed storage (BLAKE3, Bao), over the C library libberylwool.

    root, encoding = berylwool.encode(b"..")
    piece = berylwool.cut_slice(encoding, 1000, 10)               # what a holder sends
    data = berylwool.decode_slice(root, piece, 1000, 10).data     # raises VerificationError unless it is the root's

Bytes come from any contiguous buffer, which nothing may change while a call reads it. Other threads run during each
call. `key` or `context` chooses keyed hashing or key derivation. Threads share a store with a `Seat` each: see `Store`.
"""
from . import _c
from ._c import CHUNK_LEN, GROUP_CHUNKS, HASH_LEN
from .encodings import (
    Committed,
    Decoded,
    Decoder,
    Encoded,
    Outline,
    cut_slice,
    decode,
    decode_aiter,
    decode_iter,
    decode_slice,
    encode,
    outboard,
    slice,
)
from .errors import (
    BerylwoolError,
    NoMemoryError,
    Node,
    NodeKind,
    NotHeldError,
    Status,
    UsageError,
    VerificationError,
)
from .hashing import Blake3, blake3, hash_file
from .store import Report, Seat, Store

__all__ = [
    "CHUNK_LEN", "GROUP_CHUNKS", "HASH_LEN", "BerylwoolError", "Blake3", "Committed", "Decoded", "Decoder", "Encoded",
    "NoMemoryError", "Node", "NodeKind", "NotHeldError", "Outline", "Report", "Seat", "Status", "Store", "UsageError",
    "VerificationError", "blake3", "cut_slice", "decode", "decode_aiter", "decode_iter", "decode_slice", "encode",
    "hash_file", "outboard", "slice",
]  # fmt: skip

__version__ = "{}.{}.{}".format(*(_c.library.bw_version() // it % 100 for it in (10000, 100, 1)))

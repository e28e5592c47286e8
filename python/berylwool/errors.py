"""The statuses of the C library, and the exceptions that carry them."""
from __future__ import annotations

import enum
from typing import ClassVar, FrozenSet, NamedTuple, Optional


class Status(enum.IntEnum):
    """A status of the C library, named as in its header, without the prefix BW_."""

    OK = 0
    TOO_LONG = 201
    TEXT_MEMORY = 401
    SHORT = 501
    MISMATCH = 502
    TRAILING = 503
    TOO_MUCH = 504
    OTHER_BLOB = 601
    COLLISION = 602
    STORE_MEMORY = 801
    CAPACITY = 802
    NO_GROUP = 803
    OTHER_ROOT = 804
    TOO_LARGE = 805
    SPLIT_MEMORY = 806
    OTHER_LENGTH = 807
    NO_LENGTH = 808
    LACKING = 809
    SERVE_MEMORY = 810
    UNFINISHED = 901
    NOT_THE_ROOT = 902
    ROOM = 1201
    NO_HANDLE = 1202
    MEMORY = 1203
    MISSING = 1204
    NO_TAIL = 1205
    DIFFERS = 1206
    NOT_UTF8 = 1207
    PAST_OUTPUT = 1208
    NO_CHUNKS = 1210
    OTHER_STORE = 1211
    OTHER_SIZE = 1212
    NO_MODE = 1213
    NO_HOLDER = 1214
    NO_REQUEST = 1215
    NO_SUBTREE = 1216


class NodeKind(enum.IntEnum):
    """What a node of an encoding is."""

    PARENT = 0
    CHUNK = 1
    LENGTH = 2


class Node(NamedTuple):
    """A node of a blob's tree: chunk `number`, or the parent whose right child begins at chunk `number`.

    It covers `length` bytes of the blob from byte `start` on, and begins at byte `combined_at` of the combined
    encoding. These three are None where only the node is known.
    """

    kind: NodeKind
    number: int
    start: Optional[int] = None
    length: Optional[int] = None
    combined_at: Optional[int] = None


class BerylwoolError(Exception):
    """A fault that the C library reported.

    `status` is a `Status`, or the bare number if this module doesn't know it. `at` is the offset of the fault in the
    bytes that were checked, or of the first byte that isn't held, and `node` the damaged or missing node; either may
    be None.
    """

    statuses: ClassVar[FrozenSet[int]] = frozenset()

    def __init__(self, status: int, words: str, at: Optional[int] = None, node: Optional[Node] = None) -> None:
        super().__init__(status, words, at, node)
        self.status, self.words, self.at, self.node = status, words, at, node

    def __str__(self) -> str:
        return f"{self.status:d}: {self.words}" + ("" if self.at is None else f", at {self.at}")


class VerificationError(BerylwoolError):
    """Bytes aren't what the root certifies: ask another holder."""

    statuses = frozenset((501, 502, 503, 504, 902, 1205))


class NotHeldError(BerylwoolError):
    """The store doesn't hold all that was asked for: gather more."""

    statuses = frozenset((808, 809, 901, 1204))


class NoMemoryError(BerylwoolError, MemoryError):
    """The library was refused memory: free some, and try again."""

    statuses = frozenset((401, 801, 806, 810, 1203))


class UsageError(BerylwoolError, ValueError):
    """No call of this kind takes these arguments: an error in the program."""

    statuses = frozenset((201, 802, 803, 804, 1208, 1210))

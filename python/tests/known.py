"""What the tests know without the library: blobs, and what the definitions in Python say of them."""
import pathlib
import sys

sys.dont_write_bytecode = True
ROOT = pathlib.Path(__file__).resolve().parents[2]
sys.path += [str(ROOT / "python"), str(ROOT / "scripts")]
import definitions as by

KEY = b"whats the Elvish word for friend"
CONTEXT = "BLAKE3 2019-12-27 16:29:52 test vectors context"
# Each mode's words for the library, and the definitions' own.
MODES = {
    "hash": ({}, by.Mode()),
    "keyed": ({"key": KEY}, by.Mode.keyed(KEY)),
    "derive": ({"context": CONTEXT}, by.Mode.derived(CONTEXT.encode())),
}
PLAIN = by.Mode()
ALL = 2**64 - 1


def blob(length):
    """The bytes of BLAKE3's test vectors."""
    return bytes(range(251)) * (length // 251) + bytes(range(length % 251))


def changed(data, *places):
    """The data with the byte at each of these places changed."""
    out = bytearray(data)
    for it in places:
        out[it] ^= 1
    return bytes(out)


def fault(root, text, start=0, length=ALL, mode=PLAIN):
    """The status, the offset and the node of the first fault of a slice, by the definitions."""

    def nodes(total):
        return by.slice_nodes(total, start, length)

    try:
        by.checked(mode, root, text, nodes)
        return None
    except by.Fault as found:
        status, at = int(str(found).split()[0]), found.at
    if len(text) < 8:
        return status, at, (2, 0)
    total = int.from_bytes(text[:8], "little")
    # Nothing is at the end, and of encodings of 2^64 bytes or more the library names no node.
    if status == 503 or 8 + total + 64 * (by.chunks_of(total) - 1) > ALL:
        return status, at, None
    for it in nodes(total):
        if it.offset == at:
            number = it.number + by.left_len(it.length) // by.CHUNK_LEN if it.is_parent else it.number
            return status, at, (0 if it.is_parent else 1, number)


def told(error):
    """The same of a VerificationError."""
    return error.status, error.at, error.node and (error.node.kind, error.node.number)

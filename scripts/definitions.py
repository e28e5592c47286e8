"""BLAKE3 and Bao by their definitions, for figures that come from outside the proved code.

Written from the BLAKE3 paper (O'Connor, Aumasson, Neves, Wilcox-O'Hearn, section 2) and the Bao specification alone, with
nothing but Python's own integers and lists: plain recursions, no lanes, no streaming. So it is slow, and meant to be.
"""
import functools

IV = (0x6A09E667, 0xBB67AE85, 0x3C6EF372, 0xA54FF53A, 0x510E527F, 0x9B05688C, 0x1F83D9AB, 0x5BE0CD19)
PERMUTATION = (2, 6, 3, 10, 7, 0, 4, 13, 1, 11, 12, 5, 9, 14, 15, 8)
CHUNK_START, CHUNK_END, PARENT, ROOT, KEYED_HASH, DERIVE_KEY_CONTEXT, DERIVE_KEY_MATERIAL = (1 << k for k in range(7))
BLOCK_LEN, CHUNK_LEN = 64, 1024
# The places that a round mixes: first the columns, then the diagonals.
ROUND = ((0, 4, 8, 12), (1, 5, 9, 13), (2, 6, 10, 14), (3, 7, 11, 15), (0, 5, 10, 15), (1, 6, 11, 12), (2, 7, 8, 13), (3, 4, 9, 14))


def compress(h, m, t, b, d):
    """The 16 words of output (paper, 2.2)."""
    v = [*h, *IV[:4], t & 0xFFFFFFFF, t >> 32, b, d]
    m = list(m)
    for _ in range(7):
        for k, (i, j, p, q) in enumerate(ROUND):
            for x, r, s in ((m[2 * k], 16, 12), (m[2 * k + 1], 8, 7)):
                v[i] = (v[i] + v[j] + x) & 0xFFFFFFFF
                w = v[q] ^ v[i]
                v[q] = (w >> r | w << 32 - r) & 0xFFFFFFFF
                v[p] = (v[p] + v[q]) & 0xFFFFFFFF
                w = v[j] ^ v[p]
                v[j] = (w >> s | w << 32 - s) & 0xFFFFFFFF
        m = [m[k] for k in PERMUTATION]
    return [v[i] ^ v[i + 8] for i in range(8)] + [v[i + 8] ^ h[i] for i in range(8)]


def words(data):
    return [int.from_bytes(data[k : k + 4], "little") for k in range(0, len(data), 4)]


def data(words):
    return b"".join(it.to_bytes(4, "little") for it in words)


class Mode:
    """Eight key words and a set of flags (paper, 2.3)."""

    def __init__(self, key=IV, flags=0):
        self.key, self.flags = tuple(key), flags

    def __eq__(self, other):
        return (self.key, self.flags) == (other.key, other.flags)

    @staticmethod
    def keyed(key):
        return Mode(words(key), KEYED_HASH)

    @staticmethod
    def derived(context):
        return Mode(words(Mode(IV, DERIVE_KEY_CONTEXT).hash(context)), DERIVE_KEY_MATERIAL)

    def chunk_top(self, number, s):
        """The last compression of a chunk (paper, 2.4)."""
        blocks = [s[k : k + BLOCK_LEN] for k in range(0, len(s), BLOCK_LEN)] or [b""]
        h = self.key
        for k, block in enumerate(blocks):
            d = self.flags | (CHUNK_START if k == 0 else 0) | (CHUNK_END if k == len(blocks) - 1 else 0)
            top = (h, words(block.ljust(BLOCK_LEN, b"\0")), number, len(block), d)
            h = compress(*top)[:8] if k < len(blocks) - 1 else h
        return top

    def parent_top(self, pair):
        """The compression of a parent, whose message is the chaining values of its two parts (paper, 2.5)."""
        return (self.key, words(pair), 0, BLOCK_LEN, self.flags | PARENT)

    def top(self, number, s):
        """The last compression of the tree over s whose first chunk has this number."""
        if len(s) <= CHUNK_LEN:
            return self.chunk_top(number, s)
        left = left_len(len(s))
        return self.parent_top(self.value(number, s[:left]) + self.value(number + left // CHUNK_LEN, s[left:]))

    def value(self, number, s):
        """Its chaining value, as 32 bytes."""
        return value_of(self.key, self.flags, number, bytes(s))

    def output(self, s, at, length):
        """`length` bytes of the extended output from byte `at` on (paper, 2.6)."""
        h, m, _, b, d = self.top(0, s)
        first, after = at // 64, (at + length + 63) // 64
        stream = b"".join(data(compress(h, m, t, b, d | ROOT)) for t in range(first, after))
        return stream[at - 64 * first :][:length]

    def hash(self, s):
        return self.output(s, 0, 32)


@functools.lru_cache(maxsize=None)
def value_of(key, flags, number, s):
    return data(compress(*Mode(key, flags).top(number, s))[:8])


@functools.lru_cache(maxsize=None)
def node_value(key, flags, is_parent, number, is_root, part):
    """The chaining value of a node's bytes, the first node's with ROOT."""
    mode = Mode(key, flags)
    h, m, t, b, d = mode.parent_top(part) if is_parent else mode.chunk_top(number, part)
    return data(compress(h, m, t, b, d | (ROOT if is_root else 0))[:8])


def left_len(n):
    """The largest power of two of whole chunks that leaves a byte for the right part."""
    k = CHUNK_LEN
    while 2 * k < n:
        k *= 2
    return k


def chunks_of(length):
    return max(1, -(-length // CHUNK_LEN))


def range_of(length, start, count):
    """The positions that a slice is of (Bao specification; an empty range counts as one byte, a late start as the last)."""
    s = min(start, max(length, 1) - 1)
    return s, max(s + 1, min(start + max(count, 1), length))


class Node:
    """A node of a text: its offset and size there, its first chunk, the bytes that it is over, and where it hangs: the
    offset of its parent's half, or None for the first node."""

    def __init__(self, offset, size, number, length, is_parent, half):
        self.offset, self.size, self.number, self.length, self.is_parent, self.half = offset, size, number, length, is_parent, half


def nodes(length, wanted, has_chunks=True):
    """The nodes of a text in pre-order, where wanted(first, after) says whether positions of a subtree are wanted.
    One by one, since a claimed length can make a tree of 2^54 chunks."""
    todo, offset = [(0, length, None)], 8
    while todo:
        first, count, half = todo.pop()
        if not wanted(first, first + count):
            continue
        is_parent = count > CHUNK_LEN
        if not is_parent and not has_chunks:
            continue
        node = Node(offset, 64 if is_parent else count, first // CHUNK_LEN, count, is_parent, half)
        offset += node.size
        yield node
        if is_parent:
            left = left_len(count)
            todo += [(first + left, count - left, node.offset + 32), (first, left, node.offset)]


def slice_nodes(length, start, count):
    s, e = range_of(length, start, count)
    return nodes(length, lambda first, after: length == 0 or first < e and s < after)


def place_of(length, number):
    """Where a chunk lies in a combined encoding."""
    return next(it.offset for it in slice_nodes(length, 0, 2**64 - 1) if not it.is_parent and it.number == number)


def outboard_nodes(length):
    return nodes(length, lambda first, after: True, has_chunks=False)


def text_of(mode, blob, given):
    """The length, and these nodes of the blob, a parent as the chaining values of its two parts."""
    text = [len(blob).to_bytes(8, "little")]
    for it in given:
        at = it.number * CHUNK_LEN
        part = blob[at : at + it.length]
        if it.is_parent:
            left = left_len(it.length)
            part = mode.value(it.number, part[:left]) + mode.value(it.number + left // CHUNK_LEN, part[left:])
        text.append(part)
    return b"".join(text)


def combined(mode, blob):
    return text_of(mode, blob, slice_nodes(len(blob), 0, 2**64 - 1))


def outboard(mode, blob):
    return text_of(mode, blob, outboard_nodes(len(blob)))


def slice_text(mode, blob, start, count):
    return text_of(mode, blob, slice_nodes(len(blob), start, count))


def cut_by(part_of, claim, start, count):
    """The bytes of the wanted nodes behind what claims the length, up to the first that isn't wholly there."""
    made, length = [claim], int.from_bytes(claim, "little")
    for it in slice_nodes(length, start, count) if len(claim) == 8 else ():
        made.append(part_of(length, it))
        if len(made[-1]) < it.size:
            break
    return b"".join(made)


def cut(text, start, count):
    """Those of a combined encoding's bytes."""

    def part_of(length, it):
        at = 8 + it.number * CHUNK_LEN + 64 * parents_before(length, it.number, it.length)
        return text[at : at + it.size]

    return cut_by(part_of, text[:8], start, count)


def parents_before(length, number, count):
    """How many parents an encoding has before the node over so many bytes from this chunk on."""
    first, size, before = 0, length, 0
    while (first, size) != (number * CHUNK_LEN, count):
        left, before = left_len(size), before + 1
        if number * CHUNK_LEN < first + left:
            size = left
        else:
            first, size, before = first + left, size - left, before + left // CHUNK_LEN - 1
    return before


def cut_beside(outboard, copy, start, count):
    """The same of the parents of an outboard encoding and the chunks of a plain copy."""

    def part_of(length, it):
        of, at = (outboard, 8 + 64 * parents_before(length, it.number, it.length)) if it.is_parent else (copy, it.number * CHUNK_LEN)
        return of[at : at + it.size]

    return cut_by(part_of, outboard[:8], start, count)


class Fault(Exception):
    def __init__(self, number, what, at):
        super().__init__(f"{number} {what} at {at}")
        self.at = at


def checked(mode, root, text, given, is_stream=False):
    """The nodes of an accepted text, with its claimed length, or the first fault in text order."""
    if len(text) < 8:
        raise Fault(501, "short", 0)
    length, found, end = int.from_bytes(text[:8], "little"), [], 8
    for it in given(length):
        end = it.offset + it.size
        if len(text) < end:
            raise Fault(501, "short", it.offset)
        part = text[it.offset : end]
        asked = root if it.half is None else text[it.half : it.half + 32]
        if node_value(mode.key, mode.flags, it.is_parent, it.number, it.half is None, part) != asked:
            raise Fault(502, "mismatch", it.offset)
        found.append(it)
    if len(text) > end and not is_stream:
        raise Fault(503, "trailing", end)
    return length, found, end

"""Holds the C library to the definitions on changed texts: the first fault, its offset, and what is written.

The texts are always the same: combined and outboard encodings and slices of small blobs, keyed or not, made by scripts/definitions.py, which knows nothing of the
library. In three of four a byte is changed, bytes are cut off or appended, or another length is claimed. COUNT in the environment is how many there are (2000).
"""
import ctypes
import itertools
import os
import random
import unittest

from cases import LIBRARY, Case, each
import c_header as c
import definitions as by

COUNT, PARTS = int(os.environ.get("COUNT", 2000)), 4

LENGTHS = (0, 1, 63, 64, 65, 1023, 1024, 1025, 2048, 2049, 3072, 4097, 5000, 9000)
PLACES = (0, 1, 1023, 1024, 2047, 3000, 8191, 2**63, 2**64 - 1)
u64_pair = ctypes.c_uint64 * 2
KEY = b"whats the Elvish word for friend"

if not os.path.exists(LIBRARY):
    raise unittest.SkipTest(f"{LIBRARY} was not built")
calls = c.library(LIBRARY)
for call in (calls.bw_outboard, calls.bw_parents, calls.bw_slice_ranges, calls.bw_outboard_ranges, calls.bw_slice_nodes, calls.bw_node_at):
    call.restype, call.argtypes = c.u32, None
calls.bw_encode.argtypes = calls.bw_cut_slice.argtypes = None


def derives(context):
    """The mode that the library makes of a context."""
    mode, text = c.Mode(), context.encode()
    assert calls.bw_mode_derive(text, len(text), mode) == 0 and mode.kind == 2
    return mode


CONTEXT = "berylwool 2026-11-27 a context"
MODES = ((by.Mode(), c.Mode()), (by.Mode.keyed(KEY), c.Mode(1, c.hash_(*KEY))), (by.Mode.derived(CONTEXT.encode()), derives(CONTEXT)))


class Placed(ctypes.Structure):
    """Kind and size, then number, start, len, combined_at and outboard_at."""

    _fields_ = [("words", ctypes.c_uint32 * 2), ("places", ctypes.c_uint64 * 5)]


def wrote(call, *words, room):
    """What a call writes, with the hash if it answers one."""
    out, used = ctypes.create_string_buffer(room + 1), c.size()
    status = call(*words[:-1], out, c.size(room), ctypes.byref(used), *words[-1])
    return status, out.raw[: used.value]


def changed(text, rng):
    """The text with one change, or as it is."""
    way = rng.randrange(8)
    if way < 3 and text:
        at = rng.randrange(min(len(text), 100) if way == 0 else len(text))
        return text[:at] + bytes([text[at] ^ 1 << rng.randrange(8)]) + text[at + 1 :]
    if way == 3:
        return text[: rng.randrange(len(text) + 1)]
    if way == 4:
        return text + rng.randbytes(rng.randrange(1, 70))
    if way == 5:
        return rng.choice(LENGTHS + PLACES).to_bytes(8, "little") + text[8:]
    return text


def fault_of(mode, root, text, given):
    try:
        by.checked(mode, root, text, given)
        return 0, 0
    except by.Fault as fault:
        return int(str(fault).split()[0]), fault.at


def poured(slice_, text, rng):
    """The status and the place of a check of the text in pieces of any size, and what it hands out."""
    feed, at, done, more, given = c.Handle(), c.u64(), 0, 0, b""
    assert calls.bw_feed_new(slice_, feed) == 0
    while True:
        part = text[done : done + max(more, rng.choice((1, 8, 64, 1000, 1088, 5000, 20000)))]
        out, taken, filled = ctypes.create_string_buffer(b"\1" * (len(part) + 1), len(part) + 1), c.size(), c.size()
        status = calls.bw_feed_take(feed, part, len(part), out, len(part), taken, filled, at)
        assert out.raw[filled.value :] == bytes(len(part) - filled.value) + b"\1", "only what is verified is written"
        given += out.raw[: filled.value]
        if status:
            break
        done += taken.value
        more = 0 if taken.value else 2 * len(part)
        if not taken.value and (done + len(part) == len(text) or len(part) > 1024):  # the end, or more than a node has
            status = calls.bw_feed_finish(feed, text[done:], len(text) - done, at)
            break
    calls.bw_free(feed)
    return status, at.value, given


def decoded(slice_, text, wanted, blob):
    """Holds what a text is decoded to to the blob, or to the fault that it has."""
    room, used, total, at, start, count = 9000, c.size(7), c.u64(7), c.u64(), slice_.start, slice_.len
    out = ctypes.create_string_buffer(b"\1" * room, room)
    status = calls.bw_decode(slice_, text, len(text), out, room, used, total, at)
    claimed = int.from_bytes(text[:8], "little") if len(text) >= 8 else 0
    asked = max(min(claimed, start + count) - start, 0)
    if asked > room:
        assert (status, used.value, total.value, out.raw) == (1201, asked, 7, b"\1" * room)
    elif wanted[0]:
        assert (status, at.value, used.value, total.value, out.raw) == (*wanted, 7, 7, b"\1" * room)
    else:
        last = max(claimed, 1) - 1
        end = max(min(start + max(count, 1), claimed), min(start, last) + 1)
        certified = claimed if (end - 1) // 1024 == last // 1024 else 2**64 - 1
        assert (status, used.value, total.value) == (0, asked, certified) and out.raw == blob[start : start + asked] + b"\1" * (room - asked)


def stored(modes, root, hashed, asked, text, wanted, blob, tail):
    """Holds what a store takes of a text, and then serves, to the text, or to the fault that it has."""
    seat, committed, parents, at, used = c.Handle(), c.u64(7), c.u64(7), c.u64(), c.size()
    assert calls.bw_seat_new(modes[1], hashed, 0, max(-(-len(blob) // 1024), 1), seat) == 0
    assert calls.bw_seat_settle(seat, tail, len(tail), at) == 0
    at.value = 0
    status = calls.bw_seat_commit(seat, *asked, text, len(text), committed, parents, at)
    out = ctypes.create_string_buffer(len(text) + 1)
    served = calls.bw_seat_slice(seat, *asked, out, len(text), used, c.Node())
    if wanted[0]:
        assert (status, at.value, committed.value, parents.value, served) == (*wanted, 7, 7, 809)
    elif int.from_bytes(text[:8], "little") != len(blob):
        assert (status, at.value, committed.value, parents.value, served) == (807, 0, 7, 7, 809)
    else:
        assert (status, served, out.raw[: used.value]) == (0, 0, text), "what was stored is served"
        last = max(len(blob), 1) - 1
        first = min(asked[0], last) // 1024
        after = (max(min(asked[0] + max(asked[1], 1), len(blob)), min(asked[0], last) + 1) - 1) // 1024 + 1
        assert committed.value == after - first
        assert 64 * parents.value == len(text) - 8 - len(blob[1024 * first : 1024 * after])
        assert calls.bw_seat_commit(seat, *asked, text, len(text), committed, parents, at) == 0 and committed.value == parents.value == 0
    calls.bw_free(seat)


def parted(modes, hashed, asked, text, wanted, blob, rng):
    """Holds what a store of a part takes of a text to the blob's chunks that the text has and the part has room for, or to the fault that it has."""
    number = max(-(-len(blob) // 1024), 1)
    base, capacity = rng.randrange(number + 2), rng.randrange(1, number + 2)
    seat, committed, at = c.Handle(), c.u64(7), c.u64()
    assert calls.bw_seat_new(modes[1], hashed, base, capacity, seat) == 0
    status = calls.bw_seat_commit_chunks(seat, *asked, text, len(text), committed, at)
    if wanted[0]:
        assert (status, at.value, committed.value) == (*wanted, 7)
    else:
        claimed = int.from_bytes(text[:8], "little")
        begin = min(asked[0], max(claimed, 1) - 1)
        end = max(min(asked[0] + max(asked[1], 1), claimed), begin + 1)
        first, after = max(begin // 1024, base), min((end - 1) // 1024 + 1, base + capacity)
        assert (status, committed.value) == (0, max(after - first, 0))
        there = blob[1024 * first : 1024 * after]
        out = ctypes.create_string_buffer(len(there) + 1)
        assert not there or calls.bw_seat_read(seat, 1024 * (first - base), out, len(there), at) == 0
        assert out.raw[: len(there)] == there, "what was stored is the blob's"
        if first < after:
            end = 1024 * (first - base) + len(there)
            assert calls.bw_seat_read(seat, 1024 * (first - base), out, len(there) + 1, at) == 1204 and at.value == end
        assert base == 0 or first <= base or calls.bw_seat_read(seat, 0, out, 1, at) == 1204 and at.value == 0
        assert calls.bw_seat_commit_chunks(seat, *asked, text, len(text), committed, at) == 0 and committed.value == 0
    assert base == 0 or calls.bw_seat_length(seat, c.u64()) == 901
    calls.bw_free(seat)


def rescued(modes, hashed, asked, text, wanted, blob, rng):
    """Holds what a store of a part takes of a text, accepted or not, to the chunks before its first fault that the part has room for."""
    number = max(-(-len(blob) // 1024), 1)
    base, capacity = rng.randrange(number + 2), rng.randrange(1, number + 2)
    seat, committed, at, held = c.Handle(), c.u64(7), c.u64(), c.u64()
    assert calls.bw_seat_new(modes[1], hashed, base, capacity, seat) == 0
    status = calls.bw_seat_commit_some(seat, *asked, text, len(text), committed, at)
    assert (status, at.value) == wanted
    nodes = by.slice_nodes(int.from_bytes(text[:8], "little"), *asked)
    before = itertools.takewhile(lambda it: not status or it.offset < at.value, nodes)
    kept = [it.number for it in before if not it.is_parent and base <= it.number < base + capacity]
    assert committed.value == len(kept)
    out = ctypes.create_string_buffer(1024)
    for it in kept:
        chunk = blob[1024 * it : 1024 * (it + 1)]
        assert calls.bw_seat_read_at(seat, 1024 * it, out, len(chunk), at) == 0 and out.raw[: len(chunk)] == chunk
    assert calls.bw_seat_held(seat, 0, held) == 0 and held.value == sum(1 << it - base for it in kept if blob)
    calls.bw_free(seat)


def beside(modes, root, hashed, outboard, wanted, blob, rng):
    """Holds an outline of the text, and what chunks of a plain copy, changed or not, are beside it, to the definitions."""
    outline, at, length, used = c.Handle(), c.u64(), c.u64(), c.size()
    status = calls.bw_outline_new(modes[1], hashed, outboard, len(outboard), outline, at)
    assert (status, at.value) == wanted, f"the library answers {status} at {at.value} to an outboard encoding, the definitions {wanted}"
    if status:
        assert not outline.at and calls.bw_outline_length(outline, length) == 1202
        return
    total = int.from_bytes(outboard[:8], "little")
    assert calls.bw_outline_length(outline, length) == 0 and length.value == total
    number = max(-(-total // 1024), 1)
    first = rng.randrange(number + 1) if number < 2**32 else 0
    chunks = rng.choice((0, 1, 1, 2, 3, 4, 9, number))
    plain = changed(bytes(8) + blob[1024 * first : 1024 * (first + chunks)], rng)[8:]
    out = ctypes.create_string_buffer(b"\1" * 20000, 20000)
    status = calls.bw_outline_check(outline, c.Chunks(first, chunks), plain, len(plain), at)
    sliced = calls.bw_outline_slice(outline, c.Chunks(first, chunks), plain, len(plain), out, 20000, used, c.u64())
    assert sliced == status
    if not chunks or first + chunks > number:
        assert status == 1210
    elif status:
        assert plain != blob[1024 * first : 1024 * (first + chunks)] or total != len(blob)
        assert status in (501, 502, 503) and out.raw == b"\1" * 20000
    else:
        assert plain == blob[1024 * first : 1024 * (first + chunks)] and (total == len(blob) or first + chunks < number)
        text = outboard[:8] + by.slice_text(modes[0], blob, 1024 * first, 1024 * chunks)[8:]
        assert out.raw[: used.value] == text and out.raw[used.value :] == b"\1" * (20000 - used.value)
    seat, committed, base, capacity = c.Handle(), c.u64(7), rng.randrange(10), rng.randrange(1, 10)
    assert calls.bw_seat_new(modes[1], hashed, base, capacity, seat) == 0
    assert calls.bw_outline_commit_chunks(outline, seat, c.Chunks(first, chunks), plain, len(plain), committed, at) == status
    low, high = max(first, base), min(first + chunks, base + capacity)
    assert committed.value == (7 if status else max(high - low, 0))
    if status == 0 and low < high:
        there = blob[1024 * low : 1024 * high]
        assert calls.bw_seat_read_at(seat, 1024 * low, out, len(there), at) == 0 and out.raw[: len(there)] == there
    calls.bw_free(seat)
    calls.bw_free(outline)


def written(modes, blob, start, count):
    """The texts of a blob, of which the library has to write two alike, and cut the third out."""
    mode, ours = modes
    texts = by.combined(mode, blob), by.outboard(mode, blob), by.slice_text(mode, blob, start, count)
    root, hashed, ours = mode.hash(blob), c.hash_(), ctypes.byref(ours)
    for call, text in ((calls.bw_encode, texts[0]), (calls.bw_outboard, texts[1])):
        assert wrote(call, ours, blob, c.size(len(blob)), (hashed,), room=len(text)) == (0, text) and bytes(hashed) == root
        out, used = ctypes.create_string_buffer(len(text)), c.size()
        assert call(ours, blob, c.size(len(blob)), out, c.size(len(text) - 1), ctypes.byref(used), hashed) == 1201 and used.value == len(text)
    assert wrote(calls.bw_cut_slice, texts[0], c.size(len(texts[0])), c.u64(start), c.u64(count), (), room=len(texts[2])) == (0, texts[2])
    assert calls.bw_slice_len(len(blob), start, count) == len(texts[2])
    ranges, found = (u64_pair * 55)(), c.size()
    assert calls.bw_slice_ranges(c.u64(len(blob)), c.u64(start), c.u64(count), ranges, c.size(55), ctypes.byref(found)) == 0
    assert b"".join(texts[0][at : at + size] for at, size in ranges[: found.value]) == texts[2]
    assert calls.bw_outboard_ranges(c.u64(len(blob)), c.u64(start), c.u64(count), ranges, c.size(55), ctypes.byref(found)) == 0
    kept = b"".join(texts[1][at : at + size] for at, size in ranges[: found.value])
    assert len(kept) == len(texts[2]) - sum(node.size for node in by.slice_nodes(len(blob), start, count) if not node.is_parent)
    for it in by.outboard_nodes(len(blob)):
        part, below = blob[1024 * it.number :][: it.length], texts[1][it.offset :][: 64 * (by.chunks_of(it.length) - 1)]
        assert wrote(calls.bw_parents, ours, c.u64(it.number), part, c.size(len(part)), (), room=len(below)) == (0, below)
        assert wrote(calls.bw_parents, ours, c.u64(it.number + 1), part, c.size(len(part)), (), room=len(below))[0] == 1216
    nodes_of(len(blob), start, count)
    return root, texts


def nodes_of(total, start, count):
    """The nodes of a slice, with the offsets that they have in the two whole encodings, and where they begin in its own."""
    combined = {(it.number, it.length): it.offset for it in by.slice_nodes(total, 0, 2**64 - 1)}
    outboard = {(it.number, it.length): it.offset for it in by.outboard_nodes(total)}
    wanted = []
    for it in by.slice_nodes(total, start, count):
        number = it.number + by.left_len(it.length) // by.CHUNK_LEN if it.is_parent else it.number
        key = it.number, it.length
        wanted.append([int(not it.is_parent), it.size, number, by.CHUNK_LEN * it.number, it.length, combined[key], outboard.get(key, 0)])
    out, found = (Placed * 64)(), c.size()
    assert calls.bw_slice_nodes(c.u64(total), c.u64(start), c.u64(count), out, c.size(64), ctypes.byref(found)) == 0
    assert [[*it.words, *it.places] for it in out[: found.value]] == wanted
    places, node = [8 + sum(it[1] for it in wanted[:k]) for k in range(len(wanted))], Placed()
    for at, told in [(7, [2, 8, 0, 0, 0, 0, 0]), *zip(places, wanted), (places[-1] + max(wanted[-1][1], 1), [3, 0, 0, 0, 0, 0, 0])]:
        assert calls.bw_node_at(c.u64(total), c.u64(start), c.u64(count), c.u64(at), ctypes.byref(node)) == 0 and [*node.words, *node.places] == told
    room = len(wanted) - 1
    assert calls.bw_slice_nodes(c.u64(total), c.u64(start), c.u64(count), out, c.size(room), ctypes.byref(found)) == 1201 and found.value == len(wanted)


BLOBS = [random.Random(length).randbytes(length) for length in LENGTHS]


def look(case, rng):
    """Draws a text, and holds what the library answers, whole and in pieces, to the definitions."""
    modes, blob = rng.choice(MODES), rng.choice(BLOBS)
    start, length = rng.choice(PLACES), rng.choice(PLACES)
    root, texts = written(modes, blob, start, length)
    form, at, hashed = rng.randrange(3), c.u64(), c.hash_(*root)
    text = changed(texts[form], rng)
    if form == 1:
        return beside(modes, root, hashed, text, fault_of(modes[0], root, text, by.outboard_nodes), blob, rng)
    asked = (0, 2**64 - 1) if form == 0 else (start, length)
    if form == 0 and (len(text) < 8 or int.from_bytes(text[:8], "little") < 10**6):
        cut = by.cut(text, start, length)
        assert wrote(calls.bw_cut_slice, text, c.size(len(text)), c.u64(start), c.u64(length), (), room=len(cut)) == (0, cut)
    slice_, wanted = c.Slice(modes[1], hashed, *asked), fault_of(modes[0], root, text, lambda total: by.slice_nodes(total, *asked))
    status = calls.bw_check(slice_, text, len(text), at)
    decoded(slice_, text, wanted, blob)
    *fed, given = poured(slice_, text, rng)
    for how, got in (("whole", (status, at.value)), ("in pieces", tuple(fed))):
        case.assertEqual(got, wanted, f"the library answers {got} to a text {how}, the definitions {wanted}")
    stored(modes, root, hashed, asked, text, wanted, blob, by.slice_text(modes[0], blob, 2**64 - 1, 1))
    parted(modes, hashed, asked, text, wanted, blob, rng)
    rescued(modes, hashed, asked, text, wanted, blob, rng)
    first = min(asked[0], max(len(blob), 1) - 1) // 1024 * 1024
    assert blob[first:].startswith(given)


@each((f"part {part}", part) for part in range(PARTS))
class Texts(Case):
    def tried(self, part):
        for number in range(part, COUNT, PARTS):
            with self.subTest(f"text {number}"):
                look(self, random.Random(number))

#!/usr/bin/env python3
"""Makes the replies that the scenarios of crates/*_scenarios and of the program have to get, and what crates/examples has to print, by the definitions alone.

At the top of the repository. A scenario is a file of commands, one a line, with empty lines and lines that begin with '#' between
them: a program's file stdin, or the lines that scripts/tests/test_scenarios.py has the program run on. Another file, stdout or replies.txt,
is the same lines with a reply, indented, below each command. Compares these files with the replies made here, and says where they
differ; with --write writes them.
"""
import concurrent.futures
import errno
import os
import re
import sys

import definitions as bao
import script

# How many words of a reply's digest are printed.
SHORT = 16


def blob_of(length):
    """The bytes i mod 251, as in BLAKE3's test vectors."""
    return bytes(i % 251 for i in range(length))


def digest(data):
    """The first bytes of the plain hash, enough to tell texts apart."""
    return bao.Mode().hash(data).hex()[:SHORT]


def told(data):
    return f"{len(data)} bytes {digest(data)}"


def is_utf8(data):
    try:
        data.decode()
        return True
    except UnicodeDecodeError:
        return False


def mode_of(words):
    kind, _, rest = words.partition(" ")
    return {
        "plain": lambda: bao.Mode(),
        "key": lambda: bao.Mode.keyed(bytes.fromhex(rest)),
        "context": lambda: bao.Mode.derived(rest.encode()),
    }[kind]()


def runs(replies):
    """Equal replies that follow one another, each with the numbers from its first to its last."""
    found = []
    for k, reply in enumerate(replies):
        if found and found[-1][2] == reply:
            found[-1][1] = k
        else:
            found.append([k, k, reply])
    return [f"{first} to {last}: {reply}" for first, last, reply in found]


def halves_of(text, parents):
    """The halves of an outboard encoding's parents that stand for chunks, by these chunks' numbers."""
    found = {}
    for it in parents:
        left = bao.left_len(it.length)
        for at, first, count in ((it.offset, it.number, left), (it.offset + 32, it.number + left // bao.CHUNK_LEN, it.length - left)):
            if count <= bao.CHUNK_LEN:
                found[first] = text[at : at + 32]
    return found


def boundary(node):
    """The chunk with which a parent's right part begins."""
    return node.number + bao.left_len(node.length) // bao.CHUNK_LEN


class Outline:
    """An accepted outboard encoding, beside which chunks of a plain copy are checked."""

    def __init__(self, mode, root, text):
        self.mode, self.root, self.text = mode, root, text
        self.length, self.found, _ = bao.checked(mode, root, text, bao.outboard_nodes)
        self.halves = halves_of(text, self.found)

    def beside(self, chunks, first, count):
        """Chunks whose values are in the outline: each by itself. Then their slice is made with the outline's parents, and has to be
        accepted as such."""
        parts, at = {}, 0
        for number in range(first, first + count):
            size = min(bao.CHUNK_LEN, self.length - number * bao.CHUNK_LEN)
            parts[number] = chunks[at : at + size]
            if len(parts[number]) < size:
                raise bao.Fault(501, "short", at)
            asked = self.root if not self.found else self.halves[number]
            if bao.node_value(self.mode.key, self.mode.flags, False, number, not self.found, parts[number]) != asked:
                raise bao.Fault(502, "mismatch", at)
            at += size
        if len(chunks) > at:
            raise bao.Fault(503, "trailing", at)
        given = lambda length: bao.slice_nodes(length, bao.CHUNK_LEN * first, bao.CHUNK_LEN * count)
        pairs = {(it.number, it.length): self.text[it.offset : it.offset + it.size] for it in self.found}
        made = self.text[:8] + b"".join(pairs[it.number, it.length] if it.is_parent else parts[it.number] for it in given(self.length))
        return made, *bao.checked(self.mode, self.root, made, given)

    def slice(self, copy, start, count):
        """The slice of a range that a plain copy's bytes make."""
        chunks = bao.chunks_of(self.length)
        first = min(start // bao.CHUNK_LEN, chunks - 1)
        after = min(first + max(-(-count // bao.CHUNK_LEN), 1), chunks)
        return self.beside(copy[bao.CHUNK_LEN * first : min(bao.CHUNK_LEN * after, self.length)], first, after - first)[0]


class Texts:
    """Texts encoded, cut, changed, checked and audited."""

    FAULTS = [
        "201 201 too long",
        "401 401 memory",
        "401 401 memory",
        "402 402 writer failed after 1000 bytes",
        "501 501 short at 0",
        "502 502 mismatch at 136",
        "503 503 trailing at 18446744073709551615",
        "504 504 memory",
        "505 505 reader",
        "301 301 memory",
        "311 311 memory",
        "312 312 reader",
        "601 601 other root",
    ]

    def __init__(self):
        self.mode, self.blob, self.text, self.root, self.form = bao.Mode(), b"", b"", bytes(32), ("combined",)
        self.outline, self.held = b"", []

    def given(self, form):
        kind, *numbers = form
        if kind == "outboard":
            return bao.outboard_nodes
        # On threads, whose grain comes last, the answer is the slice's.
        start, count = (0, 2**64 - 1) if kind == "combined" else map(int, numbers[:2])
        return lambda length: bao.slice_nodes(length, start, count)

    def checked(self, text):
        """The text whose nodes were accepted, its length, the nodes and where they end."""
        if self.form[0] == "bare":
            return self.beside(text, *map(int, self.form[1:]))
        return text, *bao.checked(self.mode, self.root, text, self.given(self.form), self.form[0] == "stream")

    def beside(self, chunks, first, count):
        """The slice that these chunks make beside the outline."""
        try:
            outline = Outline(self.mode, self.root, self.outline)
        except bao.Fault as fault:
            raise Refused(None, f"outline: {fault}") from fault
        if count < 1 or first + count > bao.chunks_of(outline.length):
            raise Refused(None, "no such chunks")
        return outline.beside(chunks, first, count)

    def verdict(self, text):
        try:
            _, length, found, end = self.checked(text)
        except Refused as refused:
            return str(refused)
        except bao.Fault as fault:
            return f"{fault}, {self.unread(fault.at, text)} bytes left" if self.form[0] == "stream" else str(fault)
        if self.form[0] == "outboard":
            return f"accepted: claims {length}"
        chunks = [it.number for it in found if not it.is_parent]
        last = max(chunks) == bao.chunks_of(length) - 1
        said = f"accepted: claims {length}, chunks {min(chunks)} to {max(chunks)}, {f'length {length}' if last else 'no length'}"
        return f"{said}, {len(text) - end} bytes left" if self.form[0] == "stream" else said

    def until(self, text):
        """The verdict on what a reader gives that fails after this text: on all that was asked for, or that it failed."""
        said = self.verdict(text).partition(",")[0] if len(text) >= 8 else "501 short"
        return "505 reader" if said.startswith("501 short") else said

    def written(self, full):
        """What comes of writing the combined encoding to a writer that fails after so many bytes, by each of three faults."""
        text = bao.combined(self.mode, self.blob)
        said = self.mode.hash(self.blob).hex() if full >= len(text) else f"402 writer failed after {full} bytes"
        return [f"{said}: {told(text[:full])}"] * 3

    def source(self, fails, size):
        """The hash and the encodings of bytes that are read up to their end, unless they aren't as many as was said."""
        if fails <= len(self.blob) or size != len(self.blob):
            return [f"312 reader: {told(b'')}"] * 3
        made = [b"", bao.combined(self.mode, self.blob), bao.outboard(self.mode, self.blob)]
        return [f"{self.mode.hash(self.blob).hex()}: {told(it)}" for it in made]

    def unread(self, at, text):
        """How many bytes a reader has left after the node at this place, where a fault was found: each is read whole first."""
        for it in self.given(self.form)(int.from_bytes(text[:8], "little")):
            if it.offset == at:
                return max(0, len(text) - it.offset - it.size)
        return 0

    def nodes(self, name_of):
        """Each node that has a name, told after it, by their names."""
        text, _, found, _ = self.checked(self.text)
        named = {name_of(it): told(text[it.offset : it.offset + it.size]) for it in found}
        return dict(sorted((name, it) for name, it in named.items() if name is not None))

    def chunks(self):
        return self.nodes(lambda it: None if it.is_parent else it.number)

    def parents(self):
        """Each parent by the number of the chunk with which its right part begins."""
        return self.nodes(lambda it: boundary(it) if it.is_parent else None)

    def listed(self, found):
        """Nodes by name, a line each, and how many they are: a parent's is the chunk with which its right part begins."""
        names = [f"parent {boundary(it)}" if it.is_parent else f"chunk {it.number}" for it in found]
        return [*names, f"{len(names)} nodes"]

    def changed(self, text):
        self.text = text
        return told(text)

    def do(self, name, rest):
        words = rest.split(" ") if rest else []
        numbers = [int(it) for it in words if it.isdigit()]
        text = self.text
        match name:
            case "mode":
                self.mode = mode_of(rest)
            case "blob":
                self.blob = blob_of(numbers[0])
            case "bytes":
                self.blob = bytes.fromhex(rest)
            case "root":
                self.root = self.mode.hash(self.blob) if rest == "blob" else bytes.fromhex(rest)
            case "hash" | "pieces":
                return [self.mode.hash(self.blob).hex()]
            case "output":
                return [self.mode.output(self.blob, numbers[0], numbers[1]).hex()]
            case "sizes":
                whole = 8 + 64 * (bao.chunks_of(numbers[0]) - 1)
                return [f"combined {whole + numbers[0]}, outboard {whole}"]
            case "combined" | "outboard" | "slice":
                make = {"combined": bao.combined, "outboard": bao.outboard, "slice": bao.slice_text}[name]
                self.root = self.mode.hash(self.blob)
                return [self.root.hex(), self.changed(make(self.mode, self.blob, *numbers))]
            case "cut":
                return [self.changed(bao.cut(text, *numbers))]
            case "part":
                return [self.changed(self.blob[bao.CHUNK_LEN * numbers[0] :][: bao.CHUNK_LEN * numbers[1]])]
            case "outline":
                self.outline = text
            case "keep":
                return [self.changed(text[: numbers[0]])]
            case "flip":
                return [self.changed(text[: numbers[0]] + bytes([text[numbers[0]] ^ 1]) + text[numbers[0] + 1 :])]
            case "append":
                return [self.changed(text + bytes.fromhex(rest))]
            case "claim":
                return [self.changed(numbers[0].to_bytes(8, "little") + text[8:])]
            case "swap":
                a, b, count = numbers
                return [self.changed(text[:a] + text[b : b + count] + text[a + count : b] + text[a : a + count] + text[b + count :])]
            case "text":
                return [self.changed(bytes.fromhex(rest))]
            case "check":
                self.form = tuple(words)
                return [self.verdict(text)]
            case "chunk":
                return [self.chunks().get(numbers[0], "none")]
            case "parent":
                return [self.parents().get(numbers[0], "none")]
            case "parents":
                return [f"{m}: {it}" for m, it in self.parents().items() if m < numbers[0]] or ["none"]
            case "nodes":
                return self.listed(bao.slice_nodes(*numbers) if numbers else self.checked(text)[2])
            case "leaf":
                found = halves_of(text, bao.checked(self.mode, self.root, text, bao.outboard_nodes)[1])
                return [found[numbers[0]].hex() if numbers[0] in found else "none"]
            case "cuts":
                return runs(self.verdict(text[:k]) for k in range(len(text)))
            case "fails":
                return runs([self.until(text[:k]) for k in range(len(text))] * 2)
            case "write":
                return self.written(numbers[1])
            case "source":
                return self.source(*numbers[2:])
            case "flips":
                return runs(self.verdict(text[:k] + bytes([text[k] ^ 1]) + text[k + 1 :]) for k in range(len(text)))
            case "audit":
                return [self.audited(self.mode, self.root, *self.accepted())]
            case "hold":
                self.held.append((self.mode, self.root, *self.accepted()))
            case "release":
                self.held = []
            case "audit_all":
                said = [self.audited(*it) for it in self.held]
                return [next((it for it in said if it != "agrees"), "all agree")]
            case "faults":
                return self.FAULTS
            case _:
                sys.exit(f"scenarios: no command {name}")
        return []

    def accepted(self):
        """The text whose nodes were accepted, and the nodes."""
        text, _, found, _ = self.checked(self.text)
        return text, found

    def audited(self, mode, root, text, found):
        if mode.hash(self.blob) != root:
            return "601 other root"
        for it in found:
            at = it.number * bao.CHUNK_LEN
            if not it.is_parent and text[it.offset : it.offset + it.size] != self.blob[at : at + bao.CHUNK_LEN]:
                sys.exit("scenarios: two inputs have one chaining value")
        return "agrees"


GROUP_LEN = 64
MAX_CAPACITY = 65536
# The first chunk past a blob of 2^64 - 1 bytes.
MAX_BASE = 2**54
# A byte that a buffer for a read has before.
UNREAD = 9


class Piece:
    """An accepted slice of a blob, with its chunks and the length that it certifies, if it does."""

    def __init__(self, mode, blob, start, count):
        self.mode, self.root, self.start, self.count = mode, mode.hash(blob), start, count
        self.read(bao.slice_text(mode, blob, start, count))

    def read(self, text):
        self.text = text
        self.length, found, _ = bao.checked(self.mode, self.root, text, lambda length: bao.slice_nodes(length, self.start, self.count))
        self.chunks = {it.number: text[it.offset : it.offset + it.size] for it in found if not it.is_parent}
        self.parents = {boundary(it): text[it.offset : it.offset + it.size] for it in found if it.is_parent}
        self.is_last = bao.chunks_of(self.length) - 1 in self.chunks


class Draw:
    """Numbers by a linear congruence."""

    def __init__(self, seed):
        self.state = seed

    def word(self):
        self.state = (self.state * 6364136223846793005 + 1442695040888963407) % 2**64
        return self.state >> 32

    def below(self, end):
        return self.word() % end

    def mask(self):
        """Each bit is set in one of four."""
        return (self.word() << 32 | self.word()) & (self.word() << 32 | self.word())


class Stores:
    """A store of one blob's chunks: which are held, which seat claims which, and the length once it is known. It counts
    chunks and positions from the blob's chunk `base` on; where that isn't the first, no length is ever known."""

    FAULTS = [
        "701 701 memory",
        "803 803 no group",
        "804 804 other root",
        "807 807 other length",
        "808 808 no length",
        "809 809 lacking",
        "810 810 memory",
        "802 802 capacity",
        "701 701 memory",
        "702 702 illegal step 7",
        "802 802 capacity",
        "801 801 memory",
        "802 802 capacity",
        "803 803 no group",
        "804 804 other root",
        "804 804 other root",
        "807 807 other length",
    ]

    def __init__(self):
        self.mode, self.blob, self.pieces = bao.Mode(), b"", {}
        self.capacity = self.base = 0

    def open(self, capacity, base=0):
        if not 1 <= capacity <= MAX_CAPACITY or base > MAX_BASE:
            return "802 capacity"
        self.capacity, self.base, self.of, self.root = capacity, base, self.mode, self.mode.hash(self.blob)
        self.held, self.claims, self.length, self.seats, self.parents = {}, {}, None, 1, {}
        return f"groups {self.groups()}"

    def groups(self):
        return -(-self.capacity // GROUP_LEN)

    def chunks(self, group, mask):
        """The chunks of a mask that the store has room for."""
        first = GROUP_LEN * group
        return [first + j for j in range(GROUP_LEN) if mask >> j & 1 and first + j < self.capacity]

    def mask(self, group, chunks):
        return sum(1 << it - GROUP_LEN * group for it in chunks)

    def take(self, seat, group, want):
        if group >= self.groups():
            return "803 no group"
        free = [it for it in self.chunks(group, want) if it not in self.held and it not in self.claims]
        self.claims.update((it, seat) for it in free)
        return f"granted {self.mask(group, free):x}"

    def give(self, seat, group, mask):
        given = [it for it in self.chunks(group, mask) if self.claims.get(it) == seat]
        for it in given:
            del self.claims[it]
        return f"given {self.mask(group, given):x}"

    def commit(self, seat, group, piece):
        if (piece.root, piece.mode) != (self.root, self.of):
            return "804 other root"
        stored = [it for it in self.chunks(group, 2**64 - 1) if self.claims.get(it) == seat and self.base + it in piece.chunks]
        for it in stored:
            del self.claims[it]
            self.held[it] = piece.chunks[self.base + it]
        return f"committed {self.mask(group, stored):x}"

    def store_parents(self, group, piece):
        if (piece.root, piece.mode) != (self.root, self.of):
            return "804 other root"
        if piece.length != self.length:
            return "807 other length"
        stored = [it for it in piece.parents if it // GROUP_LEN == group and it not in self.parents]
        self.parents.update((it, piece.parents[it]) for it in stored)
        return f"stored {self.mask(group, stored):x}"

    def serve(self, start, count):
        if self.length is None:
            return "808 no length"
        made = self.length.to_bytes(8, "little")
        for it in bao.slice_nodes(self.length, start, count):
            held, at, kind = (self.parents, boundary(it), "parent") if it.is_parent else (self.held, it.number, "chunk")
            if at not in held:
                return f"lacking {kind} {at}"
            made += held[at]
        return told(made)

    def settle(self, piece):
        if not piece.is_last:
            return "no tail"
        if (piece.root, piece.mode) != (self.root, self.of):
            return "other root"
        if self.base > 0 or piece.length > bao.CHUNK_LEN * self.capacity:
            return "too large"
        if self.length is None:
            self.length = piece.length
            return "settled"
        return "known" if self.length == piece.length else "differs"

    def read(self, at, count):
        made = b""
        while len(made) < count:
            chunk, rest = divmod(at + len(made), bao.CHUNK_LEN)
            part = self.held.get(chunk, b"")[rest:]
            if not part:
                break
            made += part[: count - len(made)]
        said = told(made + bytes([UNREAD]) * (count - len(made)))
        return said if len(made) == count else f"missing {at + len(made)}, {said}"

    def recorded(self):
        return "no length" if self.length is None else f"length {self.length}"

    def drawn(self, seed, calls):
        """Calls of all seats with all pieces, drawn; the replies are told by their hash."""
        draw, replies, pieces = Draw(seed), [], list(self.pieces.values())
        for _ in range(calls):
            seat, group, mask, kind = draw.below(self.seats), draw.below(self.groups() + 1), draw.mask(), draw.below(8)
            if kind == 0:
                replies.append(self.take(seat, group, mask))
            elif kind == 1:
                replies.append(self.give(seat, group, mask))
            elif kind == 2:
                replies.append(self.recorded())
            elif kind == 3:
                replies.append(self.read(draw.below(bao.CHUNK_LEN * self.capacity), draw.below(3000)))
            elif kind == 4:
                replies.append(self.serve(draw.below(bao.CHUNK_LEN * self.capacity), draw.below(3000)))
            elif kind == 5:
                replies.append(self.commit(seat, group, pieces[draw.below(len(pieces))]))
            elif kind == 6:
                replies.append(self.store_parents(group, pieces[draw.below(len(pieces))]))
            else:
                replies.append(self.settle(pieces[draw.below(len(pieces))]))
        return f"{calls} replies {digest(''.join(f'{it}{chr(10)}' for it in replies).encode())}"

    def do(self, name, rest):
        words = rest.split(" ") if rest else []
        numbers = [int(it) for it in words if it.isdigit()]
        match name:
            case "mode":
                self.mode = mode_of(rest)
                return []
            case "blob":
                self.blob = blob_of(numbers[0])
                return []
            case "bytes":
                self.blob = bytes.fromhex(rest)
                return []
            case "store":
                return [self.open(*numbers)]
            case "piece":
                self.pieces[words[0]] = Piece(self.mode, self.blob, int(words[1]), int(words[2]))
                return [told(self.pieces[words[0]].text)]
            case "claim":
                piece = self.pieces[words[0]]
                piece.read(int(words[1]).to_bytes(8, "little") + piece.text[8:])
                return [f"accepted: claims {piece.length}"]
            case "split":
                self.seats += 1
                return [f"seat {self.seats - 1}"]
            case "join":
                first, second = numbers
                self.claims = {it: first if seat == second else seat for it, seat in self.claims.items()}
                return []
            case "meet" | "drop":
                return []
            case "take":
                return [self.take(int(words[0]), int(words[1]), int(words[2], 16))]
            case "give":
                return [self.give(int(words[0]), int(words[1]), int(words[2], 16))]
            case "commit":
                return [self.commit(int(words[0]), int(words[1]), self.pieces[words[2]])]
            case "settle":
                return [self.settle(self.pieces[words[1]])]
            case "parents":
                return [self.store_parents(int(words[1]), self.pieces[words[2]])]
            case "serve":
                return [self.serve(*numbers[1:])]
            case "length":
                return [self.recorded()]
            case "read":
                return [self.read(numbers[1], numbers[2])]
            case "held":
                return [f"held {len(self.held)}"]
            case "faults":
                return self.FAULTS
            case "drawn":
                return [self.drawn(*numbers)]
            case _:
                sys.exit(f"scenarios: no command {name}")


class Refused(Exception):
    """Why the program ends without its result: its status, and what it says."""

    def __init__(self, status, said):
        super().__init__(said)
        self.status = status


class Schedule:
    """A schedule of steps on a store's words, by seats that claim chunks, write their cells, publish them and read."""

    CELL_LEN, MOST_READ = 129, 65536
    FORMS = {"claim": "nnm", "hash": "nfmm", "write": "nnb", "fill": "nn", "publish": "nn", "give": "nnm", "load": "nmn", "settle": "n", "length": "n"}
    BITS = {"n": 32, "m": 64, "b": 8, "f": 64}

    def __init__(self, mode, root, capacity, script, files):
        self.mode, self.root, self.capacity, self.files = mode, root, capacity, files
        self.lines = [(k, self.line(k, it)) for k, it in enumerate(script.split(b"\n"), 1) if it]
        self.pieces = {k: self.piece(k, *numbers[1:]) for k, (name, numbers) in self.lines if name == "hash"}
        self.current, self.written, self.reads = {}, {}, {}
        self.store = Stores()
        self.store.capacity, self.store.of, self.store.root = capacity, mode, root
        self.store.held, self.store.claims, self.store.length = {}, {}, None

    def line(self, k, line):
        name, *words = line.decode("latin-1").split(" ")
        form = self.FORMS.get(name)
        if form is None or len(form) != len(words) or not all(it.isascii() and it.isdigit() for it in words):
            raise Refused(2, f"usage: script line {k}")
        numbers = [int(it) for it in words]
        if any(it >> self.BITS[kind] for kind, it in zip(form, numbers)) or name == "hash" and numbers[1] >= len(self.files):
            raise Refused(2, f"usage: script line {k}")
        return name, numbers

    def piece(self, k, file, start, count):
        made = object.__new__(Piece)
        made.mode, made.root, made.start, made.count = self.mode, self.root, start, count
        try:
            made.read(bao.cut(self.files[file], start, count))
        except bao.Fault as fault:
            raise Refused(1, f"line {k}: {fault}") from None
        return made

    def has_group(self, group):
        return group < self.store.groups()

    def publishable(self, seat, group):
        """The chunks of the group that the seat claims and its piece holds."""
        chunks = self.store.chunks(group, 2**64 - 1)
        return [it for it in chunks if self.store.claims.get(it) == seat and it in self.current[seat].chunks]

    def step(self, name, numbers, k):
        """The reply of a step, None where it has none, or False where it isn't legal."""
        store, seat = self.store, numbers[0]
        written = self.written.setdefault(seat, set())
        if name == "claim":
            return self.has_group(numbers[1]) and store.take(seat, numbers[1], numbers[2])
        if name == "hash":
            self.current[seat] = self.pieces[k]
            written.clear()
            return None
        if name in ("write", "fill"):
            chunk, places = numbers[1], range(self.CELL_LEN) if name == "fill" else [numbers[2]]
            is_own = store.claims.get(chunk) == seat and seat in self.current and chunk in self.current[seat].chunks
            if not is_own or places[0] >= self.CELL_LEN:
                return False
            written.update((chunk, it) for it in places)
            return None
        if name == "publish":
            if not self.has_group(numbers[1]) or seat not in self.current:
                return False
            if any((chunk, it) not in written for chunk in self.publishable(seat, numbers[1]) for it in range(self.CELL_LEN)):
                return False
            return store.commit(seat, numbers[1], self.current[seat])
        if name == "give":
            if not self.has_group(numbers[1]):
                return False
            had = set(store.claims)
            said = store.give(seat, numbers[1], numbers[2])
            gone = had - set(store.claims)
            self.written[seat] = {it for it in written if it[0] not in gone}
            return said
        if name == "load":
            return self.load(seat, numbers[1], numbers[2])
        if name == "settle":
            return seat in self.current and self.current[seat].is_last and store.settle(self.current[seat])
        return store.recorded()

    def load(self, seat, at, count):
        """One load of a read: it copies what is held in the group of its place."""
        if count > self.MOST_READ or seat in self.reads and self.reads[seat][:2] != (at, count):
            return False
        made = self.reads.pop(seat, (at, count, b""))[2]
        end = self.store.capacity * bao.CHUNK_LEN
        group = (at + len(made)) // bao.CHUNK_LEN // GROUP_LEN
        while len(made) < count:
            chunk, rest = divmod(at + len(made), bao.CHUNK_LEN)
            if at + len(made) < end and chunk // GROUP_LEN != group:
                self.reads[seat] = (at, count, made)
                return None
            part = self.store.held.get(chunk, b"")[rest:]
            if not part:
                return f"missing {at + len(made)}"
            made += part[: min(count - len(made), GROUP_LEN * bao.CHUNK_LEN * (group + 1) - at - len(made))]
        return f"bytes {made.hex()}".strip()

    def run(self):
        said = []
        for k, (name, numbers) in self.lines:
            reply = self.step(name, numbers, k)
            if reply is False:
                raise Refused(1, f"702 illegal step at line {k}")
            if reply is not None:
                said.append(f"{k} {self.worded(reply)}")
        return "".join(f"{it}\n" for it in [*said, f"held {len(self.store.held)}"])

    def worded(self, reply):
        """The reply as a schedule's text has it: masks are decimal."""
        name, _, rest = reply.partition(" ")
        if name in ("granted", "given", "committed"):
            return f"{name} {int(rest, 16)}"
        return {"no length": "length none", "too large": "toolarge"}.get(reply, reply)


def written(file):
    """The replies that a file has by hand, by the line of each command."""
    found, command = {}, None
    with open(f"{os.path.dirname(__file__)}/{file}", encoding="utf-8") as it:
        for line in it.read().splitlines():
            if line.startswith("    "):
                found[command].append(line[4:])
            elif line and not line.startswith("#"):
                command = line
                found[command] = []
    return found


class Programs:
    """The program `bao_gather` over files, by its words."""

    CONTEXT_SPACE, MOST_FILES = "_", 64

    # Which word after the command's name is OUT, and the names that it may not have.
    OUTS = {"encode": 1, "outboard": 1, "slice": 3, "cut-slice": 4, "decode": 2, "decode-slice": 4, "gather": 1}
    STANDARD_OUTPUT = ["-", "/dev/stdout", "/dev/fd/1", "/proc/self/fd/1"]

    def __init__(self):
        # /dev/zero has no end, and no more of it is read than this.
        self.files, self.digits, self.written = {"/dev/null": b"", "/dev/zero": bytes(66)}, "", written("clap.txt")
        # What is there and isn't a regular file, and what was told of FILEs.
        self.irregular, self.told = {"/dev/null", "/dev/zero"}, []

    def read(self, file):
        if file not in self.files:
            raise Refused(3, f"cannot read {file}")
        return self.files[file]

    # Folders that a case names; whatever else can't be read isn't there.
    FOLDERS = ["/", "."]

    def reason_of(self, file):
        """What the system has against reading a file."""
        number = errno.EISDIR if file in self.FOLDERS else errno.ENOENT
        return f"{os.strerror(number)} (os error {number})"

    def unwritten(self, options, file):
        """What --verbose reports of a file that can't be written."""
        number = errno.ENOSPC if file == "/dev/full" else errno.ENOENT
        return [f"{file}: {os.strerror(number)} (os error {number})"] if "--verbose" in options else []

    def why(self, name, options, given, fault):
        """What --verbose reports of a file that can't be read or written. For the FILEs of gather and its OUT that is reported before."""
        did, _, file = fault.rpartition(" ")
        if did == "cannot write" and not (name == "gather" and file == given[1]):
            return self.unwritten(options, file)
        is_told = did != "cannot read" or name == "gather" and file in given[2:]
        return [f"{file}: {self.reason_of(file)}"] if "--verbose" in options and not is_told else []

    def check_out(self, name, options, given):
        """Refuses an OUT that is read, but for the files that are gathered."""
        out = self.OUTS[name]
        read = [options[it] for it in ("--outboard", "--key-file") if it in options] + ([] if name == "gather" else [given[out - 1]])
        if os.path.normpath(given[out]) in map(os.path.normpath, read):
            raise Refused(2, "usage: OUT is a file that is read")

    def check_list(self, options, given):
        """Refuses a list that has the name of another file of the command."""
        if options["--missing"] in [given[1], *self.STANDARD_OUTPUT]:
            raise Refused(2, "usage: LIST is OUT or standard output")
        if options["--missing"] in self.read_by(options, given):
            raise Refused(2, "usage: LIST is a file that is read")

    def read_by(self, options, given):
        return [*given[2:], *(options[it] for it in ("--outboard", "--key-file") if it in options)]

    def check_list_leads(self, options, given):
        """Refuses a list that goes to another file of the command by another name."""
        others = [given[1], *self.STANDARD_OUTPUT, *self.read_by(options, given)]
        if os.path.normpath(options["--missing"]) in map(os.path.normpath, others):
            raise Refused(2, "usage: LIST leads to another file of the command")

    def write(self, file, data):
        if "/" in file:
            raise Refused(3, f"cannot write {file}")
        self.files[file] = data

    def root_of(self, digits):
        if len(digits) != 64 or not set(digits) <= set("0123456789abcdefABCDEF"):
            raise Refused(2, "usage: root is not 64 hexadecimal digits")
        return bytes.fromhex(digits)

    def key_in(self, file):
        """The key that a file has: 64 hexadecimal digits, and a line end or none."""
        digits = self.read(file).removesuffix(b"\n")
        if len(digits) != 64 or not set(digits) <= set(b"0123456789abcdefABCDEF"):
            raise Refused(2, "usage: key file is not 64 hexadecimal digits")
        return bytes.fromhex(digits.decode())

    def mode_of(self, key, context, file=None):
        if file is not None and (key is not None or context is not None):
            raise Refused(2, "usage: key file excludes key and context")
        if file is not None:
            return bao.Mode.keyed(self.key_in(file))
        if key is not None and (len(key) != 64 or not set(key) <= set("0123456789abcdefABCDEF")):
            raise Refused(2, "usage: key is not 64 hexadecimal digits")
        if key is not None and context is not None:
            raise Refused(2, "usage: key and context exclude each other")
        if key is not None:
            return bao.Mode.keyed(bytes.fromhex(key))
        return bao.Mode() if context is None else bao.Mode.derived(context.encode())

    def run(self, words):
        """What the program prints on its two streams, after its status."""
        options, plain, words = {"--at": "0", "--length": "32", "--workers": "4", "--capacity": "65536"}, [], list(words)
        self.told = []
        while words:
            word = words.pop(0)
            if word in ("--long", "--salvage", "--encode", "--verbose", "--no-names", "--quiet", "--ranges"):
                options[word] = ""
            elif word.startswith("--"):
                options[word] = words.pop(0)
            else:
                plain.append(word)
        name, *given = plain
        try:
            root = self.root_of(given[0]) if name in ("cut-slice", "decode", "decode-slice", "gather", "replay") else None
            if "--long" in options and options["--capacity"] != "65536":
                raise Refused(2, "usage: long excludes capacity")
            mode = self.mode_of(options.get("--key"), options.get("--context"), options.get("--key-file"))
            if name in self.OUTS and given[self.OUTS[name]] in self.STANDARD_OUTPUT:
                raise Refused(2, "usage: OUT is standard output")
            if "--missing" in options:
                self.check_list(options, given)
            if name in self.OUTS and os.path.normpath(given[self.OUTS[name]]) in self.STANDARD_OUTPUT:
                raise Refused(2, "usage: OUT leads to standard output")
            if name in self.OUTS:
                self.check_out(name, options, given)
            if "--missing" in options:
                self.check_list_leads(options, given)
            if name in ("check", "info") or name == "hash" and len(given) > 1:
                status, printed = getattr(self, f"{name}_all")(mode, options, given)
            else:
                status, printed = 0, getattr(self, name.replace("-", "_"))(mode, root, options, given).splitlines()
            return [f"status {status}", *(f"out: {it}" for it in printed), *(f"err: bao_gather: {it}" for it in self.told)]
        except Refused as fault:
            told = [*self.told, *self.why(name, options, given, str(fault)), fault]
            return [f"status {fault.status}", *(f"err: bao_gather: {it}" for it in told)]

    def hash(self, mode, root, options, given):
        at, length = int(options["--at"]), int(options["--length"])
        if at + length > 2**64 - 1:
            raise Refused(2, "usage: output range too large")
        return mode.output(self.read(given[0]), at, length).hex()

    def surveyed(self, options, file):
        """The file's bytes, or none where it can't be read, which is told."""
        if file in self.files:
            return self.files[file]
        self.told += [*([f"{file}: {self.reason_of(file)}"] if "--verbose" in options else []), f"cannot read {file}"]
        return None

    def shown(self, path):
        """A path as b3sum shows it."""
        mark = "\\" if "\\" in path or "\n" in path else ""
        return mark + path.replace("\\", "\\\\").replace("\n", "\\n")

    def sum_line(self, digits, path):
        shown = self.shown(path)
        mark = "\\" if shown != path else ""
        return f"{mark}{digits}  {shown.removeprefix(mark)}"

    def hash_all(self, mode, options, given):
        if options["--at"] != "0" or options["--length"] != "32":
            raise Refused(2, "usage: at and length are for one file")
        found = [(file, self.surveyed(options, file)) for file in given]
        digits = [(mode.hash(data).hex(), file) for file, data in found if data is not None]
        return 3 * (len(digits) < len(found)), [it if "--no-names" in options else self.sum_line(it, file) for it, file in digits]

    def sums(self, text):
        """The hash and the path of each line that `sum_line` makes; others are told, but for empty ones."""
        for number, line in enumerate(text.removesuffix(b"\n").split(b"\n"), 1):
            marked = line.startswith(b"\\")
            digits, path = line[marked : marked + 64], line[marked + 66 :]
            if marked:
                path = re.sub(rb"\\(.)", lambda it: b"\n" if it[1] == b"n" else it[1], path)
            if re.fullmatch(rb"[0-9a-f]{64}", digits) and is_utf8(path) and self.sum_line(digits.decode(), path.decode()).encode() == line:
                yield digits.decode(), path.decode()
            elif line:
                self.told.append(f"line {number} has no hash and path")

    def check_all(self, mode, options, given):
        lines = list(self.sums(self.read(given[0])))
        if not lines:
            raise Refused(2, "no line has a hash and a path")
        verdicts, printed = set(), []
        for digits, path in lines:
            data = self.surveyed(options, path)
            verdict = "cannot read" if data is None else "OK" if mode.hash(data).hex() == digits else "FAILED"
            verdicts.add(verdict)
            if verdict != "OK" or "--quiet" not in options:
                printed.append(f"{self.shown(path)}: {verdict}")
            if verdict == "FAILED" and "--ranges" in options:
                printed += self.damage(mode, bytes.fromhex(digits), path)
        return 1 if "FAILED" in verdicts else 3 if "cannot read" in verdicts else 0, printed

    def damage(self, mode, root, path):
        """A line for each run of groups that a file lacks, by the outboard file beside it."""
        outline, group = self.files.get(f"{path}.obao", b""), 64 * bao.CHUNK_LEN
        total, parent = int.from_bytes(outline[:8], "little"), outline[8:72]
        is_whole = len(outline) == 8 + 64 * (bao.chunks_of(total) - 1) and not self.irregular & {path, f"{path}.obao"}
        if not is_whole or parent and bao.node_value(mode.key, mode.flags, True, 0, True, parent) != root:
            self.told.append(f"no ranges of {path}: no outboard file of it is at {path}.obao")
            return []
        runs = []
        for start in range(0, bao.CHUNK_LEN * bao.chunks_of(total), group):
            try:
                bao.checked(mode, root, bao.cut_beside(outline, self.files[path], start, group), lambda length, start=start: bao.slice_nodes(length, start, group))
            except bao.Fault:
                first = runs.pop()[0] if runs and runs[-1][1] == start else start
                runs.append((first, start + group))
        return [f"{self.shown(path)}: damaged: {first} {min(after, total) - first}" for first, after in runs]

    def info_all(self, mode, options, given):
        printed = []
        for file in given:
            data = None if file in self.irregular else self.surveyed(options, file)
            if data is None:
                self.told += [f"cannot read {file}"] if file in self.irregular else []
                continue
            claimed = int.from_bytes(data[:8], "little")
            outboard = 8 + 64 * (bao.chunks_of(claimed) - 1)
            kinds = [kind for kind, size in (("combined encoding", outboard + claimed), ("outboard file", outboard)) if len(data) >= 8 and size == len(data)]
            told = f"{' or '.join(kinds)} of {claimed} bytes, not verified" if kinds else f"plain file of {len(data)} bytes"
            printed.append(f"{self.shown(file)}: {told}")
        return 3 * (len(printed) < len(given)), printed

    def encoded(self, mode, file, out, make):
        blob = self.read(file)
        self.write(out, make(blob))
        return mode.hash(blob).hex()

    def encode(self, mode, root, options, given):
        return self.encoded(mode, *given, lambda blob: bao.combined(mode, blob))

    def outboard(self, mode, root, options, given):
        return self.encoded(mode, *given, lambda blob: bao.outboard(mode, blob))

    def slice(self, mode, root, options, given):
        start, count, file, out = given
        return self.encoded(mode, file, out, lambda blob: bao.slice_text(mode, blob, int(start), int(count)))

    def read_regular(self, file):
        if file in self.irregular:
            raise Refused(3, f"cannot read {file}")
        return self.read(file)

    def cut_slice(self, mode, root, options, given):
        start, count, file, out = int(given[1]), int(given[2]), given[3], given[4]
        parents = options.get("--outboard", file)
        text = self.read_regular(parents)
        if "--outboard" in options:
            text = bao.cut_beside(text, self.read_regular(file), start, count)
        else:
            text = bao.cut(text, start, count)
        try:
            length, _, _ = bao.checked(mode, root, text, lambda length: bao.slice_nodes(length, start, count))
        except bao.Fault as fault:
            if "--verbose" in options and fault.at >= 8:
                it = next(it for it in bao.slice_nodes(int.from_bytes(text[:8], "little"), start, count) if it.offset == fault.at)
                first = bao.CHUNK_LEN * it.number
                bytes_told = f"bytes {first} to {max(first + it.length, 1) - 1} of the blob"
                self.told = [f"{parents}: damaged parent over {bytes_told}" if it.is_parent else f"{file}: damaged at {bytes_told}"]
            raise Refused(1, str(fault)) from None
        self.write(out, text)
        return f"ok {min(start + count, length) - min(start, length)}"

    def outline(self, mode, root, options):
        """The outboard encoding beside which the files are plain copies, if the words name one."""
        if "--outboard" not in options:
            return None
        text = self.read(options["--outboard"])
        try:
            return Outline(mode, root, text)
        except bao.Fault as fault:
            raise self.refused(options, options["--outboard"], text, fault, bao.outboard_nodes) from None

    def decode(self, mode, root, options, given):
        if "--outboard" not in options:
            return self.decoded(mode, root, options, 0, None, *given[1:])
        outline = self.outline(mode, root, options)
        copy = self.read(given[1])
        try:
            outline.beside(copy, 0, bao.chunks_of(outline.length))
        except bao.Fault as fault:
            if "--verbose" in options and options["--outboard"] not in self.irregular:
                last = min(fault.at + bao.CHUNK_LEN, outline.length) - 1
                self.told = [f"{given[1]}: {self.place_of(fault) or f'damaged at bytes {fault.at} to {last} of the blob'}"]
            raise Refused(1, str(fault)) from None
        self.write(given[2], copy)
        return f"ok {len(copy)}"

    def decode_slice(self, mode, root, options, given):
        return self.decoded(mode, root, options, int(given[1]), int(given[2]), *given[3:])

    def place_of(self, fault):
        """What is told of a file that is too short or too long."""
        if str(fault).startswith("501"):
            return f"too short: ends within what begins at its byte {fault.at}"
        return f"too long: bytes follow its first {fault.at}" if str(fault).startswith("503") else None

    def refused(self, options, file, text, fault, given, is_whole=False):
        """The refusal of an encoding whose nodes these are for a length; with --verbose it is told where the file is at fault."""
        if "--verbose" in options and not (file in self.irregular and file == options.get("--outboard")):
            place = self.place_of(fault)
            if place is None and file in self.irregular:
                place = f"damaged at its byte {fault.at}"
            if place is None and fault.at == 8 and file == options.get("--outboard"):
                place = self.NO_OUTBOARD
            if place is None and fault.at == 8 and is_whole and self.is_no_encoding(text):
                place = self.NO_ENCODING
            if place is None:
                it = next(it for it in given(int.from_bytes(text[:8], "little")) if it.offset == fault.at)
                first = bao.CHUNK_LEN * it.number
                place = f"damaged {'parent over' if it.is_parent else 'at'} bytes {first} to {max(first + it.length, 1) - 1} of the blob"
            self.told = [f"{file}: {place}"]
        return Refused(1, str(fault))

    def decoded(self, mode, root, options, start, count, file, out):
        text, asked = self.read(file), 2**64 - 1 if count is None else count
        try:
            length, found, _ = bao.checked(mode, root, text, lambda length: bao.slice_nodes(length, start, asked))
        except bao.Fault as fault:
            raise self.refused(options, file, text, fault, lambda length: bao.slice_nodes(length, start, asked), count is None) from None
        first, last = (0, length) if count is None else (min(start, length), min(start + count, length))
        made = b""
        for it in found:
            if not it.is_parent:
                at = it.number * bao.CHUNK_LEN
                made += text[it.offset + max(first - at, 0) : it.offset + max(0, min(last - at, it.size))]
        self.write(out, made)
        return f"ok {last - first}"

    def gather(self, mode, root, options, given):
        out, files = given[1], given[2:]
        if len(files) > self.MOST_FILES:
            raise Refused(2, "usage: too many files")
        # The outboard encoding comes first: where it is refused no file is opened.
        if "--verbose" in options and options.get("--outboard") not in self.files:
            self.told = [f"left out {it}: not opened" for it in files]
        try:
            outline = self.outline(mode, root, options)
        except Refused:
            self.told += self.listed(options, [])
            raise
        self.told = []
        found = [it for it in files if it in self.files]
        regular = [it for it in found if it not in self.irregular]
        answer, opened, is_done, worths = Refused(3, f"cannot read {files[0]}"), [], False, []
        grains = [GROUP_LEN, 1] if "--salvage" in options else [GROUP_LEN]
        # What isn't a regular file is opened only where the regular ones leave the blob unfinished.
        capacity = 2**54 if "--long" in options else int(options["--capacity"])
        for names in [regular] if found == regular else [regular, found]:
            if names and not is_done:
                opened = names
                answer = self.gathered(mode, root, capacity, outline, [self.given(it, options, outline) for it in names], grains)
                is_done = not isinstance(answer, Refused) or str(answer) not in ("901 unfinished", "805 too large")
        for it in files if "--verbose" in options else []:
            if it in self.irregular and it not in opened:
                self.told.append(f"left out {it}: not opened")
            elif it not in self.files:
                self.told.append(f"left out {it}: can't be read: {self.reason_of(it)}")
            else:
                text = self.given(it, options, outline)
                refused, groups = self.worth(mode, root, outline, text)
                is_none = refused == groups and not outline and it not in self.irregular and self.is_no_encoding(text)
                self.told.append(f"{it}: {self.NO_ENCODING if is_none else f'{refused} of {groups} groups of 64 KiB refused'}")
                worths.append((refused, groups))
        if "--verbose" in options and str(answer) == "805 too large" and "--long" not in options:
            self.told.append("the blob is longer than --capacity allows: --long lifts that limit")
        lack = None
        if str(answer) == "901 unfinished":
            lack = self.lack(mode, root, outline, [self.given(it, options, outline) for it in opened], grains[-1])
        if "--verbose" in options and str(answer) == "901 unfinished":
            self.told += self.lack_told(lack)
            if self.told[-1] == self.NO_END and "--salvage" not in options and worths and all(refused == groups for refused, groups in worths):
                self.told.append(self.NOTHING)
        if isinstance(answer, Refused):
            self.told += self.listed(options, [] if lack is None else lack[2])
            raise answer
        try:
            self.write(out, bao.combined(mode, answer) if "--encode" in options else answer)
        except Refused:
            self.told += [*self.unwritten(options, out), *self.listed(options, [])]
            raise
        if "--missing" in options:
            self.write(options["--missing"], b"")
        return f"ok {len(answer)}"

    def listed(self, options, parts):
        """Writes these ranges to the list, if one is asked for, and returns what is printed if that fails."""
        try:
            if "--missing" in options:
                self.write(options["--missing"], b"".join(b"%d %d\n" % (first, after - first) for first, after in parts))
            return []
        except Refused as fault:
            return [*self.unwritten(options, options["--missing"]), f"{options['--missing']}: left as it is: {fault}"]

    # The most parts that are shown of what is missing, and what is told where none has the end, and where nothing is under the root.
    MOST_SHOWN = 8
    NO_ENCODING = "not a combined encoding of ROOT; for a plain copy, use --outboard"
    NO_OUTBOARD = "not the outboard encoding of ROOT: check ROOT, the key and --context"

    def is_no_encoding(self, text):
        """Whether it has another size than a combined encoding of the length that it claims."""
        claimed = int.from_bytes(text[:8], "little")
        return len(text) >= 8 and len(text) != 8 + claimed + 64 * (bao.chunks_of(claimed) - 1)

    NO_END = "missing: the end of the blob, so its length isn't known"
    NOTHING = "nothing fits ROOT: check ROOT, the key and --context; plain copies need --outboard, encodings don't"

    def lack(self, mode, root, outline, texts, grain):
        """What none of these texts has of a length, certified or claimed: parts of so many chunks each, those together that follow one another. None where there is no length."""
        end = next(self.pieces(mode, root, outline, texts, 2**64 - 1, 1), None)
        total = self.claimed(mode, root, outline, texts, grain) if end is None else end.length
        if total is None:
            return None
        size, parts = bao.CHUNK_LEN * grain, []
        for start in range(0, bao.CHUNK_LEN * bao.chunks_of(total), size):
            if next(self.pieces(mode, root, outline, texts, start, size), None) is None:
                first = parts.pop()[0] if parts and parts[-1][1] == start else start
                parts.append((first, min(start + size, total)))
        return total, end is not None, parts

    def claimed(self, mode, root, outline, texts, grain):
        """The length that the outboard encoding claims, or the first text of which one of the first 64 units is right by the length that it claims."""
        if outline is not None:
            return outline.length
        for text in texts:
            total, size = int.from_bytes(text[:8], "little"), bao.CHUNK_LEN * grain
            units = range(0, min(bao.CHUNK_LEN * bao.chunks_of(total), 64 * size), size) if len(text) >= 8 else []
            if any(next(self.pieces(mode, root, outline, [text], start, size), None) is not None for start in units):
                return total
        return None

    def lack_told(self, lack):
        """What is told of it."""
        if lack is None:
            return [self.NO_END]
        total, is_certified, parts = lack
        if not parts:
            return ["missing: nothing at a second look: an earlier read failed"]
        shown = [f"missing: bytes {first} to {after - 1}" for first, after in parts[: self.MOST_SHOWN]]
        return [*shown, f"missing: {sum(after - first for first, after in parts)} of {total} bytes, ranges: {len(parts)}"] + ([] if is_certified else [f"missing: the length isn't certified yet: {total} bytes are claimed"])

    def given(self, name, options, outline):
        """What a file gives: of one that isn't regular no more is read than can help, and a byte."""
        most = bao.CHUNK_LEN * int(options["--capacity"])
        most += 0 if outline else 8 + 64 * (bao.chunks_of(most) - 1)
        return self.files[name][: most + 1] if name in self.irregular else self.files[name]

    def gathered(self, mode, root, capacity, outline, texts, grains):
        """The blob that these texts give, or why they give none: they are asked for what is missing by so many chunks, one grain after another."""
        held, length = {}, None
        for piece in self.pieces(mode, root, outline, texts, 2**64 - 1, 1):
            if piece.length > bao.CHUNK_LEN * capacity:
                return Refused(1, "805 too large")
            length = piece.length
            break
        if length is None:
            return Refused(1, "901 unfinished")
        for grain in grains:
            for first in range(0, bao.chunks_of(length), grain):
                if all(k in held for k in range(first, min(first + grain, bao.chunks_of(length)))):
                    continue
                for piece in self.pieces(mode, root, outline, texts, bao.CHUNK_LEN * first, bao.CHUNK_LEN * grain):
                    held.update(piece.chunks)
                    break
        blob = b"".join(held.get(k, b"") for k in range(bao.chunks_of(length)))
        if len(blob) != length:
            return Refused(1, "901 unfinished")
        return blob if mode.hash(blob) == root else Refused(1, "902 not the root")

    def worth(self, mode, root, outline, text):
        """How many of the groups that a file is asked for are refused, and of how many: by the length that it claims, or the outline."""
        claimed = outline.length if outline else int.from_bytes(text[:8], "little") if len(text) >= 8 else 0
        groups, group_bytes = -(-bao.chunks_of(claimed) // GROUP_LEN), GROUP_LEN * bao.CHUNK_LEN
        # Of an encoding none is accepted that begins after its end.
        asked = groups if outline else min(groups, -(-len(text) // group_bytes))
        found = [next(self.pieces(mode, root, outline, [text], group_bytes * group, group_bytes), None) for group in range(asked)]
        return found.count(None) + groups - asked, groups

    def pieces(self, mode, root, outline, texts, start, count):
        """The accepted slices of these encodings, or of these plain copies beside an outline."""
        for text in texts:
            made = object.__new__(Piece)
            made.mode, made.root, made.start, made.count = mode, root, start, count
            try:
                made.read(outline.slice(text, start, count) if outline else bao.cut(text, start, count))
            except bao.Fault:
                continue
            yield made

    def replay(self, mode, root, options, given):
        if len(given) - 2 > self.MOST_FILES:
            raise Refused(2, "usage: too many files")
        script, *files = [self.read(it) for it in given[1:]]
        return Schedule(mode, root, int(options["--capacity"]), script, files).run()

    def do(self, name, rest):
        words = rest.split(" ")
        file = words[0]
        match name:
            case "anew":
                self.__init__()
            case "blob":
                self.files[file] = blob_of(int(words[1]))
            case "bytes":
                self.files[file] = bytes.fromhex(words[1] if len(words) > 1 else "")
            case "steps":
                self.files[file] = rest.partition(" ")[2].replace(";", "\n").encode()
            case "add":
                self.files[file] += rest.partition(" ")[2].replace(";", "\n").encode()
            case "fills":
                self.files[file] += b"".join(b"\nfill %d %d" % (int(words[1]), k) for k in range(int(words[2]))) + b"\n"
            case "copy":
                self.files[words[1]] = self.files[file][: int(words[2])]
            case "flip":
                at, data = int(words[1]), self.files[file]
                self.files[file] = data[:at] + bytes([data[at] ^ 1]) + data[at + 1 :]
            case "append":
                self.files[file] += bytes.fromhex(words[1])
            case "claim":
                self.files[file] = int(words[1]).to_bytes(8, "little") + self.files[file][8:]
            case "remove":
                for it in words:
                    del self.files[it]
            case "show":
                return [told(self.files[file]) if file in self.files else "none"]
            case "run" if f"run {rest}".rstrip() in self.written:
                return self.written[f"run {rest}".rstrip()]
            case "run":
                replies = self.run([(self.digits if it == "$" else it).replace(self.CONTEXT_SPACE, " ") for it in words])
                printed = replies[1][5:] if len(replies) > 1 and replies[1].startswith("out: ") else ""
                self.digits = printed if len(printed) == 64 else self.digits
                return replies
            case _:
                sys.exit(f"scenarios: no command {name}")
        return []


class Starved(Exception):
    """A holder has no memory."""


class Broken(Exception):
    """A holder's device failed."""


class Holder:
    """Whom a worker asks: over a text, or a store that serves."""

    def __init__(self, kind, text, only=None, starves=None, counted=0, serves=None):
        self.kind, self.text, self.only, self.starves, self.faults, self.serves = kind, text, only, starves, counted, serves

    def fetch(self, start, count):
        """What it gives as the slice of a range."""
        if self.starves is not None:
            if self.starves == 0:
                raise Starved
            self.starves -= 1
        if self.only is not None and start != 2**64 - 1 and start // (GROUP_LEN * bao.CHUNK_LEN) != self.only:
            return b""
        if self.text is None and self.serves is None:
            if self.faults == 2**64 - 1:
                return b""
            self.faults += 1
            raise Broken
        if self.serves:
            return self.serves(start, count)
        return bao.cut(self.text, start, count) if self.kind.startswith("encoded") else self.text[start : start + count]


class Gathering(Stores):
    """A store, and one worker's work for it, which is all that several do together."""

    def __init__(self, mode, root, capacity):
        super().__init__()
        self.of, self.root, self.capacity = mode, root, capacity
        self.held, self.claims, self.length, self.parents = {}, {}, None, {}

    def begin(self):
        self.report = dict.fromkeys(["committed", "parents", "asked", "refused", "failed", "memory"], 0)
        self.is_too_large = False

    def asked(self, holder, outline, start, count):
        """The piece that a holder's answer for a range is accepted as, if it is."""
        self.report["asked"] += 1
        made = object.__new__(Piece)
        made.mode, made.root, made.start, made.count = self.of, self.root, start, count
        try:
            given = holder.fetch(start, count)
            if outline:
                first = start // bao.CHUNK_LEN
                given = outline.beside(given, first, bao.chunks_of(count))[0]
            made.read(given)
            return made
        except Broken:
            self.report["failed"] += 1
        except Starved:
            self.report["memory"] += 1
        except bao.Fault:
            self.report["refused"] += 1
        return None

    def keep_parents(self, piece):
        if piece.length == self.length:
            new = {m: it for m, it in piece.parents.items() if m not in self.parents}
            self.parents.update(new)
            self.report["parents"] += len(new)

    def range_of(self, outline, first, count):
        """The bytes that are asked for so many chunks: beside an outline no byte after its blob's end."""
        start, size = bao.CHUNK_LEN * first, bao.CHUNK_LEN * count
        return start, min(size, outline.length - start) if outline else size

    def round(self, holders, outline=None):
        """One round of a worker: the length, and then group after group."""
        for it in holders:
            if self.length is not None or self.is_too_large:
                break
            end = self.range_of(outline, bao.chunks_of(outline.length) - 1, 1) if outline else (2**64 - 1, 1)
            piece = self.asked(it, outline, *end)
            if piece is None or not piece.is_last:
                continue
            if self.settle(piece) == "too large":
                self.is_too_large = True
            else:
                self.keep_parents(piece)
        self.is_to_go_on = self.length is not None and (outline is None or outline.length == self.length)
        for group in range(-(-bao.chunks_of(self.length) // GROUP_LEN) if self.is_to_go_on else 0):
            first = GROUP_LEN * group
            left = [k for k in range(first, min(first + GROUP_LEN, bao.chunks_of(self.length))) if k not in self.held and k not in self.claims]
            for it in holders:
                if not left:
                    break
                piece = self.asked(it, outline, *self.range_of(outline, first, GROUP_LEN))
                if piece is not None:
                    stored = [k for k in left if k in piece.chunks]
                    self.held.update((k, piece.chunks[k]) for k in stored)
                    self.report["committed"] += len(stored)
                    left = [k for k in left if k not in stored]
                    self.keep_parents(piece)

    def complete(self, holders, outline=None):
        """The end of a closing round: groups of which a parent isn't held, whichever chunks are, for their parents alone."""
        for group in range(-(-bao.chunks_of(self.length) // GROUP_LEN) if self.is_to_go_on else 0):
            first = GROUP_LEN * group
            for it in holders:
                if all(m in self.parents for m in range(max(first, 1), min(first + GROUP_LEN, bao.chunks_of(self.length)))):
                    break
                piece = self.asked(it, outline, *self.range_of(outline, first, GROUP_LEN))
                if piece is not None:
                    self.keep_parents(piece)

    def worked(self, holders, workers, outline=None):
        """Both rounds. Several workers make no other difference than in what they ask."""
        self.begin()
        self.round(holders, outline)
        too_large, self.is_too_large = self.is_too_large, False
        self.round(holders, outline)
        self.complete(holders, outline)
        told_of = list(self.report) if workers == 1 else ["committed", "parents"]
        said = ", ".join(f"{it} {self.report[it]}" for it in told_of)
        return said + (", too large" if too_large or self.is_too_large else "")

    def finished(self):
        """The blob, or why there is none."""
        if self.length is None:
            return "901 unfinished"
        blob = b"".join(self.held.get(k, b"") for k in range(bao.chunks_of(self.length)))
        if any(k not in self.held for k in range(bao.chunks_of(self.length))) or len(blob) < self.length:
            return "901 unfinished"
        blob = blob[: self.length]
        return told(blob) if self.of.hash(blob) == self.root else "902 not the root"

    def served(self, start, count):
        """What it serves another store: nothing where it lacks a node."""
        made = (self.length or 0).to_bytes(8, "little")
        for it in bao.slice_nodes(self.length, start, count) if self.length is not None else []:
            held, at = (self.parents, boundary(it)) if it.is_parent else (self.held, it.number)
            if at not in held:
                return b""
            made += held[at]
        return made if self.length is not None else b""


class Crews:
    """Texts, holders over them, and the stores that they fill."""

    FAULTS = [901, 902, 903, 805, 901, 902, 903, 911]
    WORDS = {805: "too large", 901: "unfinished", 902: "not the root", 903: "memory", 911: "memory"}
    RANGES = [(0, 0), (0, 1), (2**64 - 1, 1), (0, 65536), (131072, 65536), (196608, 65536), (262144, 65536), (1023, 2), (130000, 2000), (199999, 1), (1, 2**64 - 1)]
    # What a holder appends to.
    BEFORE = bytes([1, 2])

    def __init__(self):
        self.mode, self.blob, self.root, self.texts, self.stores, self.alone = bao.Mode(), b"", bytes(32), {}, {}, None

    def holder(self, word):
        word, _, more = word.partition("/")
        kind, _, rest = word.partition(":")
        text = None if kind == "broken" or "breaks" in rest.split(":") else self.texts[rest.split(":")[0]]
        options = {name: int(number) for name, _, number in [more.partition(":")] if name}
        return Holder(kind, text, **options)

    def fetched(self, word, start, count):
        try:
            return told(self.BEFORE + self.holder(word).fetch(start, count))
        except Broken:
            return "holder's device"
        except Starved:
            return "holder's memory"

    def shrinking(self, name, source, start, count):
        """A source that has less from some read on gives a beginning, and one that doesn't gives all."""
        return "a beginning" if "shrinks" in source else "all"

    def endless(self, start, count):
        """Of a combined encoding that claims 2^64 - 1 bytes, the wanted nodes up to the first that lies where no place can name."""
        length = 2**64 - 1
        (first, after), size, todo = bao.range_of(length, start, count), 8, [(0, length, 8)]
        while todo:
            at, part, place = todo.pop()
            if at >= after or first >= at + part:
                continue
            is_parent = part > bao.CHUNK_LEN
            node = 64 if is_parent else part
            if place + node >= 2**64:
                break
            size += node
            if is_parent:
                left = bao.left_len(part)
                below = 64 * (left // bao.CHUNK_LEN - 1) + left
                todo += [(at + left, part - left, place + 64 + below), (at, left, place + 64)]
        return f"{size} bytes, in little room"

    def made(self, name, given):
        mode, blob, texts = self.mode, self.blob, self.texts
        match name, given:
            case "combined", []:
                return bao.combined(mode, blob)
            case "outboard", []:
                return bao.outboard(mode, blob)
            case "slice", [start, count]:
                return bao.slice_text(mode, blob, int(start), int(count))
            case "copy", []:
                return blob
            case "value", [chunk]:
                return mode.value(int(chunk), blob)
            case "parent", [pair]:
                return bao.node_value(mode.key, mode.flags, True, 0, False, texts[pair][:64])
            case "zeros", [count]:
                return bytes(int(count))
            case "length", [length]:
                return int(length).to_bytes(8, "little")
            case "joined", names:
                return b"".join(texts[it] for it in names)
        sys.exit(f"scenarios: no command {name}")

    def changed(self, name, text, word):
        match name:
            case "keep":
                return text[: int(word)]
            case "drop":
                return text[int(word) :]
            case "flip":
                return text[: int(word)] + bytes([text[int(word)] ^ 1]) + text[int(word) + 1 :]
            case "append":
                return text + bytes.fromhex(word)
            case "claim":
                return int(word).to_bytes(8, "little") + text[8:]
        return None

    def make(self, name, called, *given):
        text = self.changed(name, self.texts[called], *given) if called in self.texts and len(given) == 1 else None
        self.texts[called] = self.made(name, list(given)) if text is None else text
        return [told(self.texts[called])]

    def call(self, name, store, words):
        match name:
            case "work":
                return store.worked([self.holder(it) for it in words[1:]], int(words[0]))
            case "beside":
                outline = Outline(self.mode, self.root, self.texts[words[1]])
                return store.worked([self.holder(it) for it in words[2:]], int(words[0]), outline)
            case "over":
                return store.worked([Holder("encoded", None, serves=self.stores[int(words[0])].served)], 1)
            case "finish":
                return store.finished()
            case "free":
                return f"free {sum(k not in store.held and k not in store.claims for k in range(store.capacity))}"
            case "claims":
                return store.take("gone", int(words[0]), 2 ** int(words[1]) - 1)
            case "settle":
                piece = object.__new__(Piece)
                piece.mode, piece.root, piece.start, piece.count = self.mode, self.root, 2**64 - 1, 1
                piece.read(self.texts[words[0]])
                return f"settled {str(store.settle(piece) == 'settled').lower()}"
            case "read":
                return store.read(*map(int, words)).partition(",")[0]

    def do(self, name, rest):
        words = rest.split(" ") if rest else []
        match name:
            case "mode":
                self.mode = mode_of(rest)
            case "blob":
                self.blob = blob_of(int(rest))
                self.root = self.mode.hash(self.blob)
            case "root":
                self.root = bytes.fromhex(rest)
            case "top":
                self.root = bao.node_value(self.mode.key, self.mode.flags, True, 0, True, self.texts[rest][:64])
            case "faults":
                return [f"{it} {it} {self.WORDS[it]}" for it in self.FAULTS]
            case "fetch":
                return [self.fetched(words[0], int(words[1]), int(words[2]))]
            case "ranges":
                return [told(b"".join(self.BEFORE + self.holder(rest).fetch(*it) for it in self.RANGES))]
            case "failing":
                return ["each read fails once"]
            case "shrinking":
                return [self.shrinking(*words)]
            case "endless":
                return [self.endless(*map(int, words))]
            case "alone":
                self.alone = Gathering(self.mode, self.root, int(rest))
            case "one":
                return [self.alone.worked([self.holder(it) for it in words], 1)]
            case "ended":
                return [self.alone.finished()]
            case "store":
                self.stores[int(words[0])] = Gathering(self.mode, self.root, int(words[1]))
                return [f"groups {self.stores[int(words[0])].groups()}"]
            case "work" | "beside" | "over" | "finish" | "free" | "claims" | "settle" | "read":
                return [self.call(name, self.stores[int(words[0])], words[1:])]
            case _:
                return self.make(name, *words)
        return []


def examples():
    """What the program `examples` has to print of its blob."""
    mode, blob = bao.Mode(), blob_of(200_000)
    root, size = mode.hash(blob), 1 << 16

    def text(name, data):
        return f"{name}: {len(data)} bytes {mode.hash(data).hex()}"

    part = text("slice", bao.slice_text(mode, blob, 70_000, 1_000))
    encoding = bao.combined(mode, blob)
    first_copy = bytes(byte ^ (at == 10_000) for at, byte in enumerate(encoding))
    *_, lacking = Programs().lack(mode, root, None, [first_copy], GROUP_LEN)
    schedule = b"claim 1 0 1\nhash 1 0 0 1000\nfill 1 0\npublish 1 0\nload 2 1000 5\n"
    return [
        f"hash: {root.hex()}",
        f"keyed hash: {bao.Mode.keyed(bytes([7] * 32)).hash(blob).hex()}",
        f"derived key: {bao.Mode.derived(b'examples 2026').hash(blob).hex()}",
        f"longer output: {mode.output(blob, 0, 48).hex()}",
        f"hash in pieces: {root.hex()}",
        f"hash by a pool: {root.hex()}",
        f"root: {root.hex()}",
        text("combined", encoding),
        f"cut {part}",
        text("outboard", bao.outboard(mode, blob)),
        part,
        f"hash of a source: {root.hex()}",
        f"combined of a source: {mode.hash(encoding).hex()}",
        text("checked chunk", blob[70_000 // bao.CHUNK_LEN * bao.CHUNK_LEN :][: bao.CHUNK_LEN]),
        f"certified length: {len(blob)}",
        text("second chunk", blob[bao.CHUNK_LEN : 2 * bao.CHUNK_LEN]),
        f"hash of what was decoded: {root.hex()}",
        f"claimed by an outboard in pieces: {len(blob)}",
        "audit: agrees",
        text("combined in a file", encoding),
        text("decoded slice", blob[70_000:][:1_000]),
        f"read of a part: {blob[70_000:][:16].hex()}",
        f"missing from {2 * size} on",
        f"served {part}",
        text("finished", blob),
        f"read after two seats: {blob[size - 8 :][:16].hex()}",
        text("replies to a schedule", Schedule(mode, root, 256, schedule, [encoding]).run().encode()),
        text("gathered", blob),
        text("gathered by workers", blob),
        text("written by windows", blob),
        text("list of what a copy lacks", b"".join(b"%d %d\n" % (start, end - start) for start, end in lacking)),
    ]


# What does a scenario's commands, and its files: the commands, and the same with the replies.
SCENARIOS = [
    (Texts, "crates/text_scenarios/stdin", "crates/text_scenarios/stdout"),
    (Stores, "crates/store_scenarios/stdin", "crates/store_scenarios/stdout"),
    (Crews, "crates/crew_scenarios/stdin", "crates/crew_scenarios/stdout"),
    (Programs, "crates/bao_gather/scenarios/lines.txt", "crates/bao_gather/scenarios/replies.txt"),
]
EXAMPLES = "crates/examples/stdout"


def replies(kind, script):
    """The script with the replies to its commands."""
    state, made = kind(), []
    for line in script.splitlines():
        made.append(line)
        if line and not line.startswith("#"):
            name, _, rest = line.partition(" ")
            made += [f"    {it}" for it in state.do(name, rest)]
    return "".join(f"{it}\n" for it in made)


def disagreements(file):
    """How many of these rows, made by another program, the definitions don't give."""
    modes = {"hash": "plain", "keyed": "key 77686174732074686520456c7669736820776f726420666f7220667269656e64"}
    modes["derive"] = "context BLAKE3 2019-12-27 16:29:52 test vectors context"
    with open(file, encoding="utf-8") as it:
        rows = [line.split() for line in it if not line.startswith("#")]
    return sum(mode_of(modes[mode]).output(blob_of(int(length)), 0, len(digits) // 2).hex() != digits for mode, length, digits in rows)


def made_of(scenario):
    """The commands of a scenario with their replies."""
    kind, lines, _ = scenario
    with open(lines, encoding="utf-8") as it:
        return replies(kind, it.read())


def main(*, write=False):
    with concurrent.futures.ProcessPoolExecutor() as pool:
        rows = pool.submit(disagreements, f"{os.path.dirname(os.path.abspath(__file__))}/b3sum.tsv")
        texts = {file: pool.submit(made_of, (kind, lines, file)) for kind, lines, file in SCENARIOS}
        texts = {file: it.result() for file, it in texts.items()}
        wrong = rows.result()
    texts[EXAMPLES] = "".join(f"{it}\n" for it in examples())
    if wrong:
        print(f"{wrong} rows of b3sum.tsv aren't what the definitions give")
    for file, made in texts.items():
        if write:
            with open(file, "w", encoding="utf-8") as it:
                it.write(made)
            continue
        with open(file, encoding="utf-8") as it:
            had = it.read()
        lines = zip(had.splitlines(), made.splitlines())
        at = next((k for k, (ours, theirs) in enumerate(lines, 1) if ours != theirs), None)
        if had != made:
            print(f"{file} isn't what the definitions give{f', first at line {at}' if at else ''}")
            wrong += 1
        else:
            print(f"{file} is what the definitions give")
    return 1 if wrong else 0


if __name__ == "__main__":
    script.run(main)

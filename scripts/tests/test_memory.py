"""Runs the program where holders are large, many or endless, and holds each run to bounds of memory and of what it reads.

A case is a run, or several, of which all but the last make files for the next. What has to come is what the case put there itself: the blob that the holders
have, or a fault of docs/MANUAL.md at an offset that scripts/definitions.py gives, and then OUT as it was. A run may have so much memory at once
(scripts/peak.c). Where it counts, it may read so many bytes (shim.c), which no clock would show: that a large holder isn't read for nothing. Zeros are
sparse and take no room on the disk; the rest takes 7 GB. Needs cc.
"""
import errno
import filecmp
import os
import shutil
import tempfile
from dataclasses import dataclass, field

from cases import HELD, KEPT, OUT, PROGRAM, ROOM, Case, each, shim
import definitions as bao
from files import BLOBS, CLAIMING, ENDLESS, FOLDER, GIB, HOLED, HOLED_LEN, ISLAND, ISLAND_LEN, LOCKED, MADE, MIB, PIPE, TIB, Files
from peak import Launcher
from scenarios import GROUP_LEN

# The tasks that print the root; others print ok and a length.
PRINT_ROOT = ["encode", "outboard", "slice"]


@dataclass(frozen=True)
class Row:
    """A case: the words of its runs, where @NAME is the root of the blob NAME, how many MiB of memory each may have at once, or each by itself, and how the last
    one ends: with a fault, which leaves OUT as it was, or with an OUT like a file. Before that it tells lines of FILEs."""

    name: str
    words: tuple[str, ...]
    most: int | tuple[int, ...]
    fault: str = ""
    like: str = ""
    told: list[str] = field(default_factory=list)
    # How many MiB the last may read, where that is looked at.
    read: int = 0
    # Which file comes through a pipe, and by which name the program has that.
    piped: tuple[str, str] = ("", "")
    # How many files may be open at once, where there is such a limit.
    files: int = 0


def linked(name, count, first=0):
    return [f"{name}.{k}" for k in range(first, first + count)]


def counted(name, refused, blob):
    """What is told of a FILE: how many groups of this blob are refused."""
    return f"{name}: {refused} of {-(-bao.chunks_of(BLOBS[blob]) // GROUP_LEN)} groups of 64 KiB refused"


def unread(name, number):
    """What is told of a FILE that can't be read, for that reason of the system's."""
    return f"left out {name}: can't be read: {os.strerror(number)} (os error {number})"


def missing(blob):
    """What is told of FILEs that all have a changed byte in the middle chunk."""
    size = GROUP_LEN * bao.CHUNK_LEN
    at = bao.chunks_of(BLOBS[blob]) // 2 // GROUP_LEN * size
    after = min(at + size, BLOBS[blob])
    return [f"missing: bytes {at} to {after - 1}", f"missing: {after - at} of {BLOBS[blob]} bytes, ranges: 1"]


def gather(blob, *files, how=""):
    return (" ".join(["gather", *how.split(), f"@{blob}", OUT, *files]),)


def gather_beside(outboard, blob, *copies):
    return gather(blob, *copies, how=f"--outboard {outboard}")


def decode_beside(outboard, blob, copy):
    return (f"decode --outboard {outboard} @{blob} {copy} {OUT}",)


UNFINISHED = "901 unfinished"

# How many MiB a gathering may have at once window by window, a task that holds 64 MiB, one out of a pipe, one that keeps the parents of 1 GiB, and one that
# keeps next to nothing.
WINDOW, GATHERS, PIPES, READS, KEEPS = 40, 180, 260, 120, 32

# How many MiB may be read: four times the encoding of 64 MiB; little, where what a holder has is false from its beginning on; little and what a pipe is read.
FOUR_TIMES, LITTLE, OF_A_PIPE = 4 * 68, 32, 32 + 68

TWENTY = linked("64M.torn", 20)
BESIDE_ZEROS = gather("4M", "4M.torn", "zeros-3G"), gather("4M", "4M.torn", "zeros-1T")
TRUE_BESIDE_ZEROS = gather("64M", "64M.bao", "zeros-3G", how="--verbose")
TRUE_AND_ZEROS = [counted("64M.bao", 0, "64M"), "zeros-3G: not a combined encoding of ROOT; for a plain copy, use --outboard"]

# Holders that are many, or large.
HOLDERS = [
    Row("twenty holders with one damaged chunk in common", gather("64M", *TWENTY), WINDOW, UNFINISHED, read=FOUR_TIMES),
    Row("these twenty, each counted", gather("64M", *TWENTY, how="--verbose"), WINDOW, UNFINISHED, told=[*(counted(it, 1, "64M") for it in TWENTY), *missing("64M")]),
    Row("a damaged holder beside one of 3 GiB of zeros", BESIDE_ZEROS[0], WINDOW, UNFINISHED, read=LITTLE),
    Row("a damaged holder beside one of 1 TiB of zeros", BESIDE_ZEROS[1], WINDOW, UNFINISHED, read=LITTLE),
    Row("a true holder beside one of 3 GiB of zeros, each counted", TRUE_BESIDE_ZEROS, WINDOW, like="64M", told=TRUE_AND_ZEROS, read=FOUR_TIMES),
    Row("a plain copy of 3 GiB of zeros alone", gather_beside("4M.obao", "4M", "zeros-3G"), WINDOW, UNFINISHED, read=LITTLE),
    Row("a plain copy of 3 GiB of zeros to decode", decode_beside("4M.obao", "4M", "zeros-3G"), GATHERS, "502 mismatch at 0", read=LITTLE),
]

# Outboard encodings that are large and false, the blob that they are given for, and their fault.
FALSE_OUTBOARDS = [
    ("of 3 GiB of zeros", "zeros-3G", "4M", "503 trailing at 8"),
    ("of 1 TiB of zeros", "zeros-1T", "4M", "503 trailing at 8"),
    ("with 3 GiB of zeros behind it", "64M.padded", "64M", f"503 trailing at {8 + 64 * (bao.chunks_of(BLOBS['64M']) - 1)}"),
    ("of 3 GiB that claims 1 TiB and has a false first parent", CLAIMING, "4M", "502 mismatch at 8"),
]
OUTBOARDS = [
    Row(f"an outboard encoding {which}, to {words[0].split()[0]}", words, GATHERS, fault, read=LITTLE)
    for which, file, blob, fault in FALSE_OUTBOARDS
    for words in (gather_beside(file, blob, blob), decode_beside(file, blob, blob))
]

STDIN = "/dev/stdin"
ZEROS_COME, NAMED = (STDIN, ENDLESS), (PIPE, ENDLESS)

# Pipes that don't end, and that have as much as a blob may have, or more.
PIPED = [
    Row("an endless pipe beside a damaged holder", gather("4M", "4M.torn", STDIN), PIPES, UNFINISHED, piped=ZEROS_COME, read=OF_A_PIPE),
    Row("an endless named pipe before a damaged holder", gather("4M", PIPE, "4M.torn"), PIPES, UNFINISHED, piped=NAMED, read=OF_A_PIPE),
    Row("an endless pipe beside a damaged plain copy", gather_beside("4M.obao", "4M", "4M.worn", STDIN), PIPES, UNFINISHED, piped=ZEROS_COME, read=OF_A_PIPE),
    Row("an endless pipe as outboard encoding, to gather", gather_beside(STDIN, "4M", "4M"), PIPES, "503 trailing at 8", piped=ZEROS_COME, read=LITTLE),
    Row("an endless pipe as outboard encoding, to decode", decode_beside(STDIN, "4M", "4M"), PIPES, "503 trailing at 8", piped=ZEROS_COME, read=LITTLE),
    Row("an endless pipe as combined encoding, to decode", (f"decode @4M {STDIN} {OUT}",), KEEPS, "502 mismatch at 8", piped=ZEROS_COME, read=LITTLE),
    Row("a pipe with as many chunks as are let in", gather("64K", STDIN, how="--capacity 64"), PIPES, like="64K", piped=(STDIN, "64K.bao")),
    Row("a pipe with one chunk more", gather("64K+1", STDIN, how="--capacity 64"), PIPES, UNFINISHED, piped=(STDIN, "64K+1.bao")),
    Row("a pipe with as many chunks as a store has", gather("64M", STDIN), PIPES, like="64M", piped=(STDIN, "64M.bao")),
    Row("a pipe with one chunk more than a store has", gather("64M+1", STDIN), PIPES, UNFINISHED, piped=(STDIN, "64M+1.bao")),
]

PART = f"{HOLED_LEN // 2} {ISLAND_LEN}"
SLICED = (f"slice {PART} {HOLED} {MADE}", f"decode-slice @{HOLED} {PART} {MADE} {OUT}")
CUT = (f"encode {HOLED} {OUT}", f"cut-slice @{HOLED} {PART} {OUT} {MADE}", f"decode-slice @{HOLED} {PART} {MADE} {OUT}")
CUT_BESIDE = (f"outboard {HOLED} {OUT}", f"cut-slice --outboard {OUT} @{HOLED} {PART} {HOLED} {MADE}", f"decode-slice @{HOLED} {PART} {MADE} {OUT}")
CUT_LONG = (f"encode 1G {OUT}", f"cut-slice @1G 0 {GIB} {OUT} {MADE}", f"decode @1G {MADE} {OUT}")
ENCODED = (f"encode 1G {MADE}", f"decode @1G {MADE} {OUT}")
OUTBOARDED = (f"outboard 1G {MADE}", *decode_beside(MADE, "1G", "1G"))

# Long files, there and back.
LONG = [
    Row("a slice out of the middle of 1 GiB", SLICED, KEEPS, like=ISLAND),
    Row("a slice cut out of the encoding of 1 GiB", CUT, (READS, KEEPS, KEEPS), like=ISLAND),
    Row("a slice cut out of 1 GiB beside its outboard encoding", CUT_BESIDE, (READS, KEEPS, KEEPS), like=ISLAND),
    Row("all of 1 GiB cut out of its encoding", CUT_LONG, (READS, KEEPS, KEEPS), like="1G"),
    Row("a slice cut out of 1 TiB of zeros", (f"cut-slice @4M {TIB // 2} 100 {CLAIMING} {OUT}",), KEEPS, "502 mismatch at 8", read=1),
    Row("a slice cut out of 1 TiB beside zeros", (f"cut-slice --outboard {CLAIMING} @4M {TIB // 2} 100 zeros-1T {OUT}",), KEEPS, "502 mismatch at 8", read=1),
    Row("1 GiB encoded and decoded", ENCODED, (READS, KEEPS), like="1G"),
    Row("1 GiB decoded beside its outboard encoding", OUTBOARDED, READS, like="1G"),
]

# How many MiB a gathering may have at once beside the parents of 300 MiB.
BESIDE_PARENTS = 64


def gather_long(blob, *files, how=""):
    return gather(blob, *files, how=f"--long {how}")


# An OUT that can't be replaced has no copy of a pipe beside it: of one that is held in memory the last 64 bytes are cut, of two chunks in two groups.
CUT_PIPE = (f"gather --long --verbose @64M+1 {os.devnull} {STDIN}",)
CUT_TOLD = [
    f"{STDIN}: only its first {8 + 64 * (bao.chunks_of(BLOBS['64M']) - 1) + BLOBS['64M'] + 1} bytes were read",
    counted(STDIN, 2, "64M+1"),
    f"missing: bytes {64 * MIB - GROUP_LEN * bao.CHUNK_LEN} to {64 * MIB}",
    f"missing: {GROUP_LEN * bao.CHUNK_LEN + 1} of {BLOBS['64M+1']} bytes, ranges: 1",
    f"missing: the length isn't certified yet: {BLOBS['64M+1']} bytes are claimed",
]

# Blobs of any length, window by window.
ANY_LENGTH = [
    Row("300 MiB and a byte out of three encodings, each with another third damaged", gather_long("300M+1", *(f"300M+1.enc{k}" for k in range(3))), WINDOW, like="300M+1"),
    Row(
        "300 MiB and a byte out of three plain copies, each with another third damaged",
        gather_long("300M+1", *(f"300M+1.raw{k}" for k in range(3)), how="--outboard 300M+1.obao"),
        BESIDE_PARENTS,
        like="300M+1",
    ),
    Row("64 MiB, of any length", gather_long("64M", "64M.bao"), WINDOW, like="64M", read=FOUR_TIMES),
    Row("a byte more than a store has room for", gather("64M+1", "64M+1.bao"), GATHERS, "805 too large", read=LITTLE),
    Row("a byte more than a store has room for, of any length", gather_long("64M+1", "64M+1.bao"), WINDOW, like="64M+1"),
    Row("twenty holders with one damaged chunk in common, of any length", gather_long("64M", *TWENTY), WINDOW, UNFINISHED, read=FOUR_TIMES),
    Row("a damaged holder beside one of 1 TiB of zeros, of any length", gather_long("4M", "4M.torn", "zeros-1T"), WINDOW, UNFINISHED, read=LITTLE),
    Row("300 MiB and a byte out of a pipe, of any length", gather_long("300M+1", STDIN), WINDOW, like="300M+1", piped=(STDIN, "300M+1.bao")),
    Row(
        "300 MiB and a byte out of a plain copy in a pipe, of any length",
        gather_long("300M+1", STDIN, how="--outboard 300M+1.obao"),
        BESIDE_PARENTS,
        like="300M+1",
        piped=(STDIN, "300M+1"),
    ),
    # The damaged holder certifies 4 MiB.
    Row("an endless pipe beside a damaged holder, of any length", gather_long("4M", "4M.torn", STDIN), WINDOW, UNFINISHED, piped=ZEROS_COME, read=LITTLE),
    Row("a pipe that is cut, of any length, with an OUT that can't be replaced", CUT_PIPE, PIPES, UNFINISHED, told=CUT_TOLD, piped=(STDIN, "64M+1.bao")),
    Row("64 MiB gathered over their encoding, of any length", (f"encode 64M {OUT}", *gather_long("64M", "64M.torn", OUT)), GATHERS, like="64M"),
]

# What a file with a key has past 66 bytes isn't read.
NO_KEY = "usage: key file is not 64 hexadecimal digits"
KEYS = [
    Row("a key out of 1 TiB of zeros", (f"decode --key-file zeros-1T @4M 4M.bao {OUT}",), KEEPS, NO_KEY, read=1),
    Row("a key out of an endless pipe", (f"decode --key-file {STDIN} @4M 4M.bao {OUT}",), KEEPS, NO_KEY, piped=ZEROS_COME, read=1),
]

# A FILE that is gathered and OUT are one: what is written over was read before.
OVER_ITSELF = [
    Row("64 MiB gathered over their encoding", (f"encode 64M {OUT}", *gather("64M", "64M.torn", OUT)), GATHERS, like="64M"),
]

EARLY, LATE = linked("4M.torn", 9), linked("4M.torn", 54, 9)
TRUE_EARLY, TRUE_LAST = gather("4M", *EARLY, "4M.bao", *LATE), gather("4M", *EARLY, *LATE, "4M.bao")
TRUE, TORN = counted("4M.bao", 0, "4M"), counted("4M.torn", 1, "4M")
FOLDER_TRUE, FOLDER_TORN, LOCKED_TRUE = (gather("4M", *files, how="--verbose") for files in ((FOLDER, "4M.bao"), (FOLDER, "4M.torn"), (LOCKED, "4M.bao")))

# FILEs that can't be open at once, or not at all.
UNOPENED = [
    Row("64 holders where 40 files may be open, a true one early", TRUE_EARLY, GATHERS, like="4M", files=40),
    Row("64 holders where 40 files may be open, a true one last", TRUE_LAST, GATHERS, UNFINISHED, files=40),
    Row("a folder before a true holder", FOLDER_TRUE, GATHERS, like="4M", told=[f"left out {FOLDER}: not opened", TRUE]),
    Row("a folder before a damaged holder", FOLDER_TORN, GATHERS, UNFINISHED, told=[unread(FOLDER, errno.EISDIR), TORN, *missing("4M")]),
    Row("a file that may not be read before a true holder", LOCKED_TRUE, GATHERS, like="4M", told=[unread(LOCKED, errno.EACCES), TRUE]),
]

ROWS = [*HOLDERS, *OUTBOARDS, *PIPED, *LONG, *ANY_LENGTH, *KEYS, *OVER_ITSELF, *UNOPENED]


def blob_of(row):
    """The blob whose root a row's words name."""
    return next(it[1:] for it in " ".join(row.words).split() if it[0] == "@")


@each((row.name, row) for row in ROWS)
class Memory(Case):
    @classmethod
    def setUpClass(cls):
        # (the rows share files, so that they are run in one process)
        folder = tempfile.mkdtemp()
        cls.addClassCleanup(shutil.rmtree, folder)
        os.mkdir(f"{folder}/files")
        cls.files, cls.launcher, cls.read = Files(f"{folder}/files"), Launcher(folder), f"{folder}/read"

    def tried(self, row):
        for it in (OUT, MADE):
            self.addCleanup(self.files.remove, it)
        self.files.put(self.files.path(OUT), 0, KEPT)
        if row.like:
            self.files.make(row.like)
        runs, took, wrong = [self.given(it) for it in row.words], [], []
        with self.files.piping(row) as stdin:
            for words, most in zip(runs, row.most if isinstance(row.most, tuple) else [row.most] * len(runs), strict=True):
                is_last = words is runs[-1]
                ended, read = self.run_once(row, words, stdin)
                wanted, got = self.wanted(row, words, is_last), (ended.status, ended.printed, ended.complaint)
                wrong += [f"{words[0]}: {got} in place of {wanted}"] if got != wanted else []
                held = [("had", ended.peak, most), ("read", read, row.read if is_last else 0)]
                wrong += [f"{words[0]} {did} {it} bytes, and not at most {limit * MIB}" for did, it, limit in held if limit and not 0 < it <= limit * MIB]
                took.append(f"{ended.peak / MIB:.1f} of {most} MiB, {read / MIB:.1f}{f' of {row.read}' if row.read else ''} MiB read, {ended.seconds:.2f} s")
        print(f"{row.name}: {'; '.join(took)}")
        self.assertEqual(wrong, [], "\n    ".join(wrong))
        if row.like:
            self.assertTrue(filecmp.cmp(self.files.path(OUT), self.files.path(row.like), shallow=False), f"{OUT} isn't like {row.like}")
        else:
            with open(self.files.path(OUT), "rb") as it:
                self.assertEqual(it.read(len(KEPT) + 1), KEPT, f"{OUT} was changed")

    def run_once(self, row, words, stdin):
        """Runs the words, and returns how that ended, and how many bytes it read."""
        self.files.put(self.read, 0, bytes(8))
        settings = {**os.environ, "LD_PRELOAD": shim(), "READ": self.read}
        ended = self.launcher.run([PROGRAM, *words], HELD, ROOM, row.files, cwd=self.files.folder, env=settings, stdin=stdin)
        with open(self.read, "rb") as it:
            return ended, int.from_bytes(it.read(), "little")

    def given(self, words):
        """Returns the words of a run, and makes its files."""
        found = []
        for word in words.split():
            if word[0] == "@":
                word = self.files.root(word[1:])
            elif word not in (OUT, MADE, PIPE):
                self.files.make(word)
            found.append(word)
        return found

    def wanted(self, row, words, is_last):
        """Returns how a run of a row ends, by its words: all but the last succeed, and tell nothing."""
        told = [*row.told, *([row.fault] if row.fault else [])] if is_last else []
        is_done = not (is_last and row.fault)
        printed = ""
        if words[0] in PRINT_ROOT:
            printed = f"{self.files.root(blob_of(row))}\n"
        elif is_done:
            printed = f"ok {os.path.getsize(self.files.path(row.like))}\n"
        status = 0 if is_done else 2 if row.fault.startswith("usage: ") else 1
        return status, printed.encode(), "".join(f"bao_gather: {it}\n" for it in told).encode()

"""The files of the tests of memory: large, sparse, damaged or endless, each made when a test first names it."""
import contextlib
import functools
import os
import random
import shutil
import subprocess
import unittest

from cases import PROGRAM
import definitions as bao
from scenarios import GROUP_LEN

KIB, MIB, GIB, TIB = (1 << 10 * k for k in range(1, 5))

# What a run makes for the next, a named pipe, and a file that has no end.
MADE, PIPE, ENDLESS = "made", "pipe", "/dev/zero"

# Blobs of bytes that are drawn, by their names. Of NAME there are, where a case names them, NAME.bao and NAME.obao, its encodings, NAME.torn and NAME.worn, its
# combined encoding and its plain copy with one changed byte in the middle, and NAME.padded, its outboard encoding with 3 GiB of zeros behind it. A name with a
# number at its end, as 4M.torn.3, is another name of a file.
NOTHING = "0"
BLOBS = {NOTHING: 0, "64K": 64 * KIB, "64K+1": 64 * KIB + 1, "4M": 4 * MIB, "64M": 64 * MIB, "64M+1": 64 * MIB + 1, "300M+1": 300 * MIB + 1, "1G": GIB}

# Of NAME, by the end of their names: copies of which a byte of each group of another third is changed, as combined encodings and as plain copies.
THIRDS = {f"{kind}{third}": (third, kind == "enc") for kind in ("enc", "raw") for third in range(3)}

# Files of zeros.
ZEROS = {"zeros-3G": 3 * GIB, "zeros-1T": TIB}

# A file of zeros in whose middle there is something, and that, which is a file too.
HOLED, ISLAND, ISLAND_LEN = "zeros-with-an-island", "island", 100
HOLED_LEN = GIB

# Said to be the outboard encoding of 1 TiB, with zeros where the parents are.
CLAIMING = "claims-1T"

# A folder, and a file that nobody may read.
FOLDER, LOCKED = "folder", "locked"


@functools.cache
def places(length):
    """Where the chunks of so many bytes lie in their combined encoding, one after another."""
    return [it.offset for it in bao.slice_nodes(length, 0, 2**64 - 1) if not it.is_parent]


def place(length, number, is_encoded):
    """Where a chunk lies: among the bytes, or in their combined encoding."""
    return places(length)[number] if is_encoded else bao.CHUNK_LEN * number


def middle(length, is_encoded):
    """Where the one in their middle does."""
    return place(length, bao.chunks_of(length) // 2, is_encoded)


class Files:
    """The files of the cases, in a folder. Each is made when a case names it first, and stays."""

    def __init__(self, folder):
        self.folder = folder

    def path(self, name):
        return name if "/" in name else f"{self.folder}/{name}"

    def printed(self, *words):
        return subprocess.run([PROGRAM, *words], cwd=self.folder, capture_output=True, text=True, check=True).stdout

    @functools.cache
    def root(self, name):
        self.make(name)
        return self.printed("hash", name).strip()

    @functools.cache
    def make(self, name):
        """Makes a file, if it isn't one that a run makes itself, or that the system has."""
        path, (stem, _, kind) = self.path(name), name.rpartition(".")
        if name in BLOBS:
            self.draw(path, BLOBS[name])
        elif name in ZEROS:
            self.lengthen(path, ZEROS[name])
        elif name == CLAIMING:
            self.put(path, 0, TIB.to_bytes(8, "little"))
            self.lengthen(path, 3 * GIB)
        elif name == ISLAND:
            self.draw(path, ISLAND_LEN)
        elif name == HOLED:
            self.lengthen(path, HOLED_LEN)
            self.put(path, HOLED_LEN // 2, self.bytes_of(ISLAND))
        elif name == FOLDER:
            os.mkdir(path)
        elif name == LOCKED:
            if os.geteuid() == 0:
                raise unittest.SkipTest("root reads any file")
            self.copy("4M.bao", path)
            os.chmod(path, 0)
        elif kind in ("bao", "obao"):
            self.make(stem)
            self.printed({"bao": "encode", "obao": "outboard"}[kind], stem, name)
        elif kind in ("torn", "worn"):
            self.copy(f"{stem}.bao" if kind == "torn" else stem, path)
            self.change(path, middle(BLOBS[stem], is_encoded=kind == "torn"))
        elif kind in THIRDS:
            third, is_encoded = THIRDS[kind]
            self.copy(f"{stem}.bao" if is_encoded else stem, path)
            groups = -(-bao.chunks_of(BLOBS[stem]) // GROUP_LEN)
            for group in range(groups * third // 3, groups * (third + 1) // 3):
                self.change(path, place(BLOBS[stem], GROUP_LEN * group, is_encoded))
        elif kind == "padded":
            self.copy(f"{stem}.obao", path)
            self.lengthen(path, os.path.getsize(path) + 3 * GIB)
        elif stem and kind.isdigit():
            self.make(stem)
            os.link(self.path(stem), path)

    def bytes_of(self, name):
        self.make(name)
        with open(self.path(name), "rb") as it:
            return it.read()

    def draw(self, path, count):
        """Writes so many bytes, the same in each run: some that are drawn, turned by another number each time, so that no two chunks are alike."""
        drawn = random.Random(count).randbytes(min(16 * MIB, count))
        with open(path, "wb") as it:
            for number, at in enumerate(range(0, count, 16 * MIB)):
                turned = drawn[number:] + drawn[:number]
                it.write(turned[: count - at])

    def lengthen(self, path, size):
        """Adds zeros up to there, of which none are on the disk."""
        with open(path, "ab") as it:
            try:
                it.truncate(size)
            except OSError as error:
                raise unittest.SkipTest(f"the file system has no file of {size} bytes: {error}") from None

    def put(self, path, at, data):
        with open(path, "r+b" if os.path.exists(path) else "wb") as it:
            it.seek(at)
            it.write(data)

    def copy(self, name, path):
        self.make(name)
        shutil.copyfile(self.path(name), path)

    def change(self, path, at):
        with open(path, "r+b") as it:
            it.seek(at)
            byte = it.read(1)[0]
            it.seek(at)
            it.write(bytes([byte ^ 1]))

    @contextlib.contextmanager
    def piping(self, row):
        """Has a file come through the row's pipe, where it has one, and answers what the program's standard input is."""
        pipe, source = row.piped
        if not pipe:
            yield subprocess.DEVNULL
            return
        self.make(source)
        if pipe == PIPE:
            os.mkfifo(self.path(PIPE))
            words, to = ["sh", "-c", 'exec cat "$0" > "$1"', self.path(source), self.path(PIPE)], subprocess.DEVNULL
        else:
            words, to = ["cat", self.path(source)], subprocess.PIPE
        with subprocess.Popen(words, stdin=subprocess.DEVNULL, stdout=to, stderr=subprocess.DEVNULL) as cat:
            try:
                yield subprocess.DEVNULL if pipe == PIPE else cat.stdout
            finally:
                cat.kill()
                self.remove(PIPE)

    def remove(self, name):
        if os.path.exists(self.path(name)):
            os.remove(self.path(name))

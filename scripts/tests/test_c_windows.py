"""Runs the program of c/examples/windows.c on blobs of several windows and copies of their encodings that are damaged.

It has to write the blob with status 0 where each chunk is good in one of the copies, and else to write a beginning of it, with status 1; and, unless it has
sanitizers, in at most 64 MiB of memory. Needs cc.
"""
import functools
import os
import pathlib
import random
import sys
import tempfile

from cases import LIBRARY, ROOT, Case, changed, each
from peak import Launcher
from test_c_library import BUILDS, built

sys.path.append(f"{ROOT}/python")
os.environ.setdefault("BERYLWOOL_LIBRARY", LIBRARY)

CHUNK, GROUP, WINDOW, COPIES = 1024, 64 * 1024, 4096 * 1024, 3
MOST = 64 << 20
LONG = 2 * WINDOW + 3 * GROUP + 5


@functools.cache
def encoded(length):
    """Returns bytes in which no two chunks are the same, with their root and their encoding."""
    import berylwool

    blob = random.Random(length).randbytes(length)
    return blob, *berylwool.encode(blob)


def damaged(text, blob, chunks):
    """Returns the encoding with a byte changed in each of these chunks of the blob."""
    places, at = [], 0
    for number in sorted(chunks):
        at = text.index(blob[CHUNK * number : CHUNK * (number + 1)], at)
        places.append(at + 17)
    return changed(text, *places)


def parted(text, blob, common=()):
    """Returns copies, each damaged in other groups, and all of them in the groups of `common`, at other chunks."""
    groups = range(len(blob) // GROUP)
    return [damaged(text, blob, {64 * it + k for it in groups if it % COPIES == k} | {64 * it + 7 + k for it in common}) for k in range(COPIES)]


@each((it, it) for it in BUILDS)
class Windows(Case):
    def tried(self, name):
        self.program, self.most = built(name, "windows"), MOST if name == "plain" else 0
        self.launcher = Launcher(self.folder())
        for length in (0, 1, CHUNK, WINDOW - 1, WINDOW, WINDOW + 1, LONG):
            blob, root, text = encoded(length)
            self.writes(f"{length} bytes of a good copy", blob, root, [text], blob)
            self.writes(f"{length} bytes of the second copy", blob, root, [text[:-1], text], blob)
        blob, root, text = encoded(LONG)
        self.writes("copies damaged in other groups", blob, root, parted(text, blob), blob)
        self.writes("copies damaged in one group in common", blob, root, parted(text, blob, common=(0, 65, 130)), blob)
        self.writes("one chunk damaged in all", blob, root, [damaged(text, blob, {5000})] * COPIES, blob[: WINDOW + (5000 - 4096) // 64 * GROUP])
        self.writes("a chunk of the first window damaged in all", blob, root, [damaged(text, blob, {9})] * COPIES, b"")
        self.writes("a copy in two parts", blob, root, [text[: len(text) // 3], text[len(text) // 3 :]], b"")
        self.writes("another root", blob, bytes(32), [text], b"")
        self.writes("another length", blob, root, [(len(blob) + 1).to_bytes(8, "little") + text[8:]], b"")
        self.writes("no bytes", blob, root, [b""], b"")

    def writes(self, what, blob, root, copies, wanted):
        """It writes these bytes, with status 0 if they are the blob and else with status 1."""
        with tempfile.TemporaryDirectory() as folder:
            files = [f"{folder}/copy{k}" for k in range(len(copies))]
            for file, copy in zip(files, copies):
                pathlib.Path(file).write_bytes(copy)
            ended = self.launcher.run([self.program, root.hex(), *files])
        is_right = (ended.status, ended.printed) == (int(wanted != blob), wanted)
        self.holds(is_right, f"{what}: status {ended.status}, {len(ended.printed)} bytes and not {len(wanted)}: {ended.complaint.decode()}")
        self.holds(not self.most or ended.peak <= self.most, f"{what}: it had {ended.peak >> 20} MiB at once")

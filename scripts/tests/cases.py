"""What the tests share: where the program and the library are, how a run is judged, and how cases become tests."""
import fcntl
import functools
import os
import shutil
import subprocess
import sys
import tempfile
import unittest

sys.dont_write_bytecode = True
HERE = os.path.dirname(os.path.abspath(__file__))
SCRIPTS = os.path.dirname(HERE)
ROOT = os.path.dirname(SCRIPTS)
sys.path.append(SCRIPTS)

PROGRAM = os.path.abspath(os.environ.get("BAO_GATHER", f"{ROOT}/out/bao_gather"))
LIBRARY = os.path.abspath(os.environ.get("BERYLWOOL_LIBRARY", f"{ROOT}/out/libberylwool.so"))

# No run comes near these seconds: after them it counts as hung.
HELD = 120

# What a run may map at the most, where its files are huge: some systems promise any amount of memory.
ROOM = 4 << 30

OUT, KEPT = "out", b"kept"


class Wrong(AssertionError):
    """A run that ended otherwise than it has to. It is told without a traceback."""


class Case(unittest.TestCase):
    failureException, longMessage = Wrong, False

    def shortDescription(self):
        """A test has its name alone: the docstring of a generated one is that of functools.partialmethod."""
        return None

    def holds(self, is_right, told):
        """Counts a run. The test goes on after one that is wrong, but fails."""
        with self.subTest():
            self.assertTrue(is_right, str(told)[:900])
        return is_right

    def folder(self):
        """Makes a folder that is removed after the test."""
        made = tempfile.TemporaryDirectory(prefix="berylwool-")
        self.addCleanup(made.cleanup)
        return made.name


def each(cases):
    """Gives a class a test for each case (a name, and the arguments of its method `tried`)."""

    def add(made):
        for name, *case in cases:
            if hasattr(made, f"test {name}"):
                raise ValueError(f"two cases are called {name}")
            setattr(made, f"test {name}", functools.partialmethod(made.tried, *case))
        return made

    return add


def need(tool):
    """Skips the test where a tool isn't installed; with BERYLWOOL_CI in the environment it fails there."""
    if not shutil.which(tool):
        raise Wrong(f"{tool} is not installed") if os.environ.get("BERYLWOOL_CI") else unittest.SkipTest(f"{tool} is not installed")


def changed(data, *places):
    """Returns the bytes with the lowest bit changed at each of these places."""
    out = bytearray(data)
    for at in places:
        out[at] ^= 1
    return bytes(out)


_SHARED = tempfile.TemporaryDirectory(prefix="berylwool-tests-")
tempfile.tempdir = _SHARED.name


@functools.cache
def once(make, *words):
    """Has `make` fill a folder, once for all processes, and returns the folder."""
    folder = f"{_SHARED.name}/{'-'.join([make.__name__, *words])}"
    with open(f"{folder}.lock", "w") as lock:
        fcntl.flock(lock, fcntl.LOCK_EX)
        if not os.path.exists(folder):
            os.mkdir(folder)
            try:
                make(folder, *words)
            except BaseException:
                shutil.rmtree(folder)
                raise
    return folder


def build_shim(folder):
    subprocess.run(["cc", "-shared", "-fPIC", "-O1", "-o", f"{folder}/shim.so", f"{HERE}/shim.c", "-ldl"], check=True)


def shim():
    """Returns the path of the shim that has calls of the C library fail."""
    return f"{once(build_shim)}/shim.so"

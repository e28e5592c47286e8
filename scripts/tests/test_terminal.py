"""Holds what a terminal is shown to docs/MANUAL.md, by a clock of shim.c that is asked for each line and moves a second then, or stands. Needs cc."""
import errno
import functools
import os
import pty
import re
import subprocess
import tty

from cases import HELD, OUT, PROGRAM, Case, each, shim
import definitions as bao
from runs import LONG, Task
from scenarios import blob_of

# What a terminal gets while a file is read: a line that is written over, and at last wiped. A slow read has no rate.
LINES = re.compile(rb"(?:\r[0-4] of 4 MiB read(?:, \d+ MiB/s, \d+ s left)?\x1b\[K)+\r\x1b\[K")
# The same of one thread that reads alone, and all, a MiB a second and then the last 1000 bytes.
PACES = [(1, 1, 3), (2, 1, 2), (3, 1, 1), (4, 1, 0), (4, 0, 0)]
IN_ORDER = b"".join(b"\r%d of 4 MiB read, %d MiB/s, %d s left\x1b[K" % it for it in PACES) + b"\r\x1b[K"

# The lines of three files of which there is no second, which is told in between.
FIRST_OF_THREE, LAST_OF_THREE = (rb"(?:\r%d of 3 files, [0-8] of 8 MiB read(?:, \d+ MiB/s, \d+ s left)?\x1b\[K)+\r\x1b\[K" % it for it in (0, 2))
OF_THREE = re.compile(FIRST_OF_THREE + rb"bao_gather: cannot read lost\n" + LAST_OF_THREE)


def are_lines(got, is_in_order):
    return got == IN_ORDER if is_in_order else LINES.fullmatch(got) is not None


def on_terminal(folder, words, settings):
    """Runs the program with standard error a terminal, and answers its status, what it printed, and what the terminal got."""
    ours, theirs = pty.openpty()
    tty.setraw(theirs)
    env = {**os.environ, "LD_PRELOAD": shim(), **settings}
    ran = subprocess.Popen([PROGRAM, *words], stdin=subprocess.DEVNULL, stdout=subprocess.PIPE, stderr=theirs, cwd=folder, env=env)
    os.close(theirs)
    got = b""
    try:
        while some := os.read(ours, 4096):
            got += some
    except OSError:
        pass  # Linux answers so where nobody has the terminal any more.
    os.close(ours)
    printed, _ = ran.communicate(timeout=HELD)
    return ran.returncode, printed, got


MOVES, STANDS = {"CLOCK": "moves"}, {"CLOCK": "stands"}
SHORT = 70_000
HASH, FIRST, SLICE, NOWHERE = ["hash", "blob"], ["hash", "--length", "1", "blob"], ["slice", "5", "9999", "blob", OUT], "nowhere/out"
WRITE = [["encode", "blob", OUT], ["outboard", "blob", OUT], SLICE]


@functools.cache
def files_of(length):
    """Returns a blob with its encodings, and its root. (Those of a long one take seconds.)"""
    blob, mode = blob_of(length), bao.Mode()
    return {"blob": blob, "enc": bao.combined(mode, blob), "ob": bao.outboard(mode, blob)}, mode.hash(blob).hex()


def verify(length):
    """Returns the tasks that verify what they read, of this blob. They print how many bytes it has."""
    root = files_of(length)[1]
    for options, file in (([], "enc"), (["--outboard", "ob"], "blob")):
        yield ["decode", *options, root, file, OUT]
        yield ["gather", *options, root, OUT, file]


def printed(words, length):
    told = f"ok {length}" if words[0] in ("decode", "gather") else files_of(length)[1][: 2 if words == FIRST else None]
    return f"{told}\n".encode()


def failing(call, at):
    return {**MOVES, "CALL": call, "AT": str(at), "HOW": str(errno.EIO)}


def trials():
    """Yields the words, the length of the blob, how the clock goes and a call ends, whether lines are shown, and the fault after them where there is one."""
    yield from ((words, LONG, how, how is MOVES, b"") for words in [HASH, FIRST, *WRITE, *verify(LONG)] for how in (MOVES, STANDS))
    yield from ((words, SHORT, MOVES, False, b"") for words in [HASH, *WRITE, *verify(SHORT)])
    yield ["encode", "blob", NOWHERE], LONG, MOVES, True, f"bao_gather: cannot write {NOWHERE}\n".encode()
    # A read by position that fails has the file read in order, which is shown too; one in order that fails ends the work.
    yield from ((words, LONG, failing("pread", 7), True, b"") for words in (HASH, SLICE))
    yield FIRST, LONG, failing("read", 3), True, b"bao_gather: cannot read blob\n"
    # The first line can't be written: there are no others. One thread reads alone here: of several a second one may have begun its line.
    yield FIRST, LONG, failing("write", 1), False, b""


class Terminal(Case):
    def laid(self, words, length):
        folder, task = self.folder(), Task(words, files_of(length)[0])
        task.lay_out(folder)
        return folder, task

    def test_lines(self):
        for words, length, how, is_shown, fault in trials():
            folder, task = self.laid(words, length)
            status, told, got = on_terminal(folder, words, how)
            wanted = (3, b"") if fault else (0, printed(words, length))
            left = got.removesuffix(fault) if got.endswith(fault) else b"no fault"
            is_right = are_lines(left, not fault and words == FIRST) if is_shown else left == b""
            self.holds((status, told) == wanted and is_right, f"{task.name}: {how}, {length} bytes: {status} {told} {got}")

    def test_several_files(self):
        words = ["hash", "blob", "lost", "enc"]
        folder, _ = self.laid(words, LONG)
        status, _, got = on_terminal(folder, words, MOVES)
        self.holds(status == 3 and OF_THREE.fullmatch(got) is not None, f"{words}: {status} {got}")

    def test_no_terminal(self):
        """Nothing is shown, whatever the clock says."""
        for words in [HASH, *WRITE, *verify(LONG)]:
            folder, task = self.laid(words, LONG)
            ended, _ = task.run(folder, {"LD_PRELOAD": shim(), **MOVES})
            self.holds((ended.status, ended.printed, ended.complaint) == (0, printed(words, LONG), b""), f"{task.name}: {ended}")


@each((" ".join(it), it) for it in (["--help"], ["--version"], ["gather", "--help"]))
class Help(Case):
    def tried(self, words):
        reader, writer = os.pipe()
        os.close(reader)
        with open(writer, "wb") as closed, open("/dev/full", "wb") as full:
            ran = subprocess.run([PROGRAM, *words], stdin=subprocess.DEVNULL, stdout=closed, stderr=subprocess.PIPE, restore_signals=False)
            self.holds((ran.returncode, ran.stderr) == (0, b""), f"into a pipe that nobody reads any more: {ran}")
            ran = subprocess.run([PROGRAM, *words], stdin=subprocess.DEVNULL, stdout=full, stderr=subprocess.PIPE)
            self.holds((ran.returncode, ran.stderr) == (3, b"bao_gather: cannot write output\n"), f"into a full device: {ran}")

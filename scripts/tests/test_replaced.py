"""Runs the program with an OUT of each kind, and looks at what is there afterwards, and beside it.

A regular OUT is replaced atomically: it is what it was or what was to come, a link stays a link, permissions stay, and no file is left beside it. What was to
come is what scripts/definitions.py gives. Two runs at a time on one OUT leave what one of them was to write. Runs that are killed at any moment leave at most one
file beside OUT, and the next run removes it. As root, owner and group are looked at, too. test_refused.py has each call fail, and the process killed at each.
OUT may not lead to standard output, nor to a file that is read unless that is gathered, nor the list of what is missing to another file of the command, by
whatever name: then all files stay as they were.
"""
import errno
import itertools
import os
import resource
import shutil
import subprocess
import tempfile
import threading
import time
from dataclasses import dataclass, field

from cases import HELD, KEPT, PROGRAM, Case, changed, each
import definitions as bao
from scenarios import Programs, blob_of

# Three groups and a bit, and another blob of as many bytes.
BLOB, OTHER = blob_of(200_000), bytes(200_000)
MODE = Programs().mode_of(None, None)
ROOT, OTHER_ROOT = MODE.hash(BLOB).hex(), MODE.hash(OTHER).hex()
ENCODED, PARENTS = bao.combined(MODE, BLOB), bao.outboard(MODE, BLOB)
TORN = changed(ENCODED, 100_000)
SLICE = bao.slice_text(MODE, BLOB, 70_000, 1000)
# A copy whose first byte is wrong, and the combined encoding that it makes with the outboard encoding.
HURT, FIRST = changed(BLOB, 0), ENCODED.index(BLOB[:1024])
HURT_ENCODED = ENCODED[:FIRST] + HURT[:1] + ENCODED[FIRST + 1 :]
FILES = {"blob.slice": SLICE, "blob": BLOB, "blob.bao": ENCODED, "blob.obao": PARENTS, "torn.bao": TORN, "other": OTHER, "other.bao": bao.combined(MODE, OTHER)}
FILES |= {"hurt": HURT, **{f"long{name[4:]}": FILES[name] + b"!" for name in ("blob", "blob.bao", "blob.obao", "blob.slice")}}


def fault_of(text):
    """Returns the fault of a combined encoding that isn't accepted."""
    try:
        bao.checked(MODE, bytes.fromhex(ROOT), text, lambda length: bao.slice_nodes(length, 0, 2**64 - 1))
    except bao.Fault as fault:
        return str(fault)
    raise AssertionError("it is accepted")


# The tasks that write to OUT, and what each has to write.
TASKS = {
    "encode blob OUT": ENCODED,
    "outboard blob OUT": PARENTS,
    "slice 70000 1000 blob OUT": bao.slice_text(MODE, BLOB, 70_000, 1000),
    f"decode {ROOT} blob.bao OUT": BLOB,
    f"decode --outboard blob.obao {ROOT} blob OUT": BLOB,
    f"gather {ROOT} OUT torn.bao blob.bao": BLOB,
    f"gather --encode {ROOT} OUT blob.bao": ENCODED,
    f"gather --long {ROOT} OUT torn.bao blob.bao": BLOB,
}
DECODE, GATHER = f"decode {ROOT} blob.bao OUT", f"gather {ROOT} OUT torn.bao blob.bao"
# Tasks whose input isn't accepted, whatever OUT is.
DAMAGED = {
    f"decode {ROOT} long.bao OUT": f"503 trailing at {len(ENCODED)}",
    f"decode {ROOT} torn.bao OUT": fault_of(TORN),
    f"decode-slice {ROOT} 70000 1000 long.slice OUT": f"503 trailing at {len(SLICE)}",
    f"decode --outboard long.obao {ROOT} blob OUT": f"503 trailing at {len(PARENTS)}",
    f"decode --outboard blob.obao {ROOT} long OUT": f"503 trailing at {len(BLOB)}",
    f"cut-slice {ROOT} 0 {len(BLOB)} torn.bao OUT": fault_of(TORN),
    f"cut-slice --outboard blob.obao {ROOT} 0 {len(BLOB)} hurt OUT": fault_of(HURT_ENCODED),
}
REFUSED = {f"decode {ROOT} torn.bao OUT": fault_of(TORN), f"gather {ROOT} OUT torn.bao": "901 unfinished", f"gather --long {ROOT} OUT torn.bao": "901 unfinished"}

CANNOT = "cannot write {out}"

# A name of the most bytes that a file system takes, so that none is left for that of a file beside it.
LONGEST = "o" * 255


@dataclass(frozen=True)
class Row:
    """An OUT: its name, the files, links and folders that are laid out, the tasks, the line of the fault that all end with, or none, the
    files that hold what was to come, and those that are removed; all others stay."""

    name: str
    out: str
    files: dict = field(default_factory=dict)
    links: dict = field(default_factory=dict)
    folders: tuple = ()
    tasks: tuple = tuple(TASKS)
    fault: str = ""
    written: tuple = ("out",)
    removed: tuple = ()
    mode: int = 0o644
    # The error of the system that `--verbose` tells, with the path of OUT.
    reason: int = 0


# The names beside OUT, and files that killed runs left there.
BESIDE = tuple(f"out.part.gather{k or ''}" for k in ["", *range(2, 10)])
LEFT = {name: b"left" for name in BESIDE}

ROWS = [
    Row("absent", "out"),
    Row("a regular file", "out", {"out": KEPT}),
    Row("a file with permissions of its own", "out", {"out": KEPT}, mode=0o640),
    Row("a file that others may run", "out", {"out": KEPT}, mode=0o755),
    Row("a longer file", "out", {"out": bytes(1 << 20)}),
    Row("a link to a file in another folder", "out", {"there/target": KEPT}, {"out": "there/target"}, ("there",), written=("there/target",)),
    Row("a link to a link", "out", {"there/target": KEPT}, {"out": "link", "link": "there/target"}, ("there",), written=("there/target",)),
    Row("a link to nothing", "out", links={"out": "target"}, written=("target",)),
    Row("a killed run has left a file", "out", {"out": KEPT, BESIDE[0]: b"left"}, removed=BESIDE[:1]),
    Row("killed runs have left nine", "out", {"out": KEPT, **LEFT}, removed=BESIDE),
    Row("a download beside it", "out", {"out": KEPT, "out.part": b"somebody's"}),
    Row("a link beside it", "out", {"out": KEPT, "other": OTHER}, {BESIDE[0]: "other"}),
    Row("what was left is a FILE", "out", {"out": KEPT, BESIDE[0]: ENCODED}, tasks=(f"gather {ROOT} OUT {BESIDE[0]}",)),
    Row("all names beside it are taken", "out", {"out": KEPT}, folders=BESIDE, fault=CANNOT, written=(), reason=errno.EEXIST),
    Row("the longest name", LONGEST, {LONGEST: KEPT}, written=(LONGEST,)),
    Row("a name that is too long", LONGEST + "o", fault=CANNOT, written=(), reason=errno.ENAMETOOLONG),
    Row("a folder", "out", folders=("out",), fault=CANNOT, written=(), reason=errno.EISDIR),
    Row("in no folder", "nowhere/out", fault=CANNOT, written=(), reason=errno.ENOENT),
    Row("a full device", "/dev/full", fault=CANNOT, written=(), reason=errno.ENOSPC),
    Row("a device", "/dev/null", written=()),
    Row("one of the files, to gather", "blob.bao", tasks=(GATHER,), written=("blob.bao",)),
    Row("one of the files, to gather, under another name", "out", links={"out": "blob.bao"}, tasks=(GATHER,), written=("blob.bao",)),
    *[Row(f"a fault of the input comes before that of {out}", out, tasks=(words,), fault=why, written=()) for out in ("nowhere/out", "/dev/full") for words, why in DAMAGED.items()],
    *[Row(f"refused: {words.split()[0]}", "out", {"out": KEPT}, tasks=(words,), fault=why, written=()) for words, why in REFUSED.items()],
    *[Row(f"refused, and absent: {words.split()[0]}", "out", tasks=(words,), fault=why, written=()) for words, why in REFUSED.items()],
]


def found(folder):
    """Returns all that is in a folder: the bytes and permissions of each file, the target of each link."""
    all_of = {}
    for at, folders, files in os.walk(folder):
        for name in [*folders, *files]:
            path = os.path.join(at, name)
            short = os.path.relpath(path, folder)
            if os.path.islink(path):
                all_of[short] = ("link", os.readlink(path))
            elif os.path.isdir(path):
                all_of[short] = ("folder", "")
            else:
                with open(path, "rb") as it:
                    all_of[short] = (os.stat(path).st_mode & 0o7777, it.read())
    return all_of


def lay_out(folder, row):
    for name in row.folders:
        os.mkdir(f"{folder}/{name}")
    for name, data in {**FILES, **row.files}.items():
        with open(f"{folder}/{name}", "wb") as it:
            it.write(data)
        os.chmod(f"{folder}/{name}", row.mode if name in row.files else 0o644)
    for name, target in row.links.items():
        os.symlink(target, f"{folder}/{name}")


def differences(before, after, row, words):
    """Returns what isn't as it should be."""
    wanted = dict(before)
    for name in row.removed:
        del wanted[name]
    for name in row.written:
        mode = before[name][0] if name in before else 0o666 & ~UMASK
        wanted[name] = (mode, TASKS.get(words, BLOB))
    names = sorted({*wanted, *after}, key=str)
    said = lambda it: "nothing" if it is None else f"{it[0] if isinstance(it[0], str) else oct(it[0])}, {len(it[1])} of {it[1][:16]!r}"
    return [f"{name[:20]}: {said(after.get(name))} in place of {said(wanted.get(name))}" for name in names if after.get(name) != wanted.get(name)]


UMASK = os.umask(0o022)
os.umask(UMASK)


def run(folder, words, out, **how):
    given = [out if it == "OUT" else it for it in words.split()]
    how = {"stdout": subprocess.PIPE, "stderr": subprocess.PIPE, "text": True, "timeout": HELD, **how}
    return subprocess.run([PROGRAM, *given], cwd=folder, stdin=subprocess.DEVNULL, **how)


def bytes_at(path):
    with open(path, "rb") as it:
        return it.read()


class Laid(Case):
    """Tests that lay out the files of a row."""

    def laid(self, row=ROWS[0]):
        folder = self.folder()
        lay_out(folder, row)
        return folder


def trials():
    for row in ROWS:
        for words in row.tasks:
            name = f"{row.name}: {words.replace(ROOT, 'ROOT')}"
            yield name, row, words, False
            if row.reason:
                yield f"{name} --verbose", row, words, True


@each(trials())
class Kinds(Laid):
    """An OUT of each kind, with each task."""

    def tried(self, row, words, is_verbose):
        folder = self.laid(row)
        before = found(folder)
        ran = run(folder, words.replace(" ", " --verbose ", 1) if is_verbose else words, row.out)
        wrong = differences(before, found(folder), row, words)
        fault = f"bao_gather: {row.fault.format(out=row.out)}\n" if row.fault else ""
        status = 0 if not fault else 3 if row.fault == CANNOT else 1
        told = ran.stderr
        if is_verbose:
            # What is told of each FILE comes before.
            fault = f"bao_gather: {row.out}: {os.strerror(row.reason)} (os error {row.reason})\n{fault}"
            told = "".join(told.splitlines(True)[-2:])
        self.assertEqual(wrong, [], wrong)
        self.assertEqual((ran.returncode, told), (status, fault), f"{(ran.returncode, told)} in place of {(status, fault)}")


@each((words.replace(ROOT, "ROOT"), words) for words in TASKS)
class Descriptors(Laid):
    """OUT is a descriptor, or what leads to one."""

    def tried(self, words):
        wanted = TASKS[words]
        folder = self.laid()
        with open(f"{folder}/open", "w+b") as it:
            ran = run(folder, words, f"/dev/fd/{it.fileno()}", pass_fds=[it.fileno()])
            it.seek(0)
            is_right = ran.returncode == 0 and it.read() == wanted and "open.part" not in os.listdir(folder)
            self.holds(is_right, f"what goes to a descriptor goes to the file that is open there: {ran}")
        # Nothing gets mixed up in a device; and another file that is open is another file.
        for out, stdout in (("/dev/null", os.devnull), ("out", "log")):
            with open(f"{folder}/{stdout}" if stdout == "log" else stdout, "wb") as it:
                self.holds(run(folder, words, out, stdout=it).returncode == 0, f"into {out}")
        self.holds(bytes_at(f"{folder}/out") == wanted, "other bytes came")
        usage, soft = "OUT leads to standard output", lambda to: lambda folder: os.symlink(to, f"{folder}/soft")
        ways = [("open", None), ("./there/../open", None), ("soft", soft("open")), ("soft", soft("/dev/stdout")), ("/proc/self/fd/./1", None)]
        for out, make in [*ways, ("hard", lambda folder: os.link(f"{folder}/open", f"{folder}/hard"))]:
            refused(self, words, out, usage, make, stdout="open")


@each((words.replace(ROOT, "ROOT"), words) for words in [*TASKS, *REFUSED])
class Pipes(Laid):
    """A pipe gets all that was to come, and nothing of what is refused."""

    def tried(self, words):
        folder, got = self.laid(), []
        os.mkfifo(f"{folder}/pipe")
        # Both ends are open, so that neither waits for the other.
        end = os.open(f"{folder}/pipe", os.O_RDONLY | os.O_NONBLOCK)
        held = os.open(f"{folder}/pipe", os.O_WRONLY)
        os.set_blocking(end, True)
        with open(end, "rb") as source:
            reader = threading.Thread(target=lambda: got.append(source.read()))
            reader.start()
            ran = run(folder, words, "pipe")
            os.close(held)
            reader.join(HELD)
        is_right = got == [TASKS.get(words, b"")] and ran.returncode == (words in REFUSED)
        self.assertTrue(is_right, f"{ran.returncode}, {ran.stderr!r}, {[len(it) for it in got]} bytes")


class Copies(Laid):
    """With `--long` a pipe is copied beside OUT, where nothing is left of it."""

    def ran(self, folder, out, text, **how):
        words = ["gather", "--long", "--verbose", ROOT, out, "torn.bao", "/dev/stdin"]
        return subprocess.run([PROGRAM, *words], cwd=folder, input=text, capture_output=True, timeout=HELD, **how)

    def test_copied(self):
        for out, status in (("out", 0), ("nowhere/out", 3)):
            folder = self.laid(Row("", out))
            before = found(folder)
            ran = self.ran(folder, out, ENCODED)
            wanted = before if status else {**before, out: (0o666 & ~UMASK, BLOB)}
            self.holds((ran.returncode, found(folder)) == (status, wanted), f"{out}: {ran}")

    def test_not_copied(self):
        """The copy can't be written past some bytes: the pipe is left out."""
        folder = self.laid(Row("", "out", {"out": KEPT}))
        before = found(folder)
        limit = lambda: resource.setrlimit(resource.RLIMIT_FSIZE, (1 << 16, 1 << 16))
        ran = self.ran(folder, "out", ENCODED, preexec_fn=limit, restore_signals=False)
        told = f"bao_gather: left out /dev/stdin: can't be copied: {os.strerror(errno.EFBIG)} (os error {errno.EFBIG})\n"
        is_right = ran.returncode == 1 and told.encode() in ran.stderr and ran.stderr.endswith(b"bao_gather: 901 unfinished\n")
        self.holds(is_right and found(folder) == before, f"{ran}, {sorted(found(folder))}")


def refused(case, words, out, usage, make=None, stdout=None):
    """Runs a task that is refused as usage, with all files as they were."""
    with tempfile.TemporaryDirectory() as folder:
        lay_out(folder, Row("", "out", {"out": KEPT, "key": b"0" * 64, "open": b"before"}, folders=("there",)))
        if make:
            make(folder)
        before = found(folder)
        with open(f"{folder}/{stdout}" if stdout else os.devnull, "ab") as it:
            ran = run(folder, words, out, stdout=it)
        is_right = (ran.returncode, ran.stderr) == (2, f"bao_gather: usage: {usage}\n") and found(folder) == before
        case.holds(is_right, f"{words} {out}: {ran.returncode}, {ran.stderr!r}, or a file has changed")


def soft(to, name="to"):
    return lambda folder: os.symlink(to, f"{folder}/{name}")


def hard(to, name="to"):
    return lambda folder: os.link(f"{folder}/{to}", f"{folder}/{name}")


class Names(Laid):
    """OUT and the list, where they are another file of the command by whatever name."""

    def test_out_is_read(self):
        reads = {
            "encode blob OUT": ["blob"],
            "outboard blob OUT": ["blob"],
            "slice 70000 1000 blob OUT": ["blob"],
            "encode --key-file key blob OUT": ["key"],
            f"decode {ROOT} blob.bao OUT": ["blob.bao"],
            f"decode-slice {ROOT} 70000 1000 blob.slice OUT": ["blob.slice"],
            f"cut-slice {ROOT} 70000 1000 blob.bao OUT": ["blob.bao"],
            f"cut-slice --outboard blob.obao {ROOT} 70000 1000 blob OUT": ["blob", "blob.obao"],
            f"decode --outboard blob.obao {ROOT} blob OUT": ["blob", "blob.obao"],
            f"gather --outboard blob.obao {ROOT} OUT blob": ["blob.obao"],
            f"gather --key-file key {ROOT} OUT blob.bao": ["key"],
        }
        for words, name in [(words, name) for words, names in reads.items() for name in names]:
            for out, make in ((name, None), (f"there/../{name}", None), ("to", soft(name)), ("to", hard(name))):
                refused(self, words, out, "OUT is a file that is read", make)

    def test_the_list(self):
        leads = "LIST leads to another file of the command"
        gather, beside = f"gather --missing OUT {ROOT} out torn.bao", f"gather --missing OUT --outboard blob.obao {ROOT} out blob"
        key = f"gather --missing OUT --key-file key {ROOT} out torn.bao"
        refused(self, gather, "torn.bao", "LIST is a file that is read")
        refused(self, beside, "blob.obao", "LIST is a file that is read")
        refused(self, gather, "out", "LIST is OUT or standard output")
        refused(self, gather, "there/../torn.bao", leads)
        refused(self, beside, "./blob.obao", leads)
        refused(self, f"gather --missing OUT {ROOT} new torn.bao", "there/../new", leads)
        refused(self, f"gather --missing OUT {ROOT} there/new torn.bao", "./there/new", leads)
        for words, names in ((gather, ("torn.bao", "out")), (beside, ("blob", "blob.obao", "out")), (key, ("key",))):
            for name, make in itertools.product(names, (soft, hard)):
                refused(self, words, "list", leads, make(name, "list"))
        refused(self, gather, "list", leads, soft("/dev/stdout", "list"), stdout="other")

    def test_a_list_that_becomes_out(self):
        """A link to nothing leads to the list once OUT is there: then OUT is what it was to be, and the list isn't made."""
        for words in (GATHER, f"gather --long {ROOT} OUT blob.bao"):
            with tempfile.TemporaryDirectory() as folder:
                lay_out(folder, Row("", "link", links={"link": "new"}))
                ran = run(folder, words.replace("gather", "gather --missing new", 1), "link")
                got = (ran.returncode, ran.stdout, ran.stderr, bytes_at(f"{folder}/new"))
                self.holds(got == (3, "", "bao_gather: cannot write new\n", BLOB), f"{words}: {ran}")


class Moments(Laid):
    """Runs at a time on one OUT, and runs that are killed."""

    def begun(self, folder, words):
        return subprocess.Popen([PROGRAM, *words], cwd=folder, stdout=subprocess.DEVNULL)

    def test_two_at_a_time(self):
        folder = self.laid(Row("", "out", {"out": KEPT}))
        for _ in range(100):
            runs = [self.begun(folder, words) for words in (["decode", ROOT, "blob.bao", "out"], ["decode", OTHER_ROOT, "other.bao", "out"])]
            statuses = [it.wait(HELD) for it in runs]
            after = found(folder)
            is_right = statuses == [0, 0] and after["out"][1] in (BLOB, OTHER) and not any(".part" in it for it in after)
            self.holds(is_right, f"{statuses}, {len(after['out'][1])} bytes, {sorted(after)}")

    def test_killed(self):
        """At sixty moments of a run, one at a time and two, and then a run that isn't."""
        folder = self.folder()
        with open(f"{folder}/big", "wb") as it:
            it.write(bytes(8 << 20))
        words = ["decode", run(folder, "encode big big.bao", "out").stdout.strip(), "big.bao", "out"]
        start = time.monotonic()
        run(folder, " ".join(words), "out")
        took, before = time.monotonic() - start, found(folder)
        for many in (1, 2):
            for k in range(60):
                runs = [self.begun(folder, words) for _ in range(many)]
                time.sleep(took * k / 60)
                for it in runs:
                    it.kill()
                    it.wait(HELD)
                after = found(folder)
                beside = [it for it in after if ".part" in it]
                self.holds(len(beside) <= many and after["out"] == before["out"], f"{many} at a time, killed after {k}/60 of a run: {beside}")
            ran = run(folder, " ".join(words), "out")
            self.holds(ran.returncode == 0 and found(folder) == before, f"{many} at a time: {ran.returncode}, {ran.stderr!r}, {sorted(found(folder))}")


USER = 12345
OWNERS = [(USER, 0o640, 0, USER), (USER, 0o640, USER, USER), (0, 0o666, USER, USER), (0, 0o644, USER, None)]


@each((f"of {owner}, {mode:o}, as {runs_as}", owner, mode, runs_as, wanted) for owner, mode, runs_as, wanted in OWNERS)
class Owners(Laid):
    """Owner and group stay where the system allows it, which it does for root; another user may not write to what is protected."""

    def tried(self, owner, mode, runs_as, wanted):
        if os.geteuid():
            self.skipTest("not run by root")
        folder = self.laid(Row("", "out", {"out": KEPT}, mode=mode))
        for at in (folder, os.path.dirname(folder)):
            os.chmod(at, 0o777)
        os.chown(f"{folder}/out", owner, owner)
        shutil.copy(PROGRAM, f"{folder}/program")
        os.chmod(f"{folder}/program", 0o755)
        words = GATHER.replace(" ", " --verbose ", 1).replace("OUT", "out").split()
        ran = subprocess.run(["./program", *words], cwd=folder, capture_output=True, text=True, timeout=HELD, user=runs_as, group=runs_as, extra_groups=[])
        after, done = os.stat(f"{folder}/out"), wanted is not None
        got = (ran.returncode, after.st_uid, after.st_gid, after.st_mode & 0o7777, bytes_at(f"{folder}/out") == BLOB, any(".part" in it for it in os.listdir(folder)))
        told = "" if done else f"bao_gather: out: {os.strerror(errno.EACCES)} (os error {errno.EACCES})\nbao_gather: cannot write out\n"
        is_right = got == (0 if done else 3, wanted if done else owner, wanted if done else owner, mode, done, False) and ran.stderr.endswith(told)
        self.assertTrue(is_right, f"{got}, {ran.stderr!r}")

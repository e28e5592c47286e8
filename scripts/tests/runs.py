"""A run of the program with one call of the C library failing, and whether it ended as the definitions say.

shim.c has the call fail: an allocation, a thread's start, an open, a read, a write, a sync, a rename, a close, or the question how long a file is. It fails as
FAULTS says, once or from then on, or the process is killed there. What has to come is what scripts/scenarios.py gives by the definitions alone, of the files as
the run found them, or a fault of docs/MANUAL.md: never other bytes or another status. OUT is what it was, or all that was to be written, and so is the list of
what is missing. No file is left beside them, except by a process that was killed.
"""
import dataclasses
import errno
import functools
import glob
import os
import re
import resource
import signal
import subprocess
from dataclasses import dataclass

from cases import HELD, KEPT, OUT, PROGRAM, ROOM, shim
import scenarios

STDOUT, STDERR, LIST = "standard output", "standard error", "list"
PLAIN = b"bao_gather: memory\n"

# So many bytes are read by position, on several threads.
LONG = (4 << 20) + 1000

# What a task writes: OUT, and the list of what is missing where it is asked for.
WRITTEN = (OUT, LIST)

# The new file beside OUT, or beside the list.
DRAFT = re.compile(rf"(?:.*/)?({OUT}|{LIST})\.part\.gather[2-9]?")

# The lines of --verbose and of a list that isn't written; the line of a FILE that was counted, and those that replace it where memory is missing.
TOLD = re.compile(rb"bao_gather: (?:left out .*|missing: .*|.*: only its first \d+ bytes were read|nothing fits ROOT: .*|list: left as it is: .*|.*: not counted: no memory|.*: \d+ of \d+ groups of 64 KiB refused|.*: not a combined encoding of ROOT; .*)\n")
# The reason that the system gives for a FILE, in a line of its own or at the end of one.
REASON = re.compile(rb"^bao_gather: [^:\n]*: [^:\n]* \(os error \d+\)\n|(?:(?<=can't be read)|(?<=can't be copied)): [^:\n]* \(os error \d+\)", re.MULTILINE)
UNLISTED = re.compile(rb"bao_gather: list: left as it is: memory\n")
COUNTED = re.compile(rb"bao_gather: (.*): (?:\d+ of \d+ groups of 64 KiB refused|not a combined encoding of ROOT; .*)")
FORMLESS = re.compile(rb"^bao_gather: (.*): not a combined encoding of ROOT; ", re.MULTILINE)
UNCOUNTED, STARVED = b"bao_gather: %b: not counted: no memory", b"bao_gather: left out %b: no memory"


@dataclass(frozen=True)
class Fault:
    """How a call fails: with a number of errno or in a way of the shim's, once or from then on."""

    call: str
    how: str
    on: bool = False

    def __str__(self):
        how = errno.errorcode[int(self.how)] if self.how.isdigit() else self.how
        return f"{self.call} {how}{' from there on' if self.on else ''}"


def faults_of(call, *hows, on=()):
    number = lambda it: str(getattr(errno, it, it))
    return [Fault(call, number(it)) for it in hows] + [Fault(call, number(it), True) for it in on]


# The process is killed before the call.
KILLED = "killed"

FAULTS = [
    *faults_of("malloc", "ENOMEM", on=["ENOMEM"]),
    *faults_of("pthread_create", "EAGAIN", on=["EAGAIN"]),
    *faults_of("open", "EIO", "ENOSPC", "EINTR", "EMFILE", KILLED, on=["EIO"]),
    *faults_of("statx", "EIO", "less", "more", on=["EIO", "less", "more"]),
    *faults_of("read", "EIO", "EINTR", "short", "none", on=["EIO", "short"]),
    *faults_of("pread", "EIO", "EINTR", "short", "none", on=["EIO", "short", "none"]),
    *faults_of("write", "EIO", "ENOSPC", "EINTR", "short", "none", KILLED, on=["EIO", "ENOSPC", "short"]),
    *faults_of("fsync", "EIO", "EINTR", KILLED),
    *faults_of("rename", "EIO", "ENOSPC", KILLED),
    *faults_of("close", "EIO", "EINTR", KILLED, on=["EIO"]),
]

# These change nothing of what has to come: a file has the bytes that it has.
HARMLESS = ["short", "less", "more"]

# These may change nothing, since there is another way, or the call may be tried again.
AVOIDABLE_CALLS, AVOIDABLE = ["statx", "pread", "close"], [str(errno.EINTR)]

# The tasks that verify what they read in order, and write it at once.
DECODES = ("decode", "decode-slice")

# The memory faults of each task, beside the one without a number. Each comes up for some refused allocation.
OWN = {
    "hash": [],
    "check": [],
    "info": [],
    "encode": ["401"],
    "outboard": ["401"],
    "slice": ["401"],
    "cut-slice": [],
    "decode": [],
    "decode-slice": [],
    "gather": ["903", "911"],
    "replay": ["401", "701"],
}


@dataclass(frozen=True)
class Ending:
    """How a run ended: its status, what it printed, the contents of OUT and of the list of what is missing, and how many files are beside them."""

    status: int
    printed: bytes
    complaint: bytes
    out: bytes
    listed: bytes = KEPT
    beside: int = 0


class Model(scenarios.Programs):
    """The definitions, where the form of some files isn't found out."""

    unformed = ()

    def is_no_encoding(self, text):
        return text not in self.unformed and super().is_no_encoding(text)


class Task:
    """The program's words, and the files that it is run over."""

    def __init__(self, words, files, sizes=None, is_avoidable=False, pipes=()):
        self.words, self.files, self.sizes, self.pipes = words, {**files, OUT: KEPT, LIST: KEPT}, sizes or {}, pipes
        # An encoding is kept where it can't be read twice.
        is_kept = words[0] in DECODES and "--outboard" not in words and ("/dev/stdin" in files or bool(pipes))
        own = OWN[words[0]] + (OWN["encode"] if "--encode" in words else []) + (["504"] if is_kept else [])
        self.memory = {f"bao_gather: {it} memory\n".encode() for it in own} | {PLAIN}
        # It prints a line for each file, and goes on where one can't be read. Small files are tried together, and then one that couldn't be read again.
        self.is_survey = words[0] in ("check", "info") or words[0] == "hash" and words[-2] in files
        # The first regular FILE is opened once more before the regular ones are, and before the others, which keeps a descriptor for OUT. What a FILE gives is
        # read by position.
        self.is_placed = words[0] == "gather"
        self.spared = next((it for it in words[words.index(OUT) + 1 :] if it in files and it not in self.pipes and "/" not in it), None) if self.is_placed else None
        # Of several workers another may do what one has no memory for: what comes then depends on the system.
        is_shared = words[0] == "gather" and not re.search(r"--workers 1\b", " ".join(words))
        # These write first what is known only once all is read, and keep nothing: they read it again.
        is_read_twice = words[0] in ("encode", "cut-slice") or "--outboard" in words and words[0] in DECODES
        self.read_twice = words[-2] if is_read_twice else None
        # A long file is encoded in another way where there is no memory for the first.
        self.needed = {PLAIN} if is_avoidable or is_shared else self.memory
        self.name = " ".join(it if len(it) < 64 else f"{it[:6]}.." for it in words)
        # The calls of open that a run makes to read each FILE, before the one that finds out its form.
        self.first_opens = {}

    @functools.lru_cache(maxsize=None)
    def ending(self, changes=frozenset(), unformed=frozenset()):
        """Returns how it ends by the definitions, where some files can't be read (None) or end at a byte, and the form of some isn't found out."""
        model = Model()
        model.files, model.irregular = dict(self.files), set(self.pipes)
        model.unformed = [self.files[it] for it in unformed]
        for file, end in changes:
            if end is None:
                model.files.pop(file, None)
            else:
                model.files[file] = model.files[file][:end]
        status, *lines = model.do("run", " ".join(self.words))
        told = {name: "".join(f"{it[5:]}\n" for it in lines if it.startswith(f"{name}: ")).encode() for name in ("out", "err")}
        return Ending(int(status.split()[1]), told["out"], told["err"], model.files[OUT], model.files[LIST])

    def lay_out(self, folder):
        """Writes its files. One that has a size is zeros up to there, of which only the first are in the model; nobody writes to a pipe."""
        for file in self.pipes:
            os.mkfifo(f"{folder}/{file}")
        for file, data in self.files.items():
            if "/" not in file:
                with open(f"{folder}/{file}", "wb") as it:
                    it.write(data)
                    it.truncate(self.sizes.get(file, len(data)))

    def run(self, folder, settings):
        """Runs it, with OUT and the list as before. Returns how it ended, and of each call that failed the offset and the file."""
        for name in WRITTEN:
            with open(f"{folder}/{name}", "wb") as it:
                it.write(KEPT)
        met = f"{folder}.met"
        if os.path.exists(met):
            os.remove(met)
        source = f"{folder}/blob" if "/dev/stdin" in self.files else os.devnull
        with open(source, "rb") as stdin:
            try:
                ran = subprocess.run(
                    [PROGRAM, *self.words],
                    stdin=stdin,
                    capture_output=True,
                    cwd=folder,
                    timeout=HELD,
                    env={**os.environ, **settings, "MET": met},
                    preexec_fn=limited if self.sizes else None,
                )
            except subprocess.TimeoutExpired:
                return Ending(-1, b"", b"held for ever", b""), []
        beside = [file for name in WRITTEN for file in glob.glob(f"{folder}/{name}.*")]
        for file in beside:
            os.remove(file)
        left = []
        for name in WRITTEN:
            with open(f"{folder}/{name}", "rb") as it:
                left.append(it.read())
        ended = Ending(ran.returncode, ran.stdout, ran.stderr, *left, len(beside))
        if not os.path.exists(met):
            return ended, []
        with open(met, encoding="utf-8") as it:
            met = [line.rstrip("\n").split(" ", 1) for line in it]
        return ended, [[byte, DRAFT.sub(r"\1", file)] for byte, file in met]

    def formless(self):
        """Returns the FILEs that are no combined encoding. The program finds that out at the end, by opening and reading them once more."""
        return {it.decode() for it in FORMLESS.findall(self.ending().complaint)} if self.is_placed else set()

    def find_opens(self, folder):
        """Has each open of a run fail, to find those of FILEs that come before the open for their form."""
        opened, met = {}, [()]
        while self.formless() and met:
            number = sum(map(len, opened.values())) + 1
            _, met = self.run(folder, {"LD_PRELOAD": shim(), "CALL": "open", "AT": str(number), "HOW": str(errno.EIO)})
            for _, file in met:
                opened.setdefault(file, []).append(number)
        self.first_opens = {file: opened.get(file, [])[:-1] for file in self.formless()}

    def unformed(self, fault, number, met):
        """The FILEs whose form wasn't found out, and nothing else of them: all calls that failed, from this one on, came after they had been read."""
        files = self.formless() & {file for _, file in met}
        # What a FILE gives is read by position: the other reads are for its form.
        return {it for it in files if fault.call == "read" or fault.call == "open" and max(self.first_opens[it], default=0) < number}

    def is_right(self, fault, number, met, ended):
        """Returns whether it ended as promised, where these calls failed, from this number on."""
        whole = self.ending()
        if met and fault.how == KILLED:
            return ended.status == -signal.SIGKILL and ended.out in (KEPT, whole.out) and ended.listed in (KEPT, whole.listed)
        if ended.beside:
            return False
        if fault.call == "malloc":
            if is_told_for_less(whole.complaint, ended.complaint) and dataclasses.replace(ended, complaint=whole.complaint) == whole:
                return True
            return self.is_of_memory(ended) or is_unlisted(whole, ended)
        if fault.how in HARMLESS and fault.call == "statx" and self.words[0] == "info":
            # It prints the size that the system tells.
            return (ended.status, ended.complaint, ended.printed.count(b"\n")) == (whole.status, whole.complaint, whole.printed.count(b"\n"))
        if fault.call == "pthread_create" or fault.how in HARMLESS:
            return ended == whole
        # What is read in order ends where a read gives nothing, and so does what is verified as it is read. At a file's end no read gives anything.
        is_in_order = fault.call == "read" or fault.call == "pread" and self.words[0] in (*DECODES, "cut-slice")
        ends_early = is_in_order and fault.how == "none"
        is_end = lambda byte, file: fault.how == "none" and byte.isdigit() and int(byte) >= len(self.files[file])
        unformed = frozenset(self.unformed(fault, number, met))
        # Where the first open that failed was of another file, this one was read before.
        spared = self.spared if fault.call == "open" and met and met[0][1] != self.spared else None
        gone = lambda file: file in self.files and file not in WRITTEN and file not in unformed and file != spared
        changes = frozenset((file, int(byte) if ends_early else None) for byte, file in met if gone(file) and not is_end(byte, file))
        is_again = (self.is_placed or self.is_survey) and fault.call == "open" and all(file in self.files and file not in WRITTEN for _, file in met)
        places = {file for _, file in met}
        # What is asked of a FILE may not matter, or matter for its form alone.
        avoided = [whole, self.ending(unformed=frozenset(self.formless() & places))] if fault.call == "statx" else [whole]
        is_avoidable = is_again or fault.call in AVOIDABLE_CALLS or fault.how in AVOIDABLE
        if is_avoidable and any(unreasoned(ended) == unreasoned(it) for it in avoided):
            return True
        if self.is_placed and fault.call == "pread":
            # A FILE that could be opened and read gives nothing where a read of it fails, and by that it is counted.
            emptied = frozenset((file, 0) for file, _ in changes)
            # What it has is looked for once more where the blob stays unfinished: that read may fail, and no other, or none any more.
            is_more = is_list_of_more(whole.listed, ended.listed)
            wanted = [dataclasses.replace(it, listed=ended.listed) if is_more and it.status == 1 else it for it in (whole, self.ending(changes), self.ending(emptied))]
            return any(self.is_ending(it, places, ended, TOLD) for it in wanted)
        # What is asked of a FILE may not matter, where it does for OUT.
        wanted = [self.ending(changes, unformed), *(avoided if fault.call in AVOIDABLE_CALLS else [])]
        told = TOLD if LIST in places else None
        return self.is_changed(fault, met, ended) or any(self.is_ending(it, places, ended, told, fault.call in AVOIDABLE_CALLS) for it in wanted)

    def is_changed(self, fault, met, ended):
        """Returns whether it ended since a file couldn't be read again, or had changed. Of the two files that a slice is cut out of, the copy is named."""
        told_as_copy = {self.words[self.words.index("--outboard") + 1]} if self.words[0] == "cut-slice" and "--outboard" in self.words else set()
        if fault.call not in ("read", "pread") or not {file for _, file in met} & {self.read_twice, *told_as_copy}:
            return False
        whole = self.ending()
        told = (ended.status, ended.printed, ended.complaint) == (3, b"", f"bao_gather: cannot read {self.read_twice}\n".encode())
        return whole.status == 0 and told and ended.out == KEPT

    def is_of_memory(self, ended):
        """It ended with a fault of memory of its own, and OUT is as it was, or whole where the line on standard output found no room. The list is as it was,
        if gathering hadn't begun, or empty."""
        complaint = TOLD.sub(b"", ended.complaint)
        whole = self.ending()
        if self.is_survey:
            told = whole.complaint.splitlines(True)
            complaint = b"".join(it for it in complaint.splitlines(True) if it not in told)
        left = [KEPT, whole.out] if complaint == PLAIN else [KEPT]
        listed = [KEPT, b""] if "--missing" in self.words else [KEPT]
        printed = whole.printed.startswith(ended.printed) and ended.printed[-1:] in (b"", b"\n") if self.is_survey else not ended.printed
        return ended.status == 4 and printed and complaint in self.memory and ended.out in left and ended.listed in listed

    def is_ending(self, wanted, places, ended, apart=None, is_avoidable=False):
        """It ended so, but for what a call on one of these places took away, for the system's reasons, and for what is told apart from that. A call that can be
        avoided may have taken nothing from the list."""
        if STDERR not in places:
            wanted, ended = unreasoned(wanted), unreasoned(ended)
        if apart:
            wanted, ended = (dataclasses.replace(it, complaint=apart.sub(b"", it.complaint)) for it in (wanted, ended))
        status, printed, complaint, out = wanted.status, [wanted.printed], wanted.complaint, ended.out == wanted.out
        # What can't be written is as it was. OUT is in place before the list is made; where it can't be, the list is empty, as after a success.
        is_listed = ended.listed == (KEPT if LIST in places else wanted.listed) or is_avoidable and ended.listed == wanted.listed
        out = out and is_listed
        if status == 0 and places & {*WRITTEN}:
            place = OUT if OUT in places else LIST
            status, printed, complaint = 3, [b""], complaint + f"bao_gather: cannot write {place}\n".encode()
            out = ended.out == (KEPT if place == OUT else wanted.out) and is_listed
        elif (status == 0 or self.is_survey) and STDOUT in places:
            printed = [wanted.printed[:k] for k in range(len(wanted.printed))]
            status, complaint = 3, complaint + b"bao_gather: cannot write output\n"
        told = complaint.startswith(ended.complaint) if STDERR in places else ended.complaint == complaint
        return ended.status == status and ended.printed in printed and told and out


def unreasoned(ended):
    """The same ending, without what the system has against a FILE."""
    return dataclasses.replace(ended, complaint=REASON.sub(b"", ended.complaint))


def is_unlisted(wanted, got):
    """Whether this is the wanted ending, but for a list that isn't written for want of memory, or is empty, since without memory it isn't known what is missing."""
    told = UNLISTED.sub(b"", got.complaint)
    listed = b"" if told == got.complaint else KEPT
    return wanted.listed != KEPT and dataclasses.replace(got, complaint=told) == dataclasses.replace(wanted, listed=listed)


def is_list_of_more(wanted, got):
    """Whether a list has what is wanted of it, and maybe more."""
    if KEPT in (wanted, got):
        return False
    parts = lambda text: [(int(start), int(start) + int(count)) for start, count in (line.split() for line in text.splitlines())]
    return all(any(start <= first and after <= end for start, end in parts(got)) for first, after in parts(wanted))


def is_told_for_less(wanted, got):
    """Whether this is the wanted complaint, but for a FILE that was left out, or wasn't counted, for want of memory."""
    wanted, got = wanted.splitlines(), got.splitlines()

    def is_alike(its, mine):
        counted = COUNTED.fullmatch(its)
        return mine == its or counted and mine in [it % counted[1] for it in (UNCOUNTED, STARVED)]

    return len(wanted) == len(got) and all(map(is_alike, wanted, got))


def limited():
    """Leaves the process ROOM."""
    resource.setrlimit(resource.RLIMIT_AS, (ROOM, ROOM))

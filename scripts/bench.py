#!/usr/bin/env python3
"""Times the programs of this repository, as `make bench` built them, beside b3sum, and prints a table.

Every command is run several times, in turns and twice in a row, and its least time counts. A figure that isn't what is wanted is said to be
missed, and that is no failure: this fails only where a program fails, where two of them print different hashes, or where what was decoded or
gathered isn't what was encoded. Where there is a C compiler the most memory is measured that tasks have at once. OUT is in memory (MEMORY_FOLDER), where
there is room for it, since a sync would measure the device; one row has it on a disk. What is wanted stands in wanted.py, and why it is missed.

bench/history.tsv has a row for each run, with its figures; a figure may be a range, as 1.2 to 1.5. --record adds the row of this run. `make doc` makes
the table and the plot of it."""
import contextlib
import datetime
import filecmp
import os
import shutil
import subprocess
import sys
import tempfile
import time
from dataclasses import dataclass

sys.dont_write_bytecode = True
import definitions as bao
import script
from peak import Launcher
from wanted import *

ROOT = os.path.dirname(os.path.dirname(os.path.abspath(__file__)))
PROGRAM = f"{ROOT}/out/bao_gather"
MEMORY_FOLDER = "/dev/shm"
# It is there where there is a C compiler.
OF_C = f"{ROOT}/out/c/compare"
# It is there where there are BLAKE3's own C sources, too.
OF_BLAKE3 = f"{ROOT}/out/pieces"
MIB = 1 << 20

# The most bytes that a store has room for.
MOST_GATHERED = 64 * MIB

# Output past 32 bytes is made on one thread.
ONE_THREAD = ["--length", "33"]


def fail(why):
    sys.exit(f"bench: {why}")


def output(words, status=0):
    """What the command prints, where it ends with that status."""
    ran = subprocess.run(words, stdin=subprocess.DEVNULL, stdout=subprocess.PIPE, stderr=subprocess.PIPE)
    if ran.returncode != status:
        complaint = ran.stderr.decode(errors="replace").strip()
        fail(f"{' '.join(words)} ended with status {ran.returncode}: {complaint}")
    return ran.stdout.decode()


def processor():
    with open("/proc/cpuinfo", encoding="utf-8", errors="replace") as it:
        for line in it:
            if line.startswith("model name"):
                return line.partition(":")[2].strip()
    return "unknown"


def knows(command):
    ran = subprocess.run([PROGRAM, command, "--help"], stdout=subprocess.DEVNULL, stderr=subprocess.DEVNULL)
    return ran.returncode == 0


# Seconds, or bytes.
UNITS = {"ms": 1e-3, "ns": 1e-9, "KiB": 1024}


class Times:
    """The least time of each thing that was measured, or the least memory, by its name."""

    def __init__(self):
        self.least = {}

    def note(self, name, seconds):
        self.least[name] = min(seconds, self.least.get(name, seconds))

    def run(self, name, words, made=None, status=0):
        """Times the command, twice in a row, since a virtual machine may have to lend memory anew after a pause. The file
        that it makes is not there before, and no earlier file waits for the disk."""
        for _ in range(2):
            if made and os.path.exists(made):
                os.remove(made)
            os.sync()
            start = time.perf_counter()
            printed = output(words, status)
            self.note(name, time.perf_counter() - start)
        return printed

    def run_in_process(self, program, path):
        """Notes what a program measures within itself: lines such as `hash: 12.345 ms`, in ns, or of memory, in KiB."""
        for line in output([program, path]).splitlines():
            name, _, rest = line.partition(": ")
            number, unit = rest.split()
            self.note(name, float(number) * UNITS[unit])


def put_history(rows):
    columns = [*RUN, *wanted_figures()]
    columns += sorted({name for row in rows for name in row} - set(columns))
    lines = ["\t".join(row.get(name, "") for name in columns) for row in rows]
    with open(HISTORY, "w", encoding="utf-8") as it:
        it.write("\n".join(["\t".join(columns), *lines]) + "\n")


def add_to_history(figures, load, mib, runs):
    """Adds a row of this run."""
    commit = output(["git", "-C", ROOT, "rev-parse", "--short", "HEAD"]).strip()
    if output(["git", "-C", ROOT, "status", "--porcelain", "--untracked-files=no"]).strip():
        commit += " and changes"
    with open(f"{ROOT}/out/cpu", encoding="utf-8") as it:
        build = it.read().strip()
    machine = f"{processor()}, {os.cpu_count()} processors"
    told = [datetime.date.today().isoformat(), commit, machine, build, f"{load:.1f} before", str(mib), str(runs), ""]
    put_history([*history(), dict(zip(RUN, told)) | {name: f"{figure:.2f}" for name, figure in figures.items()}])


@dataclass(frozen=True)
class Command:
    """A command, by its name: its words, the file that the one that it makes has to be like, its status, and whether it prints a line for each of many files."""

    name: str
    words: list
    like: str | None = None
    status: int = 0
    of_many: bool = False


@dataclass(frozen=True)
class Holders:
    """The first bytes of the file, as many as a store has room for, with their root, a true encoding of them, ten damaged ones, three that are damaged in the same
    groups, and twenty with one damaged chunk in common."""

    blob: str
    root: str
    encoding: str
    damaged: list
    torn: list
    common: list


def twenty_of(room, text, blob_len):
    """Twenty files of that encoding, with one damaged chunk in the middle of each: one file, by twenty names."""
    changed, names = bytearray(text), [f"{room}/common-{k}" for k in range(20)]
    changed[bao.place_of(blob_len, bao.chunks_of(blob_len) // 2)] ^= 1
    with open(names[0], "wb") as it:
        it.write(changed)
    for name in names[1:]:
        os.link(names[0], name)
    return names


def holders(room, path):
    blob, encoding = f"{room}/blob", f"{room}/blob.bao"
    with open(path, "rb") as whole, open(blob, "wb") as it:
        it.write(whole.read(MOST_GATHERED))
    root = output([PROGRAM, "encode", blob, encoding]).strip()
    with open(encoding, "rb") as it:
        text = it.read()
    tenths = [range(len(text) * tenth // 10, len(text) * (tenth + 1) // 10, 512) for tenth in range(10)]
    # A group of 64 chunks takes as many bytes of an encoding, but for the few parents above groups.
    group = 64 * (1024 + 64)
    bytes_of = [range(8 + group // 4 * (1 + third), len(text) - group, 16 * group) for third in range(3)]
    damaged = []
    for number, places in enumerate([*tenths, *bytes_of]):
        changed = bytearray(text)
        for at in places:
            changed[at] ^= 1
        damaged.append(f"{room}/damaged-{number}")
        with open(damaged[-1], "wb") as it:
            it.write(changed)
    common = twenty_of(room, text, os.path.getsize(blob))
    return Holders(blob, root, encoding, damaged[:10], damaged[10:], common)


def gatherings(room, held, made):
    """The gatherings that are timed."""
    gather = lambda *words: [PROGRAM, "gather", *words]
    parents = f"{room}/gathered-parents"
    output([PROGRAM, "outboard", held.blob, parents])
    true = [held.root, made, held.encoding]
    yield Command(GATHER, gather(*true), held.blob)
    yield Command(GATHER_VERBOSE, gather("--verbose", *true), held.blob)
    yield Command(GATHER_TEN, gather(held.root, made, *held.damaged), held.blob)
    yield Command(GATHER_COMMON, gather(held.root, made, *held.common), status=1)
    yield Command(GATHER_LONG, gather("--long", *true), held.blob)
    yield Command(GATHER_SALVAGE, gather("--salvage", held.root, made, *held.torn), held.blob)
    yield Command(GATHER_BESIDE, gather("--outboard", parents, held.root, made, held.blob), held.blob)


@contextlib.contextmanager
def folder_in_memory(room, size):
    """A folder for what is written, in memory, or where there is no room for so many bytes the other one."""
    try:
        has_room = shutil.disk_usage(MEMORY_FOLDER).free > size
    except OSError:
        has_room = False
    if not has_room:
        print(f"there is no room in {MEMORY_FOLDER}: what is written goes to a disk, and its sync is in the times", flush=True)
        yield room
        return
    with tempfile.TemporaryDirectory(prefix="bench-", dir=MEMORY_FOLDER) as folder:
        yield folder


def damaged_at_its_end(room, encoding):
    shutil.copy(encoding, f"{room}/refused")
    with open(f"{room}/refused", "r+b") as it:
        it.seek(-1, os.SEEK_END)
        last = it.read(1)[0]
        it.seek(-1, os.SEEK_END)
        it.write(bytes([last ^ 1]))
    return f"{room}/refused"


def many(memory, b3sum, mib):
    """Commands on many files: 10,000 of 20 KB, and as many of 10 MB as have so many MiB together. Both programs print the same."""
    commands = []
    for size, count, names in ((20_000, 10_000, (HASH_SMALL, B3SUM_SMALL, CHECK_SMALL, B3SUM_CHECK_SMALL)), (10**7, mib * MIB // 10**7, (HASH_LARGE, B3SUM_LARGE, CHECK_LARGE, B3SUM_CHECK_LARGE))):
        folder = f"{memory}/of-{size}"
        os.mkdir(folder)
        files = [f"{folder}/{k}" for k in range(count)]
        for name in files:
            with open(name, "wb") as it:
                it.write(os.urandom(size))
        sums = output([PROGRAM, "hash", *files])
        with open(f"{folder}.sums", "w", encoding="utf-8") as it:
            it.write(sums)
        commands += [Command(names[0], [PROGRAM, "hash", *files], of_many=True), Command(names[2], [PROGRAM, "check", f"{folder}.sums"], of_many=True)]
        if b3sum:
            if output([b3sum, *files]) != sums:
                fail("the programs print different hashes of many files")
            commands += [Command(names[1], [b3sum, *files], of_many=True), Command(names[3], [b3sum, "--check", f"{folder}.sums"], of_many=True)]
    return commands


def measure(room, memory, mib, runs):
    path, made, on_disk = f"{room}/input", f"{memory}/made", f"{room}/made"
    with open(path, "wb") as it:
        for _ in range(mib):
            it.write(os.urandom(MIB))
    commands = [Command(HASH, [PROGRAM, "hash", path]), Command(HASH_ONE, [PROGRAM, "hash", *ONE_THREAD, path])]
    b3sum = shutil.which("b3sum")
    if b3sum:
        for name, words in ((B3SUM_ONE, ["1"]), (B3SUM_FOUR, ["4"]), (B3SUM_READ_ONE, ["1", "--no-mmap"]), (B3SUM_READ_FOUR, ["4", "--no-mmap"])):
            commands.append(Command(name, [b3sum, "--no-names", "--num-threads", *words, path]))
    else:
        print("b3sum is not installed, so there are no times of it (Debian: apt-get install b3sum).")
    if not os.path.exists(OF_BLAKE3):
        print("BLAKE3's own C sources, or a C compiler, are not installed, so there are no times of libblake3 (Debian: apt-get install librust-blake3-dev gcc).")
    for name, command in ((OUTBOARD, "outboard"), (ENCODE, "encode")):
        if knows(command):
            commands.append(Command(name, [PROGRAM, command, path, made]))
        else:
            print(f"The program knows no command {command}, so there is no time of it.")
    encoding, parents = f"{room}/encoding", f"{room}/parents"
    root = output([PROGRAM, "encode", path, encoding]).strip()
    output([PROGRAM, "outboard", path, parents])
    commands += [Command(COPY_ENCODED, ["cp", encoding, made], encoding), Command(COPY_FILE, ["cp", path, made], path)]
    commands.append(Command(SLICED, [PROGRAM, "slice", str(mib * MIB // 2), "100", path, made]))
    commands.append(Command(DECODE, [PROGRAM, "decode", root, encoding, made], path))
    commands.append(Command(DECODE_REFUSED, [PROGRAM, "decode", root, damaged_at_its_end(room, encoding), made], status=1))
    commands.append(Command(DECODE_TO_DISK, [PROGRAM, "decode", root, encoding, on_disk], path))
    commands.append(Command(DECODE_BESIDE, [PROGRAM, "decode", "--outboard", parents, root, path, made], path))
    commands.append(Command(GATHER_LONGER, [PROGRAM, "gather", "--long", root, made, encoding], path))
    held = holders(room, path)
    commands += gatherings(room, held, made)
    commands += many(memory, b3sum, mib)
    times, hashes = Times(), set()
    for _ in range(runs):
        for it in commands:
            out = on_disk if it.name == DECODE_TO_DISK else made
            printed = times.run(it.name, it.words, out, it.status)
            if out not in it.words and not it.of_many:
                hashes.add(printed[:64])
            if it.like and not filecmp.cmp(out, it.like, shallow=False):
                fail(f"what {it.name} wrote isn't {os.path.basename(it.like)}")
        times.run(HASH_GATHERED, [PROGRAM, "hash", held.blob])
        for program in (OF_BLAKE3, OF_C):
            if os.path.exists(program):
                times.run_in_process(program, path)
    if len(hashes) > 1:
        fail(f"the programs print different hashes of one file: {', '.join(sorted(hashes))}")
    return times.least, peaks_of(room, commands, made) if shutil.which("cc") else {}


def peaks_of(room, commands, made):
    """The most bytes of memory that tasks have at once, of three runs each, with those of the longest file that each is given, by their names."""
    launcher, found = Launcher(room), {}
    for it in commands:
        if it.name in dict(PEAKS):
            runs = [launcher.run(it.words) for _ in range(3)]
            if any(ran.status != it.status for ran in runs):
                fail(f"{it.name} ended with another status than {it.status}")
            given = [word for word in it.words[1:] if word != made and os.path.isfile(word)]
            found[it.name] = max(ran.peak for ran in runs), max(map(os.path.getsize, given))
    return found


def main(*, mib=256, runs=7, record=False):
    """mib is the size of the file, and runs how often each command is run."""
    load = os.getloadavg()[0]
    print(f"processor: {processor()}; processors: {os.cpu_count()}")
    print(f"rt version: {output(['rt', 'version']).strip()}")
    with open(f"{ROOT}/out/cpu", encoding="utf-8") as it:
        print(f"built for: {it.read().strip()}")
    print(f"file: {mib} MiB of random bytes; runs: {runs}, in turns, of which the least counts", flush=True)
    with tempfile.TemporaryDirectory(prefix="bench-") as room:
        with folder_in_memory(room, 3 * mib * MIB) as memory:
            least, peaks = measure(room, memory, mib, runs)
    print(f"\n{'seconds':>8}  what")
    for name, how in ROWS:
        if name in least:
            print(f"{least[name]:8.4f}  {name} ({how})")
    missed, figures = [], {}

    def tell(figure, decimals, name, wanted, how="", unit=""):
        print(f"{figure:8.{decimals}f}  {name}{how}{judged(wanted, figure)}")
        missed.extend([name] if is_missed(wanted, figure) else [])
        if wanted:
            figures[name + unit] = figure

    if any(name in least for name, _ in CALLS):
        print(f"\n{'ns':>8}  a call of the C library")
        for name, wanted in CALLS:
            tell(least[name] * 1e9, 1, name, wanted, unit=", ns")
    else:
        print("\nThere is no C compiler, so there are no times of the C library.")
    print(f"\n{'MB':>8}  what")
    for name, how, wanted in MEMORY:
        if name in least:
            tell(least[name] / 1e6, 1, name, wanted, f" ({how})", ", MB")
    if peaks:
        print(f"\n{'MiB':>8}  of memory at once, beside those of the file")
        for name, wanted in [it for it in PEAKS if it[0] in peaks]:
            peak, size = (it / MIB for it in peaks[name])
            tell(peak, 1, peak_name(name), wanted, f" (file: {size:.1f})", ", MiB")
    else:
        print("\nThere is no C compiler, so there are no figures of memory at once.")
    print(f"\n{'ratio':>8}  of which times")
    for how, first, second, wanted in RATIOS:
        if first in least and second in least:
            tell(least[first] / least[second], 2, ratio_name(how, first, second), wanted)
    print(f"\nmissed: {len(missed)} of {len(wanted_figures())} wanted figures")
    if record:
        add_to_history(figures, load, mib, runs)


if __name__ == "__main__":
    script.run(main)

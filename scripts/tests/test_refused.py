"""Runs the program where memory, devices and holders fail, and holds each run to the definitions (runs.py).

Each task is run with one call of the C library failing, and so with each such call in turn, until a run meets none. Holders that lie are tried, with a true one
among them or none. Needs cc.
"""
from cases import OUT, Case, changed, each, shim
import definitions as bao
import scenarios
from scenarios import blob_of
from runs import FAULTS, LONG, TOLD, WRITTEN, Task

# After so many runs in a row that met no failure all calls were tried: threads make some in one run and not in another.
QUIET = 3

# At so many runs that are wrong a task is left.
MANY = 20

MODES = [[], ["--key", "77686174732074686520456c7669736820776f726420666f7220667269656e64"], ["--context", "of-the-trials"]]


def tasks(options):
    """Each task of the program, in one mode."""
    mode = scenarios.Programs().mode_of(*(options[1] if options[:1] == [it] else None for it in ("--key", "--context")))
    # Two groups of 64 chunks, and a capacity that takes little time to make room for.
    blob = blob_of(70_000)
    root, whole, piece = mode.hash(blob).hex(), bao.combined(mode, blob), bao.slice_text(mode, blob, 5, 9999)
    damaged = changed(whole, 40_000)
    parents, marred = bao.outboard(mode, blob), changed(blob, 40_000)
    # Damaged in other chunks of the last group, which has five.
    torn, worn = {"first": changed(whole, 70_000), "second": changed(whole, 73_000)}, {"third": changed(blob, 66_000), "fourth": changed(blob, 69_000)}
    steps = b"claim 1 0 1\nhash 1 0 0 1\nload 2 0 3\nfill 1 0\npublish 1 0\nload 2 0 3\nhash 1 1 69000 1000\nsettle 1\nlength 2\n"

    def case(words, files):
        name, *rest = words.split()
        return Task([name, *options, *rest], files)

    yield case("hash blob", {"blob": blob})
    yield case("hash --at 7 --length 99 blob", {"blob": blob})
    yield case("hash /dev/stdin", {"blob": blob, "/dev/stdin": blob})
    yield case("hash blob whole parents", {"blob": blob, "whole": whole, "parents": parents})
    yield case("check sums", {"blob": blob, "whole": whole, "sums": f"{root}  whole\n{root}  blob\nwords\n".encode()})
    yield case("check --quiet sums", {"blob": blob, "whole": whole, "sums": f"{mode.hash(whole).hex()}  whole\n{root}  blob\n".encode()})
    yield case("encode blob out", {"blob": blob})
    yield case("outboard blob out", {"blob": blob})
    yield case("slice 5 9999 blob out", {"blob": blob})
    yield case(f"cut-slice {root} 5 9999 whole out", {"whole": whole})
    yield case(f"cut-slice {root} 39000 5 damaged out", {"damaged": damaged})
    yield case(f"cut-slice --outboard parents {root} 5 9999 blob out", {"parents": parents, "blob": blob})
    yield case(f"decode {root} whole out", {"whole": whole})
    yield case(f"decode {root} damaged out", {"damaged": damaged})
    yield case(f"decode-slice {root} 5 9999 piece out", {"piece": piece})
    yield case(f"gather --capacity 100 {root} out piece whole", {"piece": piece, "whole": whole})
    yield case(f"gather --capacity 100 --workers 1 {root} out whole", {"whole": whole})
    yield case(f"gather --capacity 100 --encode {root} out whole damaged copy", {"whole": whole, "copy": whole, "damaged": damaged})
    yield case(f"gather --workers 3 --capacity 69 {root} out damaged", {"damaged": damaged})
    yield case(f"gather --verbose --capacity 100 {root} out piece nofile whole", {"piece": piece, "whole": whole})
    yield case(f"gather --missing list --workers 1 --capacity 100 {root} out damaged", {"damaged": damaged})
    yield case(f"gather --missing list --workers 1 --capacity 100 {root} out whole", {"whole": whole})
    yield case(f"gather --missing list --salvage --workers 1 --outboard parents {root} out third fifth", {"parents": parents, "fifth": changed(worn["fourth"], 66_000), **worn})
    yield case(f"gather --outboard parents --capacity 100 {root} out marred blob", {"parents": parents, "marred": marred, "blob": blob})
    yield case(f"gather --outboard parents --workers 1 --encode {root} out blob", {"parents": parents, "blob": blob})
    yield case(f"gather --workers 1 --capacity 100 {root} out first second", torn)
    yield case(f"gather --salvage --capacity 100 {root} out first second", torn)
    yield case(f"gather --salvage --verbose --workers 1 --capacity 100 {root} out first nofile second", torn)
    yield case(f"gather --salvage --outboard parents --workers 1 {root} out third fourth", {"parents": parents, **worn})
    yield case(f"gather --long {root} out piece whole", {"piece": piece, "whole": whole})
    yield case(f"gather --long --salvage --verbose --workers 3 {root} out first nofile second", torn)
    yield case(f"gather --long --workers 1 {root} out damaged", {"damaged": damaged})
    yield case(f"gather --long --encode --workers 1 {root} out damaged whole", {"damaged": damaged, "whole": whole})
    yield case(f"gather --long --outboard parents {root} out marred blob", {"parents": parents, "marred": marred, "blob": blob})
    yield case(f"decode --outboard parents {root} blob out", {"parents": parents, "blob": blob})
    yield case(f"replay --capacity 100 {root} script whole damaged", {"script": steps, "whole": whole, "damaged": damaged})
    if not options:
        yield Task(["info", "blob", "whole", "parents"], {"blob": blob, "whole": whole, "parents": parents})
    if "--key" in options:
        # The key comes out of a file, with a line end and without, or doesn't.
        key = options[1].encode()
        yield Task(["hash", "--key-file", "key", "blob"], {"key": key + b"\n", "blob": blob})
        yield Task(["hash", "--key-file", "key", "blob"], {"key": key + b"\n\n", "blob": blob})
        yield Task(["decode", "--key-file", "key", root, "whole", OUT], {"key": key, "whole": whole})


def long_tasks():
    blob = blob_of(LONG)
    return [Task(words, {"blob": blob}, is_avoidable=True) for words in (["hash", "blob"], ["encode", "blob", OUT], ["outboard", "blob", OUT], ["slice", "5", "9999", "blob", OUT])]


def liars(mode, blob):
    """Texts that aren't the blob's combined encoding, and that no part of the blob has to come from."""
    whole, other = bao.combined(mode, blob), bao.combined(mode, blob[1:])
    most = (2**64 - 1).to_bytes(8, "little")
    return {
        "empty": b"",
        "short": whole[:7],
        "first": whole[:8],
        "most": most,
        "most-and-more": most + whole[8:],
        "longer": (len(blob) + 1024).to_bytes(8, "little") + whole[8:],
        "none": bytes(8) + whole[8:],
        "other": other,
        "changed": changed(whole, *range(8, len(whole), 1024)),
        "zeros": bytes(len(whole)),
        "blob": blob,
        "outboard": bao.outboard(mode, blob),
    }


def holders():
    """Holders that lie, with a true one among them or none."""
    mode, blob = bao.Mode(), blob_of(70_000)
    root, whole, lies = mode.hash(blob).hex(), bao.combined(mode, blob), liars(mode, blob)
    files, names = {**lies, "whole": whole}, list(lies)
    gather = lambda given, *options: Task(["gather", *(options or ["--capacity", "100"]), root, OUT, *given], files)
    for name in [*names, "nofile", "/", "."]:
        yield gather([name])
        yield gather([name, "whole"])
        yield gather([name, name, "whole"], "--workers", "1")
        for task in (["decode", root, name, OUT], ["decode-slice", root, "1000", "100", name, OUT], ["cut-slice", root, "1000", "100", name, OUT], ["hash", name]):
            yield Task(task, files)
        # As a plain copy beside the outboard encoding, and in the place of that.
        yield gather([name], "--outboard", "outboard")
        yield gather([name, "blob"], "--outboard", "outboard", "--workers", "1")
        yield gather(["blob"], "--verbose", "--outboard", name)
        for given in (["outboard", root, name], [name, root, "blob"]):
            yield Task(["decode", "--outboard", *given, OUT], files)
    # A file of 2^40 bytes that has none on the disk.
    for task in (["decode", root, "zeros", OUT], ["decode-slice", root, "1000", "100", "zeros", OUT]):
        yield Task(task, files, {"zeros": 1 << 40})
    yield Task(["gather", "--capacity", "100", root, OUT, "zeros", "whole"], files, {"zeros": 1 << 40})
    for given in (["pipe", "whole"], ["/dev/stdin", "pipe", "whole", "nofile", "pipe"]):
        yield Task(["gather", "--capacity", "100", root, OUT, *given], files, pipes=["pipe"])
    yield Task(["gather", "--verbose", "--capacity", "100", root, OUT, "pipe", "nofile", *names, "whole"], files, pipes=["pipe"])
    yield gather(["nofile", *names], "--verbose", "--capacity", "100")
    yield gather(names)
    yield gather(names, "--long")
    yield gather(["whole", *names], "--long", "--salvage", "--workers", "1")
    yield gather(names, "--salvage", "--capacity", "100")
    yield gather(["whole", *names], "--salvage", "--capacity", "100", "--workers", "1")
    yield gather([*names[:10], "whole"])
    yield gather([*names[:10], "whole"], "--workers", "1")
    yield gather(["whole", "whole"])
    yield gather(["whole"] * 64, "--workers", "64")
    # Of 64 files one is true, at each place in turn.
    many = [names[k % len(names)] for k in range(64)]
    for place in range(64):
        yield gather([*many[:place], "whole", *many[place + 1 :]])


def named(tasks):
    """Names each task by its words, and tells those with the same words apart by their number."""
    seen = {}
    for it in tasks:
        seen[it.name] = number = seen.get(it.name, 0) + 1
        yield it.name if number == 1 else f"{it.name} ({number})", it


class Refused(Case):
    def tried(self, task, faults=()):
        """Runs a task, and then with each fault at each call in turn."""
        folder, wrong, seen = self.folder(), 0, set()
        task.lay_out(folder)
        ended, _ = task.run(folder, {})
        self.assertEqual(ended, task.ending(), f"{ended} in place of {task.ending()}")
        self.holds(True, "")
        if faults:
            task.find_opens(folder)
        for fault in faults:
            number = quiet = 0
            while quiet < QUIET and wrong < MANY:
                number += 1
                settings = {"LD_PRELOAD": shim(), "CALL": fault.call, "AT": str(number), "HOW": fault.how, **({"ON": "1"} if fault.on else {})}
                ended, met = task.run(folder, settings)
                quiet = 0 if met else quiet + 1
                seen.add(TOLD.sub(b"", ended.complaint))
                wrong += not self.holds(task.is_right(fault, number, met, ended), f"{fault}, call {number}, at {met}: {ended}")
        for file, data in task.files.items():
            if file not in WRITTEN and "/" not in file:
                with open(f"{folder}/{file}", "rb") as it:
                    self.assertEqual(it.read(len(data)), data, f"{file} was changed")
        never = task.needed - seen if faults else set()
        self.assertEqual(never, set(), f"never {never}")


@each((name, it, FAULTS) for name, it in named(it for options in MODES for it in tasks(options)))
class Tasks(Refused):
    """Each task with each call failing."""


def damaged_files():
    """A file that is damaged in its first group, one in its last, and one that was cut short, beside their outboard files."""
    mode, blob = bao.Mode(), blob_of(140_000)
    files = {"first": changed(blob, 40_000), "last": changed(blob, 139_999), "short": blob[:100_000]}
    sums = "".join(f"{mode.hash(blob).hex()}  {it}\n" for it in files).encode()
    yield Task(["check", "--ranges", "sums"], {**files, **{f"{it}.obao": bao.outboard(mode, blob) for it in files}, "sums": sums})


@each((name, it, [fault for fault in FAULTS if fault.call in ("malloc", "pthread_create")]) for name, it in named(damaged_files()))
class DamagedFiles(Refused):
    """Their damaged ranges. What a read takes away is one more of these, or another file that can't be read."""


@each((name, it, FAULTS) for name, it in named(long_tasks()))
class LongTasks(Refused):
    """The same over a file that several threads read."""


@each(named(holders()))
class Holders(Refused):
    """Holders that lie."""

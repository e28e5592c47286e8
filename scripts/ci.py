#!/usr/bin/env python3
"""Runs rt ci, and beside it the trials of what it proved, each as soon as rt says that the libraries are proved which it stands on.

At the top of the repository. rt says so in a line a crate, once it is proved, in this run or in an earlier one. What the trials try is built in a copy of the
repository, since rt ci holds the crates until it ends. The copy has the libraries as rt ci proved them: out of what rt keeps of its proofs, or, where it keeps
nothing, as they lie in the crates' folders. What rt ci prints is printed as it comes, and what the trials print once all have ended. The exit status is that of
rt ci, or of the last trials that failed. Trials that haven't begun when rt ci ends are made here, unless it failed.
"""
import os
import re
import shutil
import subprocess
import sys
import tempfile

sys.dont_write_bytecode = True
import rt_module
import script

# The trials, targets of the Makefile, by the crate that they build. Those of the C library are begun first, since their build takes longest.
TRIALS = {"berylwool": "c-trials", "bao_gather": "trials"}

# What they build is proved once more, by one process, which takes the processors least.
ONE_JOB = "JOBS=1"

PROVED = re.compile(r"^rt: (\w+) (?:proved$|is kept:)")

# No proof of this repository takes so many bytes with one job, and most take a third. rt counts on more, and would leave a processor idle where that isn't there.
ROOM = 5 << 30


def keeps(rt):
    """Whether rt keeps what it proved from run to run."""
    return hasattr(rt, "Kept") and rt.Kept([]).at is not None


def lanes(rt):
    """Has rt prove a crate a processor, where the memory is there. Several jobs for one crate would take twice as much of the processors."""
    count = len(os.sched_getaffinity(0))
    if hasattr(rt, "free") and count * ROOM <= rt.free():
        os.environ["RT_JOBS"] = str(count)


def copy_to(folder, libraries):
    """Copies the repository, and of what was made of it these libraries alone. rt goes by .git as the top of one."""
    shutil.copytree(".", folder, ignore=shutil.ignore_patterns(".git", "out"))
    os.mkdir(f"{folder}/.git")
    for it in libraries:
        # (with their times, by which proved_by_ci.py knows that they are newer than their sources)
        shutil.copytree(f"crates/{it}/out/rlib", f"{folder}/crates/{it}/out/rlib")


class Trial:
    def __init__(self, target, folder, *words):
        self.said = tempfile.TemporaryFile()
        # (a make that runs this has its jobs for itself)
        how = {"cwd": folder, "env": {name: it for name, it in os.environ.items() if name not in ("MAKEFLAGS", "MFLAGS", "MAKELEVEL", "RT_JOBS")}}
        how |= {"stdin": subprocess.DEVNULL, "stdout": self.said, "stderr": subprocess.STDOUT}
        self.ran = subprocess.Popen(["make", "--no-print-directory", target, *words], **how)

    def end(self):
        """Waits for its end, prints what it said, and returns its status."""
        status = self.ran.wait()
        self.said.seek(0)
        sys.stdout.flush()
        shutil.copyfileobj(self.said, sys.stdout.buffer)
        sys.stdout.flush()
        return status


def packages(places):
    """Tries Debian's packages of what the trials built, in these folders, and returns the status."""
    program, library = places["bao_gather"], places["berylwool"]
    if program != library:
        shutil.copy(f"{program}/out/bao_gather", f"{library}/out/")
    return Trial("deb-trial", library, ONE_JOB).end()


def main():
    rt = rt_module.load()
    crates = {it.name: it for it in rt.rtlib.crates_below(os.getcwd())}
    waits = {name: {it.name for it in crates[name].below()} for name in TRIALS}
    is_kept, begun, proved = keeps(rt), [], set()
    lanes(rt)
    with tempfile.TemporaryDirectory(prefix="berylwool-ci-") as room:
        with subprocess.Popen(["rt", "ci"], stdout=subprocess.PIPE, text=True, errors="replace") as ci:
            for line in ci.stdout:
                print(line, end="", flush=True)
                proved.update(PROVED.findall(line))
                for name in [it for it in waits if waits[it] <= proved]:
                    below, target = waits.pop(name), TRIALS[name]
                    copy_to(f"{room}/{target}", [] if is_kept else below)
                    begun.append(Trial(target, f"{room}/{target}", ONE_JOB))
            status = ci.wait()
        if not status:
            # (of an rt that says otherwise what is proved, no line was understood)
            begun += [Trial(TRIALS[name], ".") for name in waits]
        for it in begun:
            status = it.end() or status
        return status or packages({name: f"{room}/{target}" if name not in waits else "." for name, target in TRIALS.items()})


if __name__ == "__main__":
    script.run(main)

"""Runs the tests of the libraries with one allocation refused after another, and judges how each run ends.

A test is run with the allocation N refused, once or from then on, for N = 1, 2, .. until a run meets none. It has to pass, or to end with a fault of memory that
it names (NAMED): never with another fault, a wrong answer, a signal or not at all. Needs rt, cc and binutils.
"""
import glob
import os
import re
import subprocess

from cases import HELD, Case, each
from checked import command, tests_of

# The crate, and its module whose tests are run so: others call nothing more, take too long, or have threads that wait for each other.
CRATE, MODULE = "tests_libraries", "memory"

# The faults that a test may end with where an allocation is refused.
NAMED = {"AllocError", "AllocFailed { .. }", "Memory", "Starved", "Store", "Seat", "Gather(Memory)", "Gather(Starved)"}
NAMED |= {'"a growth was refused"', '"a seat was refused"'}
ENDS = re.compile(r"error: (.*)\nthe test failed: its result gives status 1\n", re.S)

# After so many runs in a row that met no refusal all allocations were tried: threads make some in one run and not in another.
QUIET = 3

# At so many runs that are wrong a test is left.
MANY = 5

# A test's allocations are split into so many parts, which run side by side: one has the allocations 1, 5, 9 .., the next 2, 6, 10 ..
PARTS = 4

# Each allocation of a test is tried; where a test fills in many like pieces, the first 16 and then four in 16.
SPARED = {"memory::hashes::combined_of_a_source": 4}

# A test meets at least so many allocations: each worker makes some, and one that is left out makes none.
LEAST = {"memory::workers::sixteen_workers": 32}

# What the tests write, with the number of their process.
WRITTEN = "/tmp/bao_gather"


def is_right(status, said):
    """Whether a test passed, or named a fault of memory."""
    ended = ENDS.search(said)
    return status == 0 or status == 101 and ended is not None and ended.group(1) in NAMED


class Build(Case):
    def test_names(self):
        said = subprocess.run(command(CRATE, "--list"), capture_output=True, text=True, check=True).stdout
        built = [it for it in re.findall(r"^(\S+): test$", said, re.M) if it.startswith(f"{MODULE}::")]
        self.assertEqual(sorted(built), sorted(tests_of(CRATE, MODULE)), "the program has other tests than the sources")


@each((f"{name}, part {first}", name, first) for name in tests_of(CRATE, MODULE) for first in range(1, PARTS + 1))
class Refused(Case):
    def tried(self, name, first):
        self.met = f"{self.folder()}/met"
        status, said, _ = self.ran(name)
        self.holds(status == 0, f"{status} with all of its memory: {said[-900:]}")
        most = 0
        for on in ({}, {"ON": "1"}):
            number, quiet, bad = first, 0, status != 0
            while quiet < QUIET and bad < MANY:
                status, said, is_met = self.ran(name, AT=str(number), **on)
                quiet = 0 if is_met else quiet + 1
                most = max(most, number) if is_met else most
                bad += not self.holds(is_right(status, said), f"{status} with allocation {number}{' and all after it' if on else ''} refused: {said[-900:]}")
                number += PARTS * (SPARED.get(name, 1) if number > 12 else 1)
        least = LEAST.get(name, 0) - PARTS + 1
        self.assertGreaterEqual(most, least, f"the last allocation was {most}, before {least}")

    def ran(self, name, **settings):
        """Runs a test, and returns its status, what it printed, and whether a refusal was met."""
        if os.path.exists(self.met):
            os.remove(self.met)
        how = {"stdin": subprocess.DEVNULL, "stdout": subprocess.PIPE, "stderr": subprocess.STDOUT, "text": True, "errors": "replace"}
        with subprocess.Popen(command(CRATE, name), env={**settings, "MET": self.met}, **how) as ran:
            try:
                said, status = ran.communicate(timeout=HELD)[0], ran.returncode
            except subprocess.TimeoutExpired:
                ran.kill()
                said, status = "it hung", None
        for it in glob.glob(f"{WRITTEN}-{ran.pid}*"):
            os.remove(it)
        return status, said, os.path.exists(self.met)

"""Runs the tests that start threads again and again, several times as many at once as there are processors. This is not part of the gate.

Each crate of CRATES in the environment (tests_libraries and tests_program if left out) has been built by `rt test`. With CHECKED in the environment it is built
here, unproved and with checks of memory, which is slower (needs cc and binutils). TIMES is how often its tests are run (200). A run may be slow: it has no limit
but an hour.
"""
import os
import subprocess
import unittest

from cases import ROOT, Case, each
from checked import command, kit, tests_of

CRATES = os.environ.get("CRATES", "").split() or ["tests_libraries", "tests_program"]
TIMES, LANES = int(os.environ.get("TIMES", 200)), 3 * os.cpu_count()
SECONDS = 3600


def commands_of(crate):
    if "CHECKED" in os.environ:
        return [command(crate, it) for it in tests_of(crate)]
    return [[f"{kit()}/bin/rattle-test", "--seconds", str(SECONDS), f"out/{crate}_tests"]]


@unittest.skipUnless("STRESS" in os.environ, "make stress runs it")
@each((f"{crate}, part {part + 1}", crate, part) for crate in CRATES for part in range(LANES))
class Threads(Case):
    def tried(self, crate, part):
        for _ in range(part, TIMES, LANES):
            for words in commands_of(crate):
                how = {"stdin": subprocess.DEVNULL, "stdout": subprocess.PIPE, "stderr": subprocess.STDOUT, "text": True, "errors": "replace"}
                ran = subprocess.run(words, cwd=f"{ROOT}/crates/{crate}", timeout=SECONDS, **how)
                self.holds(ran.returncode == 0, ran.stdout)

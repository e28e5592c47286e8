"""Runs a program, and tells the most memory that it had at once: its own, and not that of the process that started it (scripts/peak.c)."""
import os
import subprocess
import time
from dataclasses import dataclass

HERE = os.path.dirname(os.path.abspath(__file__))


@dataclass(frozen=True)
class Ended:
    """How a run ended: its status, or minus the signal that ended it, what it printed, the most bytes of memory that it had at once, and its seconds."""

    status: int
    printed: bytes
    complaint: bytes
    peak: int
    seconds: float


class Launcher:
    """What starts programs, built in a folder. It needs cc."""

    def __init__(self, folder):
        self.program, self.told = f"{folder}/peak", f"{folder}/peak.told"
        subprocess.run(["cc", "-std=c11", "-O1", "-o", self.program, f"{HERE}/peak.c"], check=True)

    def run(self, words, seconds=0, room=0, files=0, stdin=subprocess.DEVNULL, **how):
        """Runs the words, with so many seconds, bytes of addresses and open files; 0 is no limit of its own."""
        limits = [str(it) for it in (seconds, room, files)]
        start = time.perf_counter()
        ran = subprocess.run([self.program, self.told, *limits, *words], stdin=stdin, capture_output=True, **how)
        seconds = time.perf_counter() - start
        if ran.returncode:
            raise OSError(f"{self.program} ended with status {ran.returncode}")
        with open(self.told, encoding="utf-8") as it:
            status, kib = map(int, it.read().split())
        return Ended(status, ran.stdout, ran.stderr, 1024 * kib, seconds)

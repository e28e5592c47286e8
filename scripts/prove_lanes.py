#!/usr/bin/env python3
"""Proves and builds the libraries below a crate, those that don't stand on each other side by side.

At the top of the repository. Each library is kept in its out/ as `rt check` and `rt run` keep it, so that these prove nothing
anew afterwards. Prints a line for each that had to be proved, with how many are ready. With RT_JOBS=N in the environment N are
proved at a time, by one job each; without it rt chooses.
"""
import copy
import os
import re
import sys
import tempfile
import threading

sys.dont_write_bytecode = True
import rt_module
import script


def main(name):
    rt = rt_module.load()
    rt.rtlib.guarded()
    crates = {it.name: it for it in rt.rtlib.crates_below(os.getcwd())}
    if name not in crates:
        sys.exit(f"prove_lanes: crates.txt names no crate {name}")
    below = crates[name].below()
    held = rt.rtlib.lock([*below, crates[name]])
    ready, printing = [], threading.Lock()

    def task(crate):
        def call(given, jobs):
            if not all(given[it.name, "proof"] for it in crate.below()):
                return False
            had, lone = crate.is_built(), copy.copy(crate)
            with tempfile.TemporaryFile("w+", errors="replace") as lone.out:
                os.makedirs(f"{crate.folder}/out", exist_ok=True)
                status = lone.build_rlib(["--jobs", str(jobs)], anew=False)
                lone.out.seek(0)
                said = lone.out.read()
            with printing:
                ready.append(crate.name)
                if status:
                    print(f"{said}{crate.name} is not proved", flush=True)
                elif not had:
                    found = re.findall(r"^logic=proved functions=(\d+)", said, re.M)
                    count = f", {found[-1]} functions" if found else ""
                    print(f"{len(ready)} of {len(below)}: {crate.name}{count} proved", flush=True)
            return not status

        return [(it.name, "proof") for it in crate.below()], crate.count(rb"\n"), rt.need(crate), call

    given = rt.in_lanes({(it.name, "proof"): task(it) for it in below})
    for it in held:
        os.close(it)
    return 0 if all(given.values()) else 1


if __name__ == "__main__":
    script.run(main)

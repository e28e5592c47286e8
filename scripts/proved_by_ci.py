#!/usr/bin/env python3
"""Has rt take the libraries below a crate as `rt ci` has just proved them.

At the top of the repository, after `rt ci`. That leaves in out/rlib what it proved, or what stood there before, without the stamp by which `rt lib`, `rt run`
and `rt check` know a library that is proved, so that these would prove all of them anew. This writes the stamps. Where rt keeps what it proved from run to run,
a library passes if it is what rt keeps of a proof of these sources over these libraries, or is put there from that. An rt that keeps nothing proves each
library anew in every run: there one passes that has its stamp already, or is newer than each of its sources. One that doesn't pass is named, and rt proves it
anew, with those above it.
"""
import json
import os
import sys

sys.dont_write_bytecode = True
import rt_module
import script


def is_kept(rt, kept, it):
    """Whether the library in out/ is what rt ci keeps of a proof of these sources."""
    try:
        with open(f"{kept.place(it, False, kept.key(it))}/made.json", encoding="utf-8") as made:
            return json.load(made)["files"] == [[file, rt.rtlib.sum_of(f"{it.folder}/out/{file}")] for file in kept.made(it, False)]
    except OSError:
        return False


def is_put(rt, kept, it):
    rt.clear(f"{it.folder}/out/rlib")
    return kept.give(it, False, kept.key(it))


def passes_as_kept(rt, kept, it):
    if not is_kept(rt, kept, it) and not is_put(rt, kept, it):
        return False
    kept.is_built(it)
    return True


def times(folder):
    for at, _, files in os.walk(folder):
        for file in files:
            yield os.stat(f"{at}/{file}").st_mtime


def passes_as_made(it):
    """Whether the library in out/ was made after the last change of its sources."""
    sources = [when for part in ("src", "specs", "proofs") for when in times(f"{it.folder}/{part}")]
    return it.is_built() or max(sources) < min(times(it.rlib), default=0)


def main(name):
    rt = rt_module.load()
    rt.rtlib.guarded()
    root = os.getcwd()
    keeps = hasattr(rt, "Kept")
    if keeps:
        rt.Crate.allowed = rt.handles_of(root)
    crates = {it.name: it for it in (rt.crates_of(root) if keeps else rt.rtlib.crates_below(root))}
    if name not in crates:
        return f"proved_by_ci: crates.txt names no crate {name}"
    below = sorted(crates[name].below(), key=lambda it: len(it.below()))
    held = rt.rtlib.lock(below)
    kept = rt.Kept(below) if keeps else None
    for it in below:
        if not (passes_as_kept(rt, kept, it) if keeps else passes_as_made(it)):
            print(f"proved_by_ci: there is no {it.name} that rt ci proved of these sources: rt proves it anew")
            break
        with open(f"{it.folder}/out/rlib/stamp", "w", encoding="utf-8") as stamp:
            stamp.write(it.stamp())
    for it in held:
        os.close(it)
    return 0


if __name__ == "__main__":
    script.run(main)

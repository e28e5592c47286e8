#!/usr/bin/env python3
"""Says which lemmas and definitions nothing cites.

At the top of the repository. It reads the files of crates/*/specs and crates/*/proofs, but for the answers of single functions, which
the prover asks for by name. A name counts as cited where it stands anywhere in a source, a specs or a proofs file beside its own
statement and equations. So does a lemma of a `module`, and a field of a record of proofs/. Of LAWS each
proves something of a definition for its reader, so nothing cites it.
Fails where a name isn't cited. It proves nothing and takes seconds.
"""
import collections
import glob
import re

import script

LAWS = {"crates/b3tree/proofs/Examples.antt", "crates/bao_text/proofs/Laws.antt"}
OF_FUNCTIONS = re.compile(r"/(?:Answers|Invariants|Proof)\.antt$")
COMMENT = re.compile(r"(?m)--.*$")
NAME = re.compile(r"[^\s(){}\[\],;.λ↦:=|`]+")
HEAD = r"(?:(?:pub|abbrev|opaque|unfoldable|data|record) )*"
STATED = re.compile(rf"(?m)^((?:  )?){HEAD}([^\s:(){{}},|=\[\]]+) (?:\{{[^}}\n]*\}} |\([^)\n]*\) )*:(?: |$)")


def stated(text, is_proof):
    """Returns the names that this file states, each with how often it begins a statement or an equation there."""
    # (what is indented is a lemma of a `module`, or a field: in specs/ fields say what they say, cited or not)
    names = {name for indent, name in STATED.findall(text) if name not in ("use", "module") and (is_proof or not indent)}
    return {it: len(re.findall(rf"(?m)^(?:  )?{HEAD}{re.escape(it)}(?=[\s:])(?=.*(?<=\s)[:=](?:\s|$))", text)) for it in sorted(names)}


def main():
    files = sorted(it for part in ("specs/**/*.antt", "proofs/**/*.antt", "src/**/*.rt") for it in glob.glob(f"crates/*/{part}", recursive=True))
    texts = {it: COMMENT.sub("", open(it, encoding="utf-8").read()) for it in files}
    counts = collections.Counter(name for it in texts.values() for name in NAME.findall(it))
    looked = [it for it in texts if it.endswith(".antt") and not OF_FUNCTIONS.search(it) and it not in LAWS]
    found = [f"{it}: nothing cites {name}" for it in looked for name, own in stated(texts[it], "/proofs/" in it).items() if counts[name] <= own]
    print("\n".join([*found, f"{len(looked)} files of definitions and lemmas, {len(found)} that nothing cites"]))
    return bool(found)


if __name__ == "__main__":
    script.run(main)

#!/usr/bin/env python3
"""Says which public functions have no law that their contract determines their answer, and no line that says why not.

At the top of the repository. A law is a public function of a crate determined_*: it asks a call twice of the same, and ensures that both answers are
equal. A function counts as asked where a law calls it; a method, where a law calls one of its name and names its type. One that changes nothing and has
a clause `result ≡ ..` needs no law: that clause says it. Any other without a law is named, with the reason, in the file no-law.txt beside the laws, in a line
`CRATE: FUNCTION, TYPE::METHOD: reason`.
Fails where a public function of a library has neither, or both, or where no-law.txt names one that isn't there.
--show prints the functions of each crate that have a law. It proves nothing and takes seconds.
"""
import glob
import os
import re
import sys

sys.dont_write_bytecode = True
import script
from project import Project, expanded, text_of

# The crates of laws, and of whose calls each has them. No crate can stand on a static library, so that it has its own; bao_plan's are of any list of its calls.
OF = {
    "determined_texts": ["b3word", "b3tree", "bao_text", "bao_check", "bao_bind"],
    "determined_stores": ["holders", "store_core", "store_steps", "store_shared", "gather"],
    "determined_program": ["b3par", "bao_windows", "bao_files", "bao_sums", "bao_decode", "bao_tasks", "bao_script", "bao_request", "bao_command"],
    "bao_plan": ["bao_plan"],
    "berylwool": ["berylwool"],
}
# Crates that nobody calls: laws, tests, programs.
ASIDE = re.compile(r"determined_|tests_|.*_scenarios$|examples$|bao_gather$")
# A call, with the type or module before it, or the dot.
CALL = re.compile(r"(?:\b(\w+)(?:::<[^>]*>)?::|(\.))?\b(\w+)(?:::<[^>]*>)?\(")
CLAUSE = re.compile(r"^    (?:requires|ensures)\b")
# A clause that says what the answer is, in every case.
SAID = re.compile(r"^\s*ensures(?: [\w-]+)? \{ result ≡ [^→⊎×]*\}$")
COMMENT = re.compile(r"//[^\n]*")


def crates_of():
    """Returns of each crate of crates.txt those of the repository that it stands on, in the order of that file."""
    named = [it.partition("#")[0].partition(":") for it in text_of("crates.txt").split("\n")]
    found = {name.split()[0]: uses.split() for name, colon, uses in named if colon}
    return {name: [it for it in uses if it in found] for name, uses in found.items()}


def root_of(crate):
    return COMMENT.sub("", text_of(f"crates/{crate}/src/lib.rt"))


def exported(crate):
    """Returns the names that a crate's root hands out, each with the first part of its path, and its public modules."""
    named = [it for use in re.findall(r"^pub use ([^;]*);", root_of(crate), re.M) for it in expanded(re.sub(r"\s+", " ", use))]
    return {name: path[0] for path, _, name in named} | {it: "" for it in re.findall(r"^pub mod (\w+)", root_of(crate), re.M)}


def is_empty(unit):
    """Whether a function has an empty body: then it answers nothing, and is a law itself."""
    return "".join(unit.body).strip().endswith("{}")


def is_said(unit):
    """Whether a clause says what the function answers, and it changes nothing."""
    return any(SAID.match(it) for it in unit.lines) and not any("&mut" in it or "*mut" in it for it in unit.lines)


def public_of(project, crate, with_laws=False):
    """Returns a crate's public functions, by name: those that its root hands out, and as TYPE::NAME the methods of types that it hands out."""
    out, found = exported(crate), {}
    for it in project.contracts.values():
        name = it.call.removeprefix(f"{crate}::")
        if name == it.call or not it.is_public or not with_laws and is_empty(it) or name.endswith("_determined"):
            continue
        is_whole = it.file.endswith("src/lib.rt") or os.path.basename(it.file).removesuffix(".rt") in out
        if is_whole or name.split("::")[0] in out or 'extern "C"' in "\n".join(it.lines):
            found[name] = it
    return found


class Law:
    """A law: of which crates it may be, and what it calls: functions, methods by name alone, and the words that it has."""

    def __init__(self, unit, of):
        body = COMMENT.sub("", "\n".join(unit.body))
        head = [it for it in unit.lines if not it.lstrip().startswith("//")]
        ends = next((at for at, line in enumerate(head) if CLAUSE.match(line)), len(head))
        # (without its clauses, whose words are no types)
        text = "\n".join([*head[:ends], body])
        calls = CALL.findall(body)
        self.unit, self.of, self.words = unit, of, set(re.findall(r"\w+", text))
        self.functions = {f"{of}::{name}" if of[:1].isupper() else name for of, dot, name in calls if not dot}
        # An iterator's `next` is called by a `for`.
        self.methods = {name for _, dot, name in calls if dot} | ({"next"} if re.search(r"^\s*for ", body, re.M) else set())

    def asks(self, function):
        of, _, name = function.rpartition("::")
        return function in self.functions or bool(of) and name in self.methods and of in self.words


def laws_of(project):
    """Returns the laws of each crate's calls."""
    found = {}
    for crate, may in OF.items():
        files = {it: text_of(it) for it in glob.glob(f"crates/{crate}/src/**/*.rt", recursive=True)}
        for it in project.promises:
            if it.file in files and it.is_public and it.call.count("::") == 1 and (crate not in may or it.name.endswith("_determined")):
                of = [one for one in may if one == crate or re.search(rf"\b{one}::", files[it.file])]
                for one in of:
                    found.setdefault(one, []).append(Law(it, of))
    return found


def excused():
    """Returns of each crate the functions that no law asks, with the reason."""
    found = {}
    for file in sorted(glob.glob("crates/*/no-law.txt")):
        for line in text_of(file).split("\n"):
            if line and not line.startswith("#"):
                crate, names, why = line.split(": ", 2)
                found.setdefault(crate, {}).update({it: why for it in names.split(", ")})
    return found


def look(crate, public, has, told):
    """Returns what is wrong with the laws of a crate."""
    wrong = [f"{it} has no law, and no no-law.txt says why" for it in public - has - told]
    wrong += [f"{it} has a law, and a no-law.txt says why not" for it in has & told]
    wrong += [f"a no-law.txt names {it}, which is no public function of it" for it in told - public]
    return [f"{crate}: {it}" for it in sorted(wrong)]


def main(*, show=False):
    project, crates, why = Project(), crates_of(), excused()
    laws, bad = laws_of(project), []
    for crate in sorted({it for it in crates if it.startswith("determined_")} ^ {it for it in OF if it.startswith("determined_")}):
        bad.append(f"{crate}: scripts/laws.py doesn't say of whose calls it has laws, or crates.txt doesn't list it")
    for crate in crates:
        if ASIDE.match(crate):
            continue
        functions = public_of(project, crate)
        public = set(functions)
        has = {it for it in public if any(law.asks(it) for law in laws.get(crate, [])) or is_said(functions[it]) and it not in why.get(crate, {})}
        bad += look(crate, public, has, set(why.pop(crate, {})))
        if show:
            print(f"{crate}: {len(has)} of {len(public)}: {' '.join(sorted(has))}")
    bad += [f"a no-law.txt names {crate}, which is no library" for crate in why]
    print("\n".join([*bad, f"laws: {len(bad)} public functions to look at"]))
    return 1 if bad else 0


if __name__ == "__main__":
    script.run(main)

"""The statuses of the program and of the C library, and the numbers of all faults: out of the types of faults, and of the header."""
import glob
import re

from page import Head, Page, Para, Table
from project import text_of
from sources import doc_of, first_sentence, place, stop

PROGRAM = "crates/bao_command/src/fault.rt"
HEADER = "c/berylwool.h"
# What the types have and the program doesn't print: clap refuses such a capacity, a failed read is told with its path, and a piece's memory is 401.
NEVER = ("802 capacity", "505 reader", "line N: 504 memory", "line N: 505 reader")
FAULT = re.compile(r"^pub (?:enum|struct) (\w+)(?:<[^>]*>)?[^\n]*?(?:\{\n(.*?)^\}|;)", re.M | re.S)
VARIANT = re.compile(r'((?:^ *///[^\n]*\n)+)(?:^ *#\[error\("((?:[^"\\]|\\.)*)"\)\]\n)?^ *(?:pub )?(\w+)(?:[({:]([^\n]*))?', re.M)
STATUS = re.compile(r"^ *(?:pub(?:\(crate\))? )?fn (\w*status)\((?:self|fault: (\w+)[^)]*)\) -> u8.*?^ *match \w+ \{\n(.*?)^ *\}$", re.M | re.S)
ARM = re.compile(r"((?:\s*\|?\s*\w+::\w+(?: \{[^}]*\}|\([^)]*\))?)+) => (\w+)")
BW = re.compile(r"^\s*(BW_\w+) = (\d+),?\s*(?:/\*+<? ?(.*?) ?\*/)?$", re.M | re.S)


class Fault:
    """A variant of a type of faults: what is printed of it, what its line says, and the type that it holds."""

    def __init__(self, name, text, words, holds, at):
        self.name, self.text, self.words, self.holds, self.at = name, text, words, holds, at


def faults():
    """Returns the variants of all types of faults, by their type."""
    found = {}
    for file in sorted(glob.glob("crates/*/src/**/*.rt", recursive=True)):
        text = text_of(file)
        if "#[error(" not in text and "Number " not in text:
            continue
        for it in FAULT.finditer(text):
            line = text[: it.start()].count("\n") + 1
            if it[2] is None or it[2].lstrip().startswith("pub "):
                above = text[: it.start()].split("\n")[-12:-1]
                while above and not above[0].startswith(("///", "#[")):
                    above.pop(0)
                error = re.search(r'#\[error\("(.*)"\)\]', "\n".join(above))
                found.setdefault(it[1], [Fault("", error[1] if error else "", " ".join(doc_of(above)), "", place(file, line))])
                continue
            for doc, error, name, holds in VARIANT.findall(it[2]):
                found.setdefault(it[1], []).append(Fault(name, error, " ".join(doc_of(doc.split("\n"))), holds, place(file, line)))
    return found


def arms():
    """Returns of each function that gives a status its type and what it says of each variant: a number, or another such function."""
    found = {}
    for name, of, body in STATUS.findall(text_of(PROGRAM)):
        told = {}
        for patterns, result in ARM.findall(body):
            for it in re.findall(r"(\w+)::(\w+)", patterns):
                told[it[1]] = result
                of = it[0]
        found[name] = (of, told)
    return found


def printed(known, name, told):
    """Returns rows of status, text and meaning of a function that gives a status."""
    of, says = told[name]
    for it in known[of]:
        result = says.get(it.name)
        if result is None:
            stop(f"{PROGRAM}: {name} says nothing of {of}::{it.name}")
        if not result.isdigit():
            inner = list(printed(known, result, told))
            before, _, after = re.sub(r"\{(?:0|fault)\}", "\0", it.text).replace("{line}", "N").partition("\0")
            yield from ((status, f"{before}{text}{after}", words) for status, text, words in inner)
        else:
            yield result, shown(it), it.words


def shown(fault):
    """Returns a fault's text, with the names of what stands in it."""
    # (a path, and numbers)
    text = fault.text.replace("{0}", "PATH" if "str" in fault.holds else "N")
    return re.sub(r"\{(\w+)\}", lambda it: {"at": "A", "line": "N", "number": "N"}.get(it[1], it[1].upper()), text)


def program(known):
    """Returns the rows of the program's statuses: status, what is printed, and when."""
    told, out = arms(), {}
    for status, text, words in printed(known, "status", told):
        if text in NEVER:
            continue
        said = re.sub(r" (?:Status|Number) \d.*", "", words).replace("`at`", "A")
        out.setdefault((status, f"bao_gather: {text}"), said)
    return sorted(((status, text, said) for (status, text), said in out.items()), key=lambda it: it[0])


def library():
    """Returns the rows of the C library's statuses: number, name and meaning."""
    rows = [(number, name, re.sub(r"\s*\n\s*\*?\s*", " ", said).rstrip(".") or "success") for name, number, said in BW.findall(text_of(HEADER))]
    if len(rows) != len(re.findall(r"^\s*BW_\w+ = \d+", text_of(HEADER), re.M)):
        stop(f"{HEADER}: not every status was read")
    return rows


def numbers(known):
    """Returns the rows of all numbers of faults: number, type and meaning."""
    rows = []
    for of, its in known.items():
        for it in its:
            number = re.search(r"\bNumber (\d+)\b", it.words)
            if number:
                rows.append((number[1], f"`{of}{'::' if it.name else ''}{it.name}`", first_sentence(re.sub(r" ?Number \d+.*", "", it.words)), it.at))
    return sorted(rows, key=lambda it: (int(it[0]), it[1]))


def page():
    known = faults()
    rows, codes, all_ = program(known), library(), numbers(known)
    if len(rows) < 20 or len(all_) < 20:
        stop("the types of faults were not read")
    blocks = [
        Head(2, "The program"),
        Para("`bao_gather` prints a fault as one line on standard error. A is an offset in bytes, N a number. What `clap` says of arguments that it doesn't know is status 2 too. 0 is success, help and the version."),
        Table(["status", "on standard error", "when"], [[status, f"`{text}`", first_sentence(said)] for status, text, said in rows]),
        Head(2, "The C library"),
        Table(["number", "name", "meaning"], [[number, f"`{name}`", said] for number, name, said in codes]),
        Head(2, "All faults by number"),
        Para("A fault of the libraries has one number wherever it comes up. Lines of the program and statuses of the C library have the same."),
        Table(["number", "type", "meaning", "where"], [list(it) for it in all_]),
    ]
    return Page("statuses", "Statuses and faults", blocks)

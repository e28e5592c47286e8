"""What the sources say in words: the comments of calls, files, definitions and crates."""
import glob
import os
import re
import sys

from project import comment_above, text_of

ITEM = re.compile(r'^(pub(?:\(crate\))? )?(?:(?:const|unsafe|final|extern "C") )*(fn|struct|enum|trait|const|type) (\w+)')


class Item:
    """A thing at the margin of a file: its name, its kind, its file, whether it is public, and what its comment says."""

    def __init__(self, head, file, said):
        self.name, self.kind, self.file, self.said = head[3], head[2], file, said
        self.is_public = head[1] == "pub "


def stop(why):
    sys.exit(f"make doc: {why}")


def paragraphs(lines):
    """Returns the paragraphs of comment lines without their marks. A list's item is one of its own."""
    found = [""]
    for line in lines:
        if not line.strip():
            found.append("")
        elif re.match(r"[-*] ", line):
            found.append(line.strip())
        else:
            found[-1] = f"{found[-1]} {line.strip()}".strip()
    # (links of Rust's documentation lead to names)
    return [re.sub(r"\[(`[^`]*`)\](?:\([^)]*\))?", r"\1", it) for it in found if it]


def doc_of(lines):
    """Returns the paragraphs of the `///` lines among these."""
    return paragraphs(it.strip()[3:].removeprefix(" ") for it in lines if it.strip().startswith("///"))


def first_sentence(text):
    return re.split(r"(?<=[.!?])\s+(?=[A-Z`(])", text)[0].rstrip(".") if text else ""


def said_of(unit):
    """Returns what the comment above a definition says."""
    if unit.file.endswith(".antt"):
        return " ".join(it.removeprefix("--").strip() for it in comment_above(unit) if it.startswith("--"))
    return " ".join(doc_of(comment_above(unit)))


def head_of_crate(crate):
    lines = text_of(f"crates/{crate}/src/{'lib' if os.path.isfile(f'crates/{crate}/src/lib.rt') else 'main'}.rt").split("\n")
    return paragraphs(it[3:].removeprefix(" ") for it in lines if it.startswith("//!"))


def head_of_file(file):
    """Returns what the comment at the head of a file says, if it has one that is not of its first item."""
    found = []
    for line in text_of(file).split("\n"):
        if not line.startswith("//") or line.startswith("///"):
            return " ".join(paragraphs(found)) if found and not line.strip() else ""
        found.append(line.lstrip("/!").removeprefix(" "))
    return ""


def items_of(crate):
    """Returns the things at the margin of a crate's files, in their order."""
    found = []
    for file in sorted(glob.glob(f"crates/{crate}/src/**/*.rt", recursive=True)):
        lines = text_of(file).split("\n")
        for at, line in enumerate(lines):
            head = ITEM.match(line)
            if head:
                first = at
                while first and lines[first - 1].startswith(("//", "#[")):
                    first -= 1
                found.append(Item(head, file, paragraphs(it.lstrip("/").strip() for it in lines[first:at] if it.startswith("//"))))
    return found


def place(file, line):
    """Returns a link to a line of a source file."""
    return f"[{file}:{line}](src:{file})"

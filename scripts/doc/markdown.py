"""A Markdown document as blocks: headings, paragraphs, lists, tables and code, and nothing else."""
import re

from page import Code, Head, Items, Para, Table
from project import text_of

HEAD = re.compile(r"(#+) (.*)")
ITEM = re.compile(r"\s*(?:[-*+]|\d+\.) +(.*)")


def cells_of(line):
    return [it.replace("\\|", "|").strip() for it in re.split(r"(?<!\\)\|", line.strip().strip("|"))]


def blocks_of(text):
    out, at, lines = [], 0, text.split("\n")

    def taken(while_):
        nonlocal at
        first = at
        while at < len(lines) and while_(lines[at]):
            at += 1
        return lines[first:at]

    while at < len(lines):
        line = lines[at]
        if not line.strip():
            at += 1
        elif HEAD.match(line):
            out.append(Head(len(HEAD.match(line)[1]), HEAD.match(line)[2]))
            at += 1
        elif line.startswith("```"):
            at += 1
            out.append(Code(taken(lambda it: not it.startswith("```"))))
            at += 1
        elif line.startswith("    "):
            out.append(Code([it[4:] for it in "\n".join(taken(lambda it: it.startswith("    ") or not it.strip())).rstrip().split("\n")]))
        elif line.startswith("|"):
            head, _, *rows = taken(lambda it: it.startswith("|"))
            out.append(Table(cells_of(head), [cells_of(it) for it in rows]))
        elif ITEM.match(line):
            texts = []
            for it in taken(lambda it: it.strip() and not it.startswith(("|", "#"))):
                if ITEM.match(it) and not it.startswith("   "):
                    texts.append(ITEM.match(it)[1])
                else:
                    texts[-1] += f" {it.strip()}"
            out.append(Items(texts))
        else:
            out.append(Para(" ".join(it.strip() for it in taken(lambda it: it.strip() and not it.startswith(("|", "#", "```")) and not ITEM.match(it)))))
    return out


def sections_of(file):
    """Returns the blocks of a document by the heading of level 2 that they stand under; those before the first are under ''."""
    found = {"": []}
    name = ""
    for it in blocks_of(text_of(file)):
        if isinstance(it, Head) and it.level == 2:
            name = it.text
            found[name] = []
        elif not isinstance(it, Head) or it.level > 2:
            found[name].append(it)
    return found

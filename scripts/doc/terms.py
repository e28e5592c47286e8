"""The definitions in words, a page for each crate: what the comment above each says, the definition itself, and who cites it."""
import os

from crates import anchor, links_of, term_name
from page import Code, Head, Page, Para, Terms
from project import behind, text_of
from sources import head_of_crate, said_of


def cited_by(project):
    """Returns of each definition, by identity, the units that cite it."""
    found = {}
    for it in project.all_units():
        for one in it.cites:
            found.setdefault(id(one), []).append(it)
    return found


def named(unit, calls):
    """Returns a link to what cites a definition, which is one of these calls, a function inside a crate, or another definition."""
    crate = unit.file.split("/")[1]
    if not unit.is_contract:
        return f"[{unit.name}]({term_name(unit)})"
    own = unit.call.removeprefix(f"{crate}::")
    return f"[`{unit.call}`](page:crates/{crate}#{own.replace('::', '-')})" if unit.call in calls else f"`{unit.call}`"


def blocks_of(unit, citing, calls):
    said = said_of(unit)
    out = [Para(said[:1].upper() + said[1:] + ("" if said.endswith((".", "!", "?")) else "."))] if said else []
    lines = [it for it in unit.lines if not it.lstrip().startswith("#[")]
    while lines and not lines[-1].strip():
        lines.pop()
    out.append(Code(lines, links_of(unit)))
    links = [named(it, calls) for it in citing]
    if links:
        out.append(Para(f"Cited by {', '.join(links[:12])}{f' and {len(links) - 12} more' if len(links) > 12 else ''}."))
    return out


def head_of_spec(file):
    """Returns what the comment at the head of a file of definitions says."""
    said = []
    for line in text_of(file).split("\n"):
        if not line.startswith("--"):
            break
        said.append(line.removeprefix("--").strip())
    return " ".join(said)


def pages(project, libraries):
    """Returns the pages of these crates, and how many definitions they have."""
    names = [it.name for it in libraries if it.has_definitions]
    shown = {it.name for it in libraries}
    calls = {call.unit.call for it in libraries for call in it.calls}
    citing = {it: [one for one in units if one.file.split("/")[1] in shown] for it, units in cited_by(project).items()}
    out, count = [], 0
    for crate in names:
        units = [it for it in project.all_units() if not it.is_contract and it.file.startswith(f"crates/{crate}/")]
        # Files in the order in which the crate's contracts need them, as a reader would go.
        order = {}
        for it in [*behind([it for it in project.promises if it.file.startswith(f"crates/{crate}/")]), *units]:
            if it.file.startswith(f"crates/{crate}/"):
                order.setdefault(it.file, len(order))
        blocks = [Para(it) for it in head_of_crate(crate)[:1]]
        blocks.append(Para(f"[Its calls](page:crates/{crate}) are promised in these words. The files come in the order in which the contracts need them."))
        for file in sorted({it.file for it in units}, key=order.get):
            here = [it for it in units if it.file == file]
            count += len(here)
            head = head_of_spec(file) if file.endswith(".antt") else ""
            title = file.removeprefix(f"crates/{crate}/")
            blocks += [Head(2, f"[{title}](src:{file})", os.path.basename(file)), *([Para(head)] if head else [])]
            blocks.append(Terms([(it.name, blocks_of(it, citing.get(id(it), []), calls), anchor(it)) for it in here]))
        out.append(Page(f"definitions/{crate}", f"Definitions of {crate}", blocks))
    return out, count

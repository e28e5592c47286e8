"""How much a reader has to believe: the statements that docs/ASSURANCE.md has one begin with, their definitions counted."""
import re

from page import Page, Para, Table
from project import behind, text_of
from sources import stop
from statement import counts

SOURCE = "docs/ASSURANCE.md"
# A statement is named in bold.
NAMED = re.compile(r"\*\*`(\w+::\w+)`\*\*")


def page(project):
    seen, rows = set(), []
    for call in NAMED.findall(text_of(SOURCE)):
        units = behind(project.calls(call))
        new = [it for it in units if id(it) not in seen]
        seen |= {id(it) for it in new}
        rows.append([f"`{call}`", *("{:,}".format(it) for both in (units, new) for it in counts(both)[:2])])
    if not rows:
        stop(f"{SOURCE} names no statement in bold")
    blocks = [
        Para(f"For each statement that [{SOURCE}](src:{SOURCE}) has you read, the definitions behind it and their lines without comments and blanks, as `make statement` counts them; and how many of these no earlier statement has."),
        Table(["statement", "definitions", "lines", "new definitions", "their lines"], rows),
    ]
    return Page("statements", "How much there is to believe", blocks)

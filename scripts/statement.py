#!/usr/bin/env python3
"""Prints what a contract says, with every definition behind it, and what cites a definition.

At the top of the repository. It proves nothing and takes seconds.

CALL is CRATE::FUNCTION, CRATE::TYPE::METHOD, CRATE::TYPE for all public methods of a type, CRATE for all public functions of a crate, or
CRATE::DEFINITION. Every definition that the contracts cite is printed, and those that these cite, and so on: what is cited before what cites it, each
with its file and lines, and the contracts last. A definition is one of specs/, or a type or trait of the code: a struct or enum with its fields, its
ghost fields and what its Model shows. Definitions of the kit's libraries are named at the end, and not printed. A definition's lines are counted
without comments and blanks. --count prints the count alone. --cites prints each contract, type and definition that cites CALL itself, a definition,
with file and line. It may be CRATE::NAME where several crates have one. Proofs aren't read: nobody has to believe one.
"""
import sys

sys.dont_write_bytecode = True
import script
from project import Project, behind, citing, comment_above


def counts(units):
    return len(units), sum(it.counted() for it in units), len({it.file for it in units})


def told(numbers):
    return "{:,} definitions, {:,} lines, {:,} files".format(*numbers)


def show(project, calls):
    roots = [it for call in calls for it in project.calls(call)]
    order = behind(roots)
    for number, it in enumerate(order, 1):
        print(f"{number}. {it.place()}")
        print("\n".join(f"    {line}" for line in [*comment_above(it), *it.lines]) + "\n")
    for it in roots:
        print(f"{'The contract' if it.is_contract else 'The definition'}: {it.place()}")
        print("\n".join(f"    {line}" for line in [*([] if it.is_contract else comment_above(it)), *it.lines]) + "\n")
    outside = {}
    for it in [*order, *roots]:
        for module, name in it.outside:
            outside.setdefault(module, set()).add(name)
    print("Of the kit's libraries:")
    for module, names in sorted(outside.items()):
        print(f"    {module}: {' '.join(sorted(names))}")
    print(f"\n{' '.join(calls)}: {told(counts(order))}")


def show_citing(project, name):
    named, found = citing(project, name)
    print(f"{named.place()}: {named.name}\n")
    for it in sorted(found, key=lambda it: (it.is_contract, it.file, it.first)):
        print(f"{it.file}:{it.first}: {'the contract of ' if it.is_contract else ''}{it.name}")
    print(f"\n{named.name}: cited by {sum(not it.is_contract for it in found)} definitions and {sum(it.is_contract for it in found)} contracts")


def main(call, *calls, count=False, cites=False):
    project, calls = Project(), (call, *calls)
    if cites:
        show_citing(project, call)
    elif count:
        for it in calls:
            print(f"{it}: {told(counts(behind(project.calls(it))))}")
    else:
        show(project, calls)


if __name__ == "__main__":
    script.run(main)

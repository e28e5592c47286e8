"""Makes the documents that can be made from the sources.

At the top of the repository. The folder out/doc is made anew. Each page is there twice, as HTML and as text; index leads to all. Below
share/ are the manual pages and the completions, as `make install` lays them. It needs neither rt nor anything that was built, and takes seconds.
Fails where a source can't be read as it should, where a public call has no `///` line, where a page has no content, and where a link leads nowhere.
"""
import os
import shutil
import sys

sys.dont_write_bytecode = True
sys.path.insert(1, os.path.dirname(os.path.dirname(os.path.abspath(__file__))))
import c_reference
import crates
import figures
import graph
import manual
import script
import statements
import statuses
import terms
from laws import ASIDE, crates_of
from page import Head, Items, Page, Para, Table, lost, to_text, write
from project import Project
from sources import first_sentence, head_of_crate, stop


def index(libraries, count):
    # (with the program, which nothing stands on, and without what only tests)
    drawn = {it: uses for it, uses in crates_of().items() if not ASIDE.match(it) or it == "bao_gather"}
    calls = sum(len(it.calls) for it in libraries)
    rows = [[f"[`{it.name}`](page:crates/{it.name})", first_sentence(it.words[0]), str(len(it.calls)), f"[definitions/{it.name}](page:definitions/{it.name})" if it.has_definitions else ""] for it in libraries]
    blocks = [
        Para("These pages are made from the sources by `make doc`, and not kept. Each is here as HTML and as text."),
        Items(
            [
                f"[promises](page:promises): the {calls} public calls, with the clauses of their contracts, their laws and their wrong bodies",
                "`crates/`, in the table below: what each library is, and what each of its calls promises, clause by clause",
                f"`definitions/`, there too: {count} definitions in words, each with its formal text and with what cites it",
                "[statements](page:statements): how many definitions are behind each statement that [ASSURANCE.md](src:docs/ASSURANCE.md) has you read",
                "[statuses](page:statuses): statuses and faults of the program and of the C library",
                "[c-reference](page:c-reference): the C library, function by function",
                "[figures](page:figures): what was measured",
                "`share/`: manual pages and completions, as `make install` lays them",
            ]
        ),
        Head(2, "The crates"),
        Table(["crate", "in one line", "calls", "definitions"], rows),
        Para("Beside these stand the program, laws, tests, scenarios, examples and times:"),
        Table(["crate", "in one line"], [[f"[`{it}`](src:crates/{it})", first_sentence(" ".join(head_of_crate(it)[:1]))] for it in crates_of() if ASIDE.match(it)]),
        Head(2, "Dependencies"),
        Para("A line leads from a crate down to one that it stands on. Those implied by a longer path are omitted."),
        graph.drawing(drawn, [it.name for it in libraries]),
    ]
    return Page("index", "Berylwool, made from the sources", blocks)


def main():
    folder, project = "out/doc", Project()
    libraries = crates.all_crates(project)
    plants = crates.plants()
    pages = [it.page(plants.get(it.name)) for it in libraries]
    words, count = terms.pages(project, libraries)
    pages += [crates.promises(libraries), *words, statements.page(project), statuses.page(), c_reference.page(), figures.page(), index(libraries, count)]
    made = manual.files(statuses.program(statuses.faults())) | c_reference.files()
    for it in lost(pages):
        stop(f"a link leads nowhere: {it}")
    for it in pages:
        if len(to_text(it.blocks)) < 200:
            stop(f"the page {it.name} has no content")
    shutil.rmtree(folder, ignore_errors=True)
    for it in pages:
        write(it, folder)
    for name, text in made.items():
        os.makedirs(os.path.dirname(f"{folder}/share/{name}"), exist_ok=True)
        with open(f"{folder}/share/{name}", "w", encoding="utf-8") as it:
            it.write(text)
    print(f"{folder}: {len(pages)} pages, {sum(len(it.calls) for it in libraries)} calls, {count} definitions, {len(made)} manual pages and completions")


if __name__ == "__main__":
    script.run(main)

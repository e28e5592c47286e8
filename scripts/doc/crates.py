"""A page for each library: what it is, its files and types, and what each call promises, with its law and its wrong bodies."""
import glob
import os
import re

import laws
from page import Code, Head, Items, Page, Para, Table, Terms
from project import text_of
from sources import doc_of, first_sentence, head_of_crate, head_of_file, items_of, place, stop

PUBLIC = re.compile(r'^ *pub (?:(?:const|unsafe|final|extern "C") )*fn (\w+)', re.M)
CLAUSE = re.compile(r"^\s*(requires|ensures\*?)(?: (\w+))? *\{")


def clauses_of(unit):
    """Returns the names of a contract's clauses; one without a name goes by its word."""
    return [name or word for word, name in (it.groups() for it in map(CLAUSE.match, unit.lines) if it)]


def term_name(unit):
    """Returns the page and the anchor of a definition."""
    crate = unit.file.split("/")[1]
    return f"page:definitions/{crate}#{anchor(unit)}"


def anchor(unit):
    return f"{os.path.basename(unit.file).split('.')[0]}-{unit.name}"


def links_of(unit):
    """Returns what the names that a contract or a definition cites lead to."""
    found = {it.name: term_name(it) for it in unit.cites if not it.is_contract}
    for name, (_, own) in getattr(unit.scope, "names", {}).items():
        if name != own and own in found:
            found[name] = found[own]
    return found


class Edit:
    """A wrong body: its file, the function that it changes, what it does to it, and whether the gate tries it."""

    def __init__(self, file):
        self.file, name = file, os.path.basename(file)
        self.function, self.what = name.removesuffix(".edit").split(".", 1)
        self.by_gate = "/must-fail/" in file
        self.source = f"{file.split('/', 2)[0]}/{file.split('/')[1]}/{re.search(r'^file: *(.+)$', text_of(file), re.M)[1].strip()}"

    def of(self, public):
        """Returns which of the public calls it is of: those of its name, where several have that, the ones in the file that it changes, or functions."""
        named = [it for it in public if it.split("::")[-1] == self.function]
        here = [it for it in named if public[it].file == self.source]
        return here or [it for it in named if it == self.function] or named

    def link(self):
        return f"[{self.what}](src:{self.file}){' (in the gate)' if self.by_gate else ''}"


class Call:
    """A public call: its contract, the laws that ask it or the reason why none does, and its wrong bodies."""

    def __init__(self, name, unit, asking, why, edits):
        self.name, self.unit, self.why, self.edits = name, unit, why, edits
        self.words = doc_of(unit.lines)
        # Those that are called by its name, where there are such.
        own = re.escape(name.split("::")[-1].removeprefix("bw_"))
        named = [it for it in asking if re.search(rf"(?:^|_){own}_(?:determined|alone|is_the_stores)$", it.unit.name)]
        self.laws = [it.unit for it in named or asking]

    def blocks(self):
        head = [it.strip() if it.strip().startswith("//") else it for it in self.unit.lines if not it.strip().startswith(("///", "#["))]
        indent = min((len(it) - len(it.lstrip()) for it in head if it.strip() and not it.startswith("//")), default=0)
        lines = [f"        {it}" if it.startswith("//") else it[indent:] for it in head]
        out = [*(Para(it) for it in self.words), Code("\n".join(lines).strip("\n").split("\n"), links_of(self.unit))]
        shown = self.laws[:6]
        if shown:
            rest = f" and {len(self.laws) - len(shown)} more" if len(self.laws) > len(shown) else ""
            out.append(Para(f"Law: {', '.join(f'[`{it.name}`](src:{it.file})' for it in shown)}{rest}"))
            out += [Para(f"`{it.name}`: {said}") for it in shown for said in [weakened(it)] if said]
        elif laws.is_empty(self.unit):
            out.append(Para("A law itself: nothing runs."))
        elif self.why:
            out.append(Para(f"No law: {self.why}."))
        if self.edits:
            out.append(Para(f"Wrong bodies that the prover refuses: {', '.join(it.link() for it in self.edits)}"))
        return out


def weakened(law):
    """Returns what the comment above a law says: to what it was weakened."""
    return " ".join(it.strip().lstrip("/").strip() for it in law.lines if it.startswith("//"))


def told(item):
    """Returns a thing's name with the first sentence of its comment, if it has one."""
    said = first_sentence(" ".join(item.said[:1]))
    return f"`{item.name}`{', ' if said else ''}{said[:1].lower()}{said[1:]}"


class Crate:
    """A library, as its page tells it."""

    def __init__(self, project, name, uses, users, asking, why):
        self.name, self.uses, self.users = name, uses, users
        self.words = head_of_crate(name)
        public = laws.public_of(project, name, with_laws=True)
        edits = [Edit(it) for it in sorted(glob.glob(f"crates/{name}/must-fail/*.edit") + glob.glob(f"crates/{name}/wrong-bodies/*.edit"))]
        self.calls = []
        for call, unit in sorted(public.items(), key=lambda it: (it[1].file, it[1].first)):
            mine = [it for it in edits if call in it.of(public)]
            self.calls.append(Call(call, unit, [it for it in asking if it.asks(call)], why.get(call, ""), mine))
        told = {it.file for call in self.calls for it in call.edits}
        self.inner = [it for it in edits if it.file not in told]
        self.items, self.defined = items_of(name), {own: it for (crate, own), it in project.types.items() if crate == name}
        self.has_definitions = any(not it.is_contract and it.file.startswith(f"crates/{name}/") for it in project.all_units())
        if not self.words or not self.calls:
            stop(f"crates/{name}/src/lib.rt has no //! lines, or hands out no call")
        for it in self.calls:
            if not it.words:
                stop(f"{it.unit.file}:{it.unit.first}: {it.name} has no /// line")

    def files(self):
        rows = []
        for file in sorted(glob.glob(f"crates/{self.name}/src/**/*.rt", recursive=True)):
            if file.endswith("/lib.rt"):
                continue
            here = [it for it in self.items if it.file == file]
            public, said = ", ".join(f"`{it.name}`" for it in here if it.is_public), head_of_file(file)
            if not said and not public:
                said = f"Inside the crate: {'; '.join(told(it) for it in here[:4])}{' ..' if len(here) > 4 else ''}"
            rows.append([f"[{file.split('/src/')[1]}](src:{file})", f"{said} {public}".strip()])
        return rows

    def types(self):
        out = laws.exported(self.name)
        named = lambda it: f"[`{it.name}`]({term_name(self.defined[it.name])})" if it.name in self.defined else f"`{it.name}`"
        return [[named(it), it.kind, first_sentence(" ".join(it.said[:1]))] for it in self.items if it.is_public and it.kind != "fn" and it.name in out]

    def page(self, plant):
        linked = lambda names: ", ".join(f"[`{it}`](page:crates/{it})" for it in sorted(names))
        blocks = [Para(it) for it in self.words]
        blocks.append(Para(f"Stands on {linked(self.uses) or 'no crate of this repository'}. {'Used by ' + linked(self.users) + '.' if self.users else ''}"))
        example = f"crates/examples/src/using_{self.name}.rt"
        if os.path.isfile(example):
            blocks.append(Para(f"Begin at [{example}](src:{example}), which calls it."))
        own = f", those of this crate on [definitions/{self.name}](page:definitions/{self.name})" if self.has_definitions else ""
        blocks.append(Para(f"Names in the contracts link to their definitions{own}. `make statement CALL={self.name}` prints both in reading order."))
        blocks += [Head(2, "Calls"), Terms([(f"`{it.name}` {place(it.unit.file, it.unit.first)}", it.blocks(), it.name.replace("::", "-")) for it in self.calls])]
        types = self.types()
        blocks += [Head(2, "Types and constants"), Table(["name", "kind", "what it is"], types)] if types else []
        files = self.files()
        blocks += [Head(2, "Files"), Table(["file", "what it has"], files)] if files else []
        if self.inner:
            names = {}
            for it in self.inner:
                names.setdefault(it.function, []).append(it)
            blocks += [Head(2, "Wrong bodies of functions inside the crate"), Items([f"`{name}`: {', '.join(it.link() for it in edits)}" for name, edits in names.items()])]
        if plant:
            blocks += [Head(2, "What rt plant found"), *plant]
        return Page(f"crates/{self.name}", self.name, blocks)


def plants():
    """Returns of each crate what `rt plant` came to."""
    found = {}
    for row in text_of("scripts/plant.tsv").rstrip("\n").split("\n")[1:]:
        name, functions, refused, passed, unrun, judged, _ = row.split("\t")
        said = f"`rt plant` changed the bodies of {functions} functions: {refused} changes were refused, {passed} let through, {unrun} not run."
        found[name] = [Para(f"{said} What was let through, as it was judged: {judged}.")]
    return found


def look(project):
    """Stops where a public function was not read."""
    read = {(it.file, it.name) for it in project.promises}
    for file in sorted(glob.glob("crates/*/src/**/*.rt", recursive=True)):
        for name in PUBLIC.findall(text_of(file)):
            if (file, name) not in read and not os.path.basename(file).startswith("tests"):
                stop(f"{file}: the contract of {name} was not read")


def all_crates(project):
    """Returns the libraries, in the order of crates.txt."""
    look(project)
    uses, why, asked = laws.crates_of(), laws.excused(), laws.laws_of(project)
    shown = [it for it in uses if not laws.ASIDE.match(it)]
    return [Crate(project, it, uses[it], [up for up in shown if it in uses[up]], asked.get(it, []), why.get(it, {})) for it in shown]


def promises(crates):
    """Returns the table of all promises."""
    blocks = [
        Para("Each row is a public call. The clauses of its contract, with their text, are where its name leads. That a call returns, without overflow and without an index out of range, is proved of every function and has no clause."),
        Para("The last column has the call's law, and behind it its wrong bodies. A law is a proved function that asks the call twice of the same and ensures that both answers are equal: no body with another answer keeps the contract. Where a law says nothing, wrong bodies that the prover refuses show that a clause is sharp."),
    ]
    for it in crates:
        rows = []
        for call in it.calls:
            law = ", ".join(f"`{one.name}`" for one in call.laws[:3]) + (" .." if len(call.laws) > 3 else "")
            law = law or ("a law itself" if laws.is_empty(call.unit) else "none, see there")
            name = f"[`{call.name}`](page:crates/{it.name}#{call.name.replace('::', '-')})"
            shown = "; ".join([law, *(one.what for one in call.edits)])
            rows.append([name, first_sentence(call.words[0]), ", ".join(clauses_of(call.unit)), shown])
        blocks += [Head(2, f"[{it.name}](page:crates/{it.name})", it.name), Table(["call", "what it does", "clauses", "law; wrong bodies"], rows)]
    return Page("promises", "What is promised: every public call", blocks)

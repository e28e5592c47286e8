"""What the proof of one function stands on, by the names that it cites: for wrong_bodies.py.

A function is proved from its own body, contract and proof files, and from the contracts, types, definitions and lemmas that
these name, and that those name in turn. The body and the stored proof of another function aren't among them. So a verdict
on one body stays what it was while none of these changes. Names are compared as words: where two things have one name, both
count. That is a rule of thumb, and no proof: a name that a part also binds, a field, a label, and a lemma that the prover
finds with nobody naming it aren't counted. `wrong_bodies.py --anew` tries all.
"""
import hashlib
import os
import re

WORD = re.compile(r"[^\W\d][\w'-]*")
# The parts of a proof file: a definition, a record or a data type, from its first line on.
ANTT = re.compile(r"(?:(?:abbrev|unfoldable|pub) )*(?:(?:record|data) ([^\s:(){}]+)|([^\s:(){}]+) :(?: |$))")
INDENTED = re.compile(r"\s+(?:pub )?([^\W\d][\w'-]*)")
RENAMED = re.compile(r"([^\W\d][\w'-]*(?:\.\{[^}]*\})?) as ([^\W\d][\w'-]*)")
IMPORT = re.compile(r"(?:ghost |pub(?:\([^)]*\))? )*(?:use|mod)\b")
# What a piece of Rattle outside functions is called.
NAMED = re.compile(r"\b(?:struct|enum|trait|const|static|type|union|macro_rules!)\s+(\w+)")
# A function's first line, with its indent and name.
HEAD = re.compile(r"( *)(?:pub(?:\([^)]*\))? )?((?:(?:const|unsafe|final|extern \"C\") )*)fn (\w+)")
BY_FUNCTION = ("Answers.antt", "Invariants.antt")
# What cites nothing: a contract's label, and what a part binds itself: a record's field, `(x y : T)`, `λ x y.`, `let x`, and what
# stands before a clause's `=`.
LABEL = re.compile(r"\b(ensures|requires) \w+ \{")
BINDERS = [re.compile(r"^\s+(?:pub )?([^\W\d][\w'-]*) :", re.M), re.compile(r"[({]((?:[^\W\d][\w'-]* )+): "), re.compile(r"λ ((?:[^\W\d][\w'-]* ?)+)\."), re.compile(r"\blet ([^\W\d][\w'-]*)")]
CLAUSE = re.compile(r"^\s*[^\W\d][\w'-]*((?: [^\W\d][\w'-]*)+) =", re.M)
# A word behind a point is a field, but where what is before the point stands for a module.
FIELD = re.compile(r"([^\W\d][\w'-]*|[)\]}])((?:\.[\w'-]+)+)")


class Function:
    """A function in the lines of a file: where it begins, where its body opens and ends, and what it is called."""

    def __init__(self, first, opens, ends, name):
        self.first, self.opens, self.ends, self.name = first, opens, ends, name


def functions_of(lines):
    """Returns the functions of a file that stand in no other, in order. One whose body can't be told, or that is const, is left out."""
    found, at = [], 0
    while at < len(lines):
        head = HEAD.match(lines[at])
        if head:
            indent, words, name = head.groups()
            opens = next((it for it in range(at, len(lines)) if re.fullmatch(indent + r"(\S.*)?\{\}?", lines[it])), len(lines))
            is_empty = lines[opens : opens + 1] and lines[opens].endswith("{}")
            ends = opens if is_empty else next((it for it in range(opens, len(lines)) if lines[it] == indent + "}"), len(lines))
            is_alone = not any(HEAD.match(it) for it in lines[at + 1 : opens + 1])
            first = at
            while first and lines[first - 1].startswith(indent + "#["):
                first -= 1
            if ends < len(lines) and is_alone and "const" not in words:
                found.append(Function(first, opens, ends, name))
                at = ends
        at += 1
    return found


class Grounds:
    """The parts of a crate, by the names that they give."""

    def __init__(self, folder, files, without_comments):
        """files are the crate's, its tests aside; without_comments(name, text) is a text without what changes no verdict."""
        # A part is (file, text); by a name it is the indices of parts. What a part cites is found when it is asked for.
        self.parts, self.cited, self.by_name, self.renamed = [], {}, {}, {}
        # What counts always; a function's whole text, by its file and first line; proof files, by their function's name.
        self.always, self.functions, self.proofs = [], {}, {}
        self.strip = without_comments
        for file in files:
            name = os.path.relpath(file, folder)
            with open(file, encoding="utf-8", newline="") as it:
                text = it.read()
            if name.endswith(".rt"):
                self.read_source(name, text)
            elif os.path.basename(name) in BY_FUNCTION:
                self.proofs.setdefault(name.split("/")[-2], []).append((name, self.without_imports(name, text)))
            elif name.endswith(".antt"):
                self.read_proofs(name, text)
            else:
                self.always.append((name, text))

    def add(self, names, file, text):
        """Takes a part in under these names."""
        if not names:
            self.always.append((file, text))
            return
        self.parts.append((file, text))
        for it in names:
            self.by_name.setdefault(it, []).append(len(self.parts) - 1)

    def cites(self, file, text):
        """Returns the words by which a part may cite another."""
        if not file.endswith(".antt"):
            return set(WORD.findall(LABEL.sub(r"\1 {", text)))
        text = FIELD.sub(lambda it: it[0] if it[1] in self.renamed else f"{it[1]} ", text)
        words = set(WORD.findall(text))
        for it in [*BINDERS, CLAUSE]:
            words -= {word for bound in it.findall(text) for word in bound.split()}
        return words

    def cited_by(self, part):
        """Returns what the part of this index cites."""
        if part not in self.cited:
            self.cited[part] = self.cites(*self.parts[part])
        return self.cited[part]

    def without_imports(self, file, text):
        """Returns a text without its comments and imports, and takes names in that those change."""
        kept = []
        for line in self.strip(file, text).split("\n"):
            if IMPORT.match(line):
                for was, now in RENAMED.findall(line):
                    self.renamed.setdefault(now, set()).update(WORD.findall(was))
            else:
                kept.append(line)
        return "\n".join(kept)

    def read_proofs(self, file, text):
        parts, names = [[]], [set()]
        for line in self.without_imports(file, text).split("\n"):
            head = ANTT.match(line)
            if head and (head[1] or head[2]) not in names[-1]:
                parts.append([])
                names.append({head[1] or head[2]})
            elif INDENTED.match(line) and names[-1] and parts[-1][0].split("(")[0].find("data ") >= 0:
                names[-1].add(INDENTED.match(line)[1])
            parts[-1].append(line)
        for name, lines in zip(names, parts):
            if name or any(it.strip() for it in lines):
                self.add(name, file, "\n".join(lines))

    def read_source(self, file, text):
        lines = text.split("\n")
        inside = {}
        for it in functions_of(lines):
            whole = self.strip(file, "\n".join(lines[it.first : it.ends + 1]))
            names = {HEAD.match(line)[3] for line in lines[it.first : it.ends + 1] if HEAD.match(line)}
            self.functions[file, it.first] = (it, names, whole)
            self.add({it.name}, file, self.strip(file, "\n".join(lines[it.first : it.opens + 1])))
            inside.update({at: it.name for at in range(it.first, it.ends + 1)})
        # What is left: a piece from a line at the margin to the next one.
        pieces = [[]]
        for at, line in enumerate(lines):
            if at in inside:
                continue
            if line[:1].strip() and line[0] not in "{})]" and not (pieces[-1] and pieces[-1][-1].startswith("#[")):
                pieces.append([])
            pieces[-1].append(line)
        for piece in pieces:
            text = self.without_imports(file, "\n".join(piece)).strip()
            if not text or IMPORT.match("\n".join(piece).strip()):
                self.without_imports(file, "\n".join(piece))
                continue
            head = next((it for it in text.split("\n") if not it.startswith("#")), "")
            if re.match(r"(?:unsafe )?impl\b", head):
                names = set(WORD.findall(head)) - {"impl", "for", "unsafe", "Drop", "Clone", "Copy", "Model", "From", "Display", "Error"}
            else:
                names = set(NAMED.findall(text))
                if re.match(r"(?:pub(?:\([^)]*\))? )?enum\b", head):
                    names |= {INDENTED.match(it)[1] for it in text.split("\n") if INDENTED.match(it)} - {"pub", "ghost"}
            self.add(names, file, text)

    def of(self, file, line):
        """Returns a sum of what the function with this line of this file stands on, or None where there is none."""
        found = [it for (name, _), it in self.functions.items() if name == file and it[0].first <= line <= it[0].ends]
        if not found:
            return None
        (function, names, whole), = found
        own = [(file, whole)] + [it for name in sorted(names) for it in self.proofs.get(name, [])]
        waiting = {it for part in own + self.always for it in self.cites(*part)}
        seen, chosen = set(), set()
        while waiting:
            word = waiting.pop()
            if word in seen:
                continue
            seen.add(word)
            waiting |= self.renamed.get(word, set()) - seen
            for it in self.by_name.get(word, []):
                if it not in chosen:
                    chosen.add(it)
                    waiting |= self.cited_by(it) - seen
        made = hashlib.sha256()
        for it in sorted(self.always + own) + sorted(self.parts[it] for it in chosen):
            made.update(repr(it).encode())
        return made.hexdigest()[:16]

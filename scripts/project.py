"""The definitions, types and contracts of the repository, and what cites what: for statement.py, laws.py and doc/.

It reads specs/ and src/ of each crate, tests aside, and no proof. It runs at the top of the repository and takes two seconds.
"""
import glob
import os
import re
import sys
from dataclasses import dataclass, field

NAME = r"[^\W\d][\w'-]*"
# A name with what is taken of it: only the first part is looked up.
PATH = re.compile(rf"(?<![\w'.-])({NAME})((?:\.[\w'-]+)*)")
SIGNATURE = re.compile(rf"(?:(?:abbrev|unfoldable|pub) )*(?:(record|data) ({NAME})|({NAME}) :(?: |$))")
IMPORT = re.compile(r"^\s*(?:ghost |pub )*use (\w+\.[^\s;{]+?)(?:\.\{([^}]*)\})?(?: as (\S+?))?;?$")
TYPE = re.compile(r"^(?:pub(?:\([^)]*\))? )?(struct|enum|trait) (\w+)")
MODEL = re.compile(r"^impl(?:<.*?>)? Model for (\w+)")
FUNCTION = re.compile(r'^( *)(pub(?:\([^)]*\))? )?(?:(?:const|unsafe|final|extern "C") )*fn (\w+)')
IMPL = re.compile(r"^impl(?:<.*?>)? (?:(\w+)(?:<.*>)? for )?&?(?:'\w+ )?(\w+)")
STRING = re.compile(r'"(?:\\.|[^"\\])*"')


def text_of(file):
    with open(file, encoding="utf-8") as it:
        return it.read()


@dataclass
class Unit:
    """A definition, a type or a contract: where it stands, and what it cites, in order."""

    file: str
    name: str
    first: int
    lines: list
    # Names that its file imports or has, by what they stand for.
    scope: object = None
    cites: list = field(default_factory=list)
    outside: set = field(default_factory=set)
    is_contract: bool = False
    is_public: bool = False
    # Of a contract: how it is called, CRATE::FUNCTION or CRATE::TYPE::FUNCTION, and the body's lines.
    call: str = ""
    body: list = field(default_factory=list)
    # Where its Model stands, of a type.
    model: str = ""

    def counted(self):
        return sum(1 for it in self.lines if it.strip() and not it.lstrip().startswith(("--", "//", "#[")))

    def place(self):
        last = self.first + len(self.lines) - 1
        return f"{self.file}:{self.first}-{last}" if not self.model else f"{self.file}:{self.first}, {self.model}"


class Project:
    """All definitions, types and contracts of the repository."""

    def __init__(self):
        # By (module, name), (crate, type) and 'crate::type::function'.
        self.definitions, self.types, self.contracts = {}, {}, {}
        # All contracts: of private functions two may have one name.
        self.promises = []
        # Which data type, or enum, has a constructor, by its module.
        self.constructors, self.exports, self.handed = {}, {}, {}
        self.crates = sorted(os.path.basename(it) for it in glob.glob("crates/*"))
        specs = sorted(glob.glob("crates/*/specs/**/*.antt", recursive=True))
        sources = sorted(it for it in glob.glob("crates/*/src/**/*.rt", recursive=True) if not os.path.basename(it).startswith("tests"))
        files = [Spec(self, it) for it in specs] + [Source(self, it) for it in sources]
        for it in files:
            it.link()

    def definition(self, module, name):
        """Returns the unit that this name of a module stands for: a definition, a data type by its constructor, or one that it hands on."""
        seen = set()
        while (module, name) not in seen:
            seen.add((module, name))
            found = self.definitions.get((module, name)) or self.constructors.get((module, name))
            if found:
                return found
            module, name = self.exports.get((module, name), (module, name))
        parts = module.split(".")
        if "declared" in parts:
            of = parts[parts.index("declared") + 1 :]
            named = [it for it in of if it[:1].isupper() and not re.fullmatch("The[A-Z][A-Za-z]*", it)]
            return self.type(parts[1], named[0]) if named else None
        return None

    def type(self, crate, name, seen=()):
        """Returns the type of this name that a crate has or hands on."""
        found = self.types.get((crate, name))
        if not found and (crate, name) in self.handed and crate not in seen:
            found = self.type(*self.handed[crate, name], (*seen, crate))
        return found

    def calls(self, call):
        """Returns the contracts that CALL names."""
        if call in self.contracts:
            return [self.contracts[call]]
        inside = [name for name, it in self.contracts.items() if name.startswith(call + "::") and it.is_public]
        crate, _, name = call.partition("::")
        asked = [self.contracts[name] for name in inside] or [it for it in self.definitions.values() if it.name == name and it.file.startswith(f"crates/{crate}/")]
        if not asked:
            sys.exit(f"statement: there is no call, type, definition or crate {call}")
        return asked

    def all_units(self):
        return [*self.definitions.values(), *self.types.values(), *self.promises]


def behind(roots):
    """Returns all units behind these, what is cited before what cites it."""
    order, seen = [], {id(it) for it in roots}

    def go(unit):
        for it in unit.cites:
            if id(it) not in seen:
                seen.add(id(it))
                go(it)
                order.append(it)

    for it in roots:
        go(it)
    return order


class Scope:
    """What names stand for in a file, or in a part of it."""

    def __init__(self, project, above=None):
        self.project, self.above, self.names, self.aliases = project, above, {}, {}

    def take(self, line):
        """Takes in an import, where the line is one."""
        found = IMPORT.match(line)
        if not found:
            return False
        module, names, alias = found.groups()
        if names is None:
            self.aliases[alias or module.split(".")[-1]] = module
        for it in re.split(r",\s*", names or ""):
            name, _, other = it.strip().partition(" as ")
            if name:
                self.names[other or name] = (module, name)
        return True

    def look(self, name, rest=""):
        """Returns the unit that a name stands for, or the module and name of one of the kit's, or None. With a module's name it is
        what is taken of that."""
        if name in self.names:
            module, other = self.names[name]
            return self.project.definition(module, other) or (module, other)
        if name in self.aliases:
            module, other = self.aliases[name], rest.split(".")[1] if rest else ""
            return self.project.definition(module, other) or (module, other)
        return self.above.look(name, rest) if self.above else None


def cite(unit, scope, text, bound=()):
    """Adds to the unit what a text cites, but for the names that are bound in it."""
    for name, rest in PATH.findall(text):
        if name in bound:
            continue
        found = scope.look(name, rest)
        if isinstance(found, Unit):
            if found is not unit and all(it is not found for it in unit.cites):
                unit.cites.append(found)
        elif found:
            unit.outside.add(found)


def bound_in(text):
    """Returns the names that a text of antt binds: by λ, by let, as a parameter, and as a record's field."""
    names = set()
    for it in re.findall(r"λ ([^.]*)\.", text):
        names |= set(re.findall(NAME, re.sub(r":[^)]*", "", it)))
    for it in re.findall(r"[({]([^(){}:;=,]*) :", text):
        names |= set(it.split())
    names |= set(re.findall(rf"\blet ({NAME})", text))
    names |= set(re.findall(rf"[{{;]\s*({NAME}) =", text))
    return names


class Spec:
    """A file of definitions."""

    def __init__(self, project, file):
        self.project, self.file = project, file
        parts = file.removesuffix(".antt").split("/")
        self.module = ".".join(["Rattle", parts[1], *parts[2:]])
        self.scope, self.units = Scope(project), []
        lines = text_of(file).split("\n")
        for number, line in enumerate(lines, 1):
            if not line.strip() or line.startswith("--"):
                continue
            if self.scope.take(line):
                if line.startswith("pub use"):
                    for name, it in self.scope.names.items():
                        project.exports.setdefault((self.module, name), it)
                continue
            head = SIGNATURE.match(line) if not line[0].isspace() else None
            if re.match(r"(?:pub )?mod ", line):
                continue
            if head:
                kind, of, name = head.groups()
                self.units.append((kind, Unit(file, of or name, number, [line], self.scope)))
            elif self.units:
                it = self.units[-1][1]
                it.lines += [*lines[it.first - 1 + len(it.lines) : number - 1], line]
            else:
                sys.exit(f"{file}:{number}: no definition")
        for kind, it in self.units:
            project.definitions[self.module, it.name] = it
            self.scope.names.setdefault(it.name, (self.module, it.name))
            if kind == "data":
                for line in it.lines[1:]:
                    made = re.match(rf" +(?:pub )?({NAME}) :", line)
                    if made:
                        project.constructors[self.module, made[1]] = it
                        self.scope.names.setdefault(made[1], (self.module, made[1]))

    def is_constructor(self, name):
        """Returns whether the name is a constructor here, and so binds nothing on the left."""
        module, other = self.scope.names.get(name, ("", ""))
        return "TheVariants" in module or (module, other) in self.project.constructors

    def link(self):
        for kind, it in self.units:
            # Each clause by itself, since each binds names of its own.
            parts = [[]]
            for line in it.lines:
                if line.startswith("--"):
                    continue
                if line and not line[0].isspace() and parts[0]:
                    parts.append([])
                parts[-1].append(line)
            for number, part in enumerate(parts):
                text = re.sub(r"^\s*unfolding .*$", "", STRING.sub("", "\n".join(part)), flags=re.M)
                bound = bound_in(text)
                if kind == "record":
                    bound |= set(re.findall(rf"^ +(?:pub )?({NAME}) :", text, re.M))
                elif kind == "data":
                    bound |= set(re.findall(rf"^ +(?:pub )?({NAME}) :", text, re.M))
                elif number:
                    left = text.split("=", 1)[0]
                    bound |= {name for name in re.findall(rf"(?<![\w.]){NAME}", left)[1:] if not self.is_constructor(name) and name not in self.scope.aliases}
                cite(it, self.scope, text, bound)


class Source:
    """A file of code: its types, and the contracts of its functions."""

    def __init__(self, project, file):
        self.project, self.file = project, file
        self.crate = file.split("/")[1]
        self.scope, self.found, self.rust = Scope(project), [], {}
        self.lines = text_of(file).split("\n")
        self.uses()
        number = 0
        while number < len(self.lines):
            number = self.block(number)

    def uses(self):
        """Takes in what the file uses of the repository's crates."""
        text = "\n".join(re.sub(r"//.*", "", it) for it in self.lines)
        for is_pub, it in re.findall(r"^\s*(pub )?use ([^;]*);", text, re.M):
            for path, name, as_name in expanded(re.sub(r"\s+", " ", it)):
                of = self.crate if path and path[0] in ("crate", "self", "super") else path[0] if path else ""
                if of in self.project.crates or of == self.crate:
                    self.rust[as_name] = (of, name)
                    if is_pub and self.file.endswith("/lib.rt") and of != self.crate:
                        self.project.handed[self.crate, as_name] = (of, name)

    def end_of(self, number, indent=""):
        """Returns the line after a block that begins at this one."""
        if self.lines[number].rstrip().endswith((";", "}")):
            return number + 1
        end = next((it for it in range(number + 1, len(self.lines)) if self.lines[it] in (indent + "}", indent + "})")), len(self.lines) - 1)
        return end + 1

    def block(self, number):
        """Takes in what begins at this line, and returns the line after it."""
        line = self.lines[number]
        if line.startswith("ghost use"):
            self.scope.take(line.rstrip())
            return number + 1
        if TYPE.match(line):
            kind, name = TYPE.match(line).groups()
            end = self.end_of(number)
            it = Unit(self.file, name, number + 1, self.lines[number:end], Scope(self.project, self.scope))
            self.project.types.setdefault((self.crate, name), it)
            self.found.append(it)
            self.rust.setdefault(name, (self.crate, name))
            return end
        if MODEL.match(line) and (self.crate, MODEL.match(line)[1]) in self.project.types:
            end = self.end_of(number)
            it = self.project.types[self.crate, MODEL.match(line)[1]]
            for one in self.lines[number:end]:
                it.scope.take(one)
            it.lines += ["", *[one for one in self.lines[number:end] if not IMPORT.match(one)]]
            it.model = f"{number + 1}-{end}"
            return end
        if FUNCTION.match(line):
            return self.function(number, "", self.scope)
        if IMPL.match(line) and line.rstrip().endswith("{"):
            trait, name = IMPL.match(line).groups()
            end = self.end_of(number)
            scope, at = Scope(self.project, self.scope), number + 1
            while at < end - 1:
                scope.take(self.lines[at])
                at = self.function(at, name, scope, trait) if FUNCTION.match(self.lines[at]) else at + 1
            return end
        return number + 1

    def function(self, number, of, scope, trait=None):
        """Takes in a function's contract, and returns the line after its body."""
        indent, public, name = FUNCTION.match(self.lines[number]).groups()
        # The body opens on a line of its own, or behind the head; a clause may end with a brace, too.
        opens, ends = number, re.compile(rf"{indent}(?:\{{\}}?|\S.* \{{\}}?)$|.*;$")
        while not ends.match(self.lines[opens]) and opens + 1 < len(self.lines):
            opens += 1
        head = self.lines[number : opens + (0 if self.lines[opens].strip() in ("{", "{}") else 1)]
        first = number
        while first and self.lines[first - 1].startswith((indent + "//", indent + "#[")):
            first -= 1
        it = Unit(self.file, name, first + 1, self.lines[first:number] + head, scope, is_contract=True)
        it.is_public = (public or "").strip() == "pub" and not trait
        it.call = "::".join([self.crate, *([of] if of else []), name])
        if it.is_public or it.call not in self.project.contracts:
            self.project.contracts[it.call] = it
        self.project.promises.append(it)
        self.found.append(it)
        end = self.end_of(opens, indent)
        it.body = self.lines[opens:end]
        return end

    def link(self):
        for it in self.found:
            text = "\n".join(re.sub(r"//.*", "", one) for one in it.lines if not one.lstrip().startswith("#["))
            # (a proof isn't read)
            text = re.sub(r"\bby \{[^}]*\}", "", STRING.sub("", text))
            for name in re.findall(rf"(?<![\w'.]){NAME}", text):
                found = self.project.type(*self.rust[name]) if name in self.rust else None
                if found and found is not it and all(one is not found for one in it.cites) and not it.scope.look(name):
                    it.cites.append(found)
            for clause in re.findall(r"\{(.*)\}|^(.*)$", text, re.M):
                clause = "".join(clause)
                cite(it, it.scope, clause, bound_in(clause) - set(self.rust))


def expanded(text):
    """Returns the names of a use of Rust: each with its path, and by which name it is used."""
    text = text.strip()
    if "{" not in text:
        path, _, alias = text.partition(" as ")
        parts = path.strip().split("::")
        return [(parts[:-1], parts[-1], alias.strip() or parts[-1])]
    before, _, rest = text.partition("{")
    depth, part, parts = 0, "", []
    for letter in rest.rsplit("}", 1)[0] + ",":
        depth += (letter == "{") - (letter == "}")
        if letter == "," and not depth:
            parts.append(part)
            part = ""
        else:
            part += letter
    above = [it for it in before.strip().split("::") if it]
    return [(above + path, name, alias) for it in parts if it.strip() for path, name, alias in expanded(it)]


def comment_above(unit):
    """Returns the comment lines right above a definition."""
    lines, at = text_of(unit.file).split("\n"), unit.first - 1
    first = at
    while first and lines[first - 1].startswith(("--", "//", "#[")):
        first -= 1
    return lines[first:at]


def citing(project, name):
    """Returns the units that cite a definition of this name themselves."""
    crate, _, own = name.rpartition("::")
    named = [it for it in project.all_units() if it.name == own and not it.is_contract and (not crate or it.file.startswith(f"crates/{crate}/"))]
    if not named:
        sys.exit(f"statement: there is no definition {name}")
    if len(named) > 1:
        sys.exit(f"statement: {name} may be {' or '.join(sorted(it.file.split('/')[1] + '::' + own for it in named))}")
    return named[0], [it for it in project.all_units() if any(one is named[0] for one in it.cites)]

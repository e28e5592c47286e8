#!/usr/bin/env python3
"""Writes a C file that compiles only if c/berylwool.h declares each export of crates/berylwool as its source has it.

usage: python3 scripts/header.py SOURCE_DIR ARCHIVE > tie.c

Each exported function gives a static assertion over the type that the header has for it, and each #[repr(C)] struct assertions over its
size and over the type and the place of each field. A handle is one struct there, and one for each kind in the header. What is a
reference to one thing has to be marked as never null, but an array, of which C says it by itself. Each status of status.rt has to be one of the header's numbers. The names that the
archive defines for others have to be those of the sources, and of c/strerror.c."""
import pathlib
import re
import subprocess
import sys

C = pathlib.Path(__file__).resolve().parent.parent / "c"
NUMBERS = {"u8": ("uint8_t", 1), "u32": ("uint32_t", 4), "u64": ("uint64_t", 8), "usize": ("size_t", 8)}
ARRAY = re.compile(r"\[(\w+); (\d+)\]")
STRUCT = re.compile(r"#\[repr\(C\)\](?:\s*#\[[^\]]*\])*\s*pub struct (\w+) \{(.*?)\n\}", re.S)
FIELD = re.compile(r"^\s*(?:pub )?(\w+): ([^,\n]+),", re.M)
EXPORT = re.compile(r'#\[unsafe\(no_mangle\)\]\s*pub extern "C" fn (\w+)\((.*?)\)(?: -> (\w+))?\s*(?=\n\s+(?:requires|ensures|ghost)|\{)', re.S)
MARKED = re.compile(r"^(?:BW_USE )?\w+ (bw_\w+)\([^;]*?\)(?: BW_NONNULL\(([\d, ]+)\))?;", re.M)
STATUS = re.compile(r"^pub\(crate\) const (\w+): u32 = (\d+);", re.M)
HANDLE = "BwHandle"
HANDLES = ("hasher", "feed", "outline", "seat", "plan")
REFERENCE = re.compile(r"&(mut )?(?:\[(\w+)(?:; (\d+))?\]|(\w+))")


def stop(text):
    sys.exit(f"header.py: {text}")


def c_struct(name):
    """BwMode as bw_mode."""
    return re.sub(r"(?<!^)([A-Z])", r"_\1", name).lower()


def parameter(kind, structs):
    """The C types of a parameter: none for the allocator, two for a slice."""
    if kind == "Global":
        return []
    if kind in NUMBERS:
        return [NUMBERS[kind][0]]
    if kind == f"*mut {HANDLE}":
        return ["void *"]
    found = REFERENCE.fullmatch(kind)
    if not found:
        stop(f"no C type is known for {kind}")
    is_mut, element, count, name = found.groups()
    target = element or name
    if target in structs:
        target = c_struct(target)
    elif target in NUMBERS:
        target = NUMBERS[target][0]
    else:
        stop(f"no C type is known for {kind}")
    pointer = f"{target} *" if is_mut else f"const {target} *"
    return [pointer, "size_t"] if element and not count else [pointer]


def handle(name, before):
    """The kind of a handle, which is one type in Rust: a parameter is named by it, or is another of the kind of the one before."""
    kind = before if name == "other" else name
    if kind not in HANDLES:
        stop(f"no handle is called {name}")
    return kind


def field(kind, laid):
    """The size, the alignment and the C type of a pointer to a field. `laid` has the sizes and alignments of structs."""
    if kind.startswith("*"):
        return 8, 8, "void **"
    if kind in laid:
        return *laid[kind], f"{c_struct(kind)} *"
    array = ARRAY.fullmatch(kind)
    one, count = (array[1], int(array[2])) if array else (kind, 1)
    if one not in NUMBERS:
        stop(f"no C type is known for {kind}")
    name, size = NUMBERS[one]
    return size * count, size, f"{name} (*)[{count}]" if array else f"{name} *"


def struct_lines(name, fields, laid):
    """The assertions for the struct that the header calls by this name, and its size and alignment."""
    lines, at, widest = [], 0, 1
    for field_name, kind in fields:
        if kind == "Global":  # it takes no bytes
            continue
        size, align, pointer = field(kind, laid)
        at = -(-at // align) * align
        place = f"{name}, {field_name}"
        lines.append(f'_Static_assert(offsetof({place}) == {at}, "{place}");')
        lines.append(f'_Static_assert(_Generic(&(({name} *)0)->{field_name}, {pointer}: 1, default: 0), "{place}");')
        at, widest = at + size, max(widest, align)
    size = -(-at // widest) * widest
    return [*lines, f'_Static_assert(sizeof({name}) == {size}, "{name}");'], (size, widest)


def function_line(name, parameters, result, structs, marked):
    """The assertion for a function. The parameters that the header marks have to be those that are references to one thing."""
    taken, wanted, before = [], [], None
    for it in re.split(r",\s*(?=\w+:|$)", parameters.strip()):
        if not it.strip():
            continue
        word, kind = (part.strip() for part in it.split(": ", 1))
        if kind == f"&mut {HANDLE}":
            before = handle(word, before)
            taken.append(f"bw_{before} *")
        else:
            taken += parameter(kind, structs)
        if REFERENCE.fullmatch(kind) and "[" not in kind:
            wanted.append(len(taken))
    if marked != wanted:
        stop(f"{name} has the references {wanted}, and the header marks {marked}")
    taken = ", ".join(taken) or "void"
    given = NUMBERS[result][0] if result else "void"
    return f'_Static_assert(_Generic(&{name}, {given} (*)({taken}): 1, default: 0), "{name}");'


def main(folder, archive):
    files = sorted(pathlib.Path(folder).glob("*.rt"))
    text = re.sub(r"^\s*//.*$", "", "\n".join(file.read_text() for file in files), flags=re.M)
    # A ghost field takes no bytes.
    structs = {name: [it for it in FIELD.findall(body) if not it[1].startswith("{")] for name, body in STRUCT.findall(text)}
    exports = EXPORT.findall(text)
    statuses = STATUS.findall(text)
    if len(exports) != text.count("no_mangle") or not structs or not statuses:
        stop("not every export was read")
    header = (C / "berylwool.h").read_text()
    known = set(re.findall(r"^    BW_\w+ = (\d+)\b", header, re.M))
    for name, number in statuses:
        if number not in known:
            stop(f"the header has no status {number}, {name}")
    marked = {name: [int(it) for it in numbers.split(", ")] if numbers else [] for name, numbers in MARKED.findall(header)}
    print('#include "berylwool.h"\n')
    laid = {}
    # (a struct within others has numbers alone)
    for name, fields in sorted(structs.items(), key=lambda it: any(kind in structs for _, kind in it[1])):
        for it in [f"bw_{kind}" for kind in HANDLES] if name == HANDLE else [c_struct(name)]:
            lines, laid[name] = struct_lines(it, fields, laid)
            print("\n".join(lines))
    for name, parameters, result in exports:
        print(function_line(name, parameters, result, structs, marked.get(name, [])))
    lines = subprocess.run(["nm", "-g", "--defined-only", archive], capture_output=True, text=True, check=True).stdout
    defined = {line.split()[-1] for line in lines.splitlines() if line.split()[1:2] == ["T"]}
    names = {it[0] for it in exports} | set(re.findall(r"^const char \*(bw_\w+)\(", (C / "strerror.c").read_text(), re.M))
    if names != defined:
        stop(f"only the sources export {sorted(names - defined)}, and only the archive {sorted(defined - names)}")


if __name__ == "__main__":
    if len(sys.argv) != 3:
        sys.exit(__doc__)
    main(*sys.argv[1:])

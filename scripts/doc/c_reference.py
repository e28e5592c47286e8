"""The reference of the C library, as a page and as manual pages: the comments and declarations of c/berylwool.h."""
import re

import manual
import roff
import statuses
from page import Code, Head, Items, Page, Para, Table
from project import text_of
from sources import stop
from statuses import HEADER

# A comment, a constant, a type, a function, or the list of statuses.
PART = re.compile(
    r"(?P<comment>/\*.*?\*/)|^(?P<constant>#define BW_(?!USE\b|NONNULL\b|AT_LEAST\b)\w+(?:[^\n]*\\\n)*[^\n]*)|^(?P<enum>enum \{.*?^\};)|^(?P<type>(?:typedef )?(?:struct|enum)\b.*?^\}[^;]*;|^typedef [^{;]*;)"
    r"|^(?P<function>(?:BW_USE )?(?:void |bw_status |uint32_t |uint64_t |const char \*)bw_\w+\(.*?\);)",
    re.S | re.M,
)
NAMED = re.compile(r"\b(bw_\w+)\(|^#define (\w+)|\} ?(\w+);|^typedef [^{]*?(\w+);", re.M)


def stripped(comment):
    """Returns the lines of a comment without its marks."""
    return [re.sub(r"^\s*\* ?", "", it).rstrip() for it in re.sub(r"^/\*+ ?|\s*\*/$", "", comment).split("\n")]


def said(comment):
    """Returns a comment as blocks: paragraphs, lists, and lines of code where they are indented by four."""
    out = []
    for line in stripped(comment):
        if not line.strip():
            out.append(None)
        elif line.startswith("    ") and not (out and isinstance(out[-1], (Para, Items))):
            out += [] if out and isinstance(out[-1], Code) else [Code([])]
            out[-1].lines.append(line[4:])
        elif re.match(r"\s{0,3}- ", line):
            out += [] if out and isinstance(out[-1], Items) else [Items([])]
            out[-1].texts.append(line.strip()[2:])
        elif out and isinstance(out[-1], Para):
            out[-1].text += f" {line.strip()}"
        elif out and isinstance(out[-1], Items) and line.startswith(" "):
            out[-1].texts[-1] += f" {line.strip()}"
        else:
            out.append(Para(line.strip()))
    return [it for it in out if it]


def declared(text):
    """Returns a declaration as a caller needs it."""
    text = re.sub(r"\s*BW_NONNULL\([^)]*\)", "", re.sub(r"BW_AT_LEAST\((\w+)\)", r"\1", text))
    mark = "BW_USE "
    return text.removeprefix(mark).replace("\n" + " " * len(mark), "\n") if text.startswith(mark) else text


def blocks_of(rest):
    """Returns the blocks of what stands behind the head of the header, and the functions in them."""
    out, functions, comment, code, end, before = [], [], None, [], 0, ""

    def put():
        nonlocal comment, code
        if code:
            names = dict.fromkeys(next(filter(None, it)) for it in NAMED.findall("\n".join(code)) if any(it))
            out.extend([Head(3, ", ".join(names), next(iter(names))), Code("\n".join(code).split("\n"))])
        out.extend(comment or [])
        comment, code = None, []

    for it in PART.finditer(rest):
        kind, text = it.lastgroup, it[0]
        # A comment is of all that stands right below it, and of all types up to the next.
        is_apart = "\n\n" in rest[end : it.start()] and (kind != "type" or before != "type")
        end, before = it.end(), kind
        if kind == "comment":
            put()
            # (what a compiler is asked to look at is no part of the interface)
            if rest[end:].lstrip().startswith("#if"):
                continue
            if re.match(r"/\*+ ?---", text):
                title, *more = said(re.sub(r" ?---", "", text, count=1))
                title, words = re.match(r"([^:,.]*)[:,.]? ?(.*)", title.text).groups()
                out += [Head(2, title), *([Para(words[:1].upper() + words[1:])] if words else []), *more]
            else:
                comment = said(text)
        elif kind == "enum":
            put()
            rows = [[f"`{name}` ({number})", words] for number, name, words in statuses.library()]
            out += [Head(2, "Statuses"), Table(["status", "meaning"], rows), Head(2, "Types")]
        else:
            if is_apart and code:
                put()
            functions += re.findall(r"\b(bw_\w+)\(", declared(text)) if kind == "function" else []
            code.append(declared(text))
    put()
    return out, functions


def read():
    """Returns the blocks of the whole reference, and the names of the functions."""
    head, rest = re.split(r"#ifndef BERYLWOOL_H\n", text_of(HEADER))
    blocks, functions = blocks_of(rest)
    wanted = set(re.findall(r"^(?:BW_USE )?(?:const )?\w+ \*?(bw_\w+)\(", rest, re.M))
    if set(functions) != wanted or not functions:
        stop(f"{HEADER}: not read: {', '.join(sorted(wanted ^ set(functions)))}")
    return said(head.strip()), blocks, functions


def page():
    about, blocks, _ = read()
    return Page("c-reference", "berylwool.h: the C reference", [*about, Head(2, "Constants"), *blocks])


def files():
    """Returns the manual pages, by their path below share/."""
    about, blocks, functions = read()
    summary = re.split(r"[.:](?: |$)", about[0].text)[0]
    top = [Head(2, "Name"), Para(f"berylwool - {summary[:1].lower()}{summary[1:]}"), Head(2, "Synopsis"), Code(["#include <berylwool.h>"]), Para("Link with -lberylwool.")]
    version = re.search(r"^Version: (.+)$", text_of("c/berylwool.pc.in"), re.M)[1]
    text = roff.page("berylwool", 3, manual.date(), f"berylwool {version}", [*top, Head(2, "Description"), *about, Head(2, "Constants"), *blocks])
    return {"man/man3/berylwool.3": text} | {f"man/man3/{it}.3": ".so man3/berylwool.3\n" for it in functions}

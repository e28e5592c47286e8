"""A page: one list of blocks, and from it HTML for a browser and text for a terminal.

Within a text `code` is code, **bold** is bold, *such* words are set off, and [words](target) is a link. A target page:NAME#ANCHOR is a page of this folder, src:FILE a file of the
repository, whose top is two folders above; any other is an address.
"""
import html
import os
import re
import textwrap
from dataclasses import dataclass, field

WIDTH = 100
INLINE = re.compile(r"(`+)(.+?)\1|\[((?:`[^`]*`|[^\]`])*)\]\(([^)\s]+)\)|\*\*(.+?)\*\*|(?<!\w)\*(?=\w)([^*]+)(?<=\w)\*(?!\w)")
STYLE = """body { max-width: 62rem; margin: 2rem auto; padding: 0 1rem; font: 16px/1.5 sans-serif; color: #222; background: #fff }
code, pre { font: 14px/1.4 monospace } pre { background: #f5f5f2; padding: .6rem .8rem; overflow-x: auto } table { border-collapse: collapse }
td, th { border-bottom: 1px solid #ddd; padding: .25rem .7rem .25rem 0; text-align: left; vertical-align: top } dt { margin-top: .8rem; font-weight: bold }
dd { margin-left: 1.5rem } a { color: #06c; text-decoration: none } nav { margin-bottom: 2rem } h2 { margin-top: 2.2rem } svg { max-width: 100%; height: auto }"""


@dataclass
class Head:
    level: int
    text: str
    anchor: str = ""


@dataclass
class Para:
    text: str


@dataclass
class Code:
    lines: list
    # What words of it lead to, by name.
    links: dict = field(default_factory=dict)


@dataclass
class Items:
    texts: list


@dataclass
class Terms:
    """Terms, each with the blocks that say what it is, and an anchor or ''."""

    rows: list


@dataclass
class Table:
    head: list
    rows: list


@dataclass
class Picture:
    svg: str
    # What it says, in lines.
    lines: list


@dataclass
class Page:
    # Where it lies in the folder, without its ending.
    name: str
    title: str
    blocks: list


def plain(text):
    """Returns a text as a terminal shows it."""
    return INLINE.sub(lambda it: plain(it[3]) if it[3] else it[5] or it[6] or f"`{it[2]}`", text)


def anchor_of(text):
    return re.sub(r"[^\w-]+", "-", plain(text).replace("`", "").lower()).strip("-")


def address(target, page):
    up = "../" * page.name.count("/")
    if target.startswith("src:"):
        return f"{up}../../{target[4:]}"
    if target.startswith("page:"):
        name, hash_, anchor = target[5:].partition("#")
        return f"{up}{name}.html{hash_}{anchor}"
    return target


def inline(text, page):
    """Returns a text as HTML."""
    out, at = [], 0
    for it in INLINE.finditer(text):
        out.append(html.escape(text[at : it.start()], quote=False))
        at = it.end()
        if it[2]:
            out.append(f"<code>{html.escape(it[2], quote=False)}</code>")
        elif it[4]:
            out.append(f'<a href="{html.escape(address(it[4], page))}">{inline(it[3], page)}</a>')
        else:
            out.append(f"<b>{inline(it[5], page)}</b>" if it[5] else f"<i>{inline(it[6], page)}</i>")
    return "".join([*out, html.escape(text[at:], quote=False)])


def code(block, page):
    text = html.escape("\n".join(block.lines), quote=False)
    if block.links:
        words = "|".join(re.escape(html.escape(it, quote=False)) for it in sorted(block.links, key=len, reverse=True))
        known = {html.escape(it, quote=False): target for it, target in block.links.items()}
        text = re.sub(rf"(?<![\w'.&-])(?:{words})(?![\w'-])", lambda it: f'<a href="{address(known[it[0]], page)}">{it[0]}</a>', text)
    return f"<pre>{text}</pre>"


def to_html(blocks, page):
    out = []
    for it in blocks:
        if isinstance(it, Head):
            out.append(f'<h{it.level} id="{it.anchor or anchor_of(it.text)}">{inline(it.text, page)}</h{it.level}>')
        elif isinstance(it, Para):
            out.append(f"<p>{inline(it.text, page)}</p>")
        elif isinstance(it, Code):
            out.append(code(it, page))
        elif isinstance(it, Items):
            out.append("<ul>" + "\n".join(f"<li>{inline(text, page)}</li>" for text in it.texts) + "</ul>")
        elif isinstance(it, Picture):
            out.append(it.svg)
        elif isinstance(it, Terms):
            rows = [f'<dt{f" id={anchor!r}" if anchor else ""}>{inline(term, page)}</dt><dd>{to_html(inside, page)}</dd>' for term, inside, anchor in it.rows]
            out.append("<dl>" + "\n".join(rows) + "</dl>")
        else:
            head = "".join(f"<th>{inline(cell, page)}</th>" for cell in it.head)
            rows = "\n".join("<tr>" + "".join(f"<td>{inline(cell, page)}</td>" for cell in row) + "</tr>" for row in it.rows)
            out.append(f"<table><tr>{head}</tr>\n{rows}</table>")
    return "\n".join(out)


def wrapped(text, indent):
    return textwrap.fill(plain(text), WIDTH, initial_indent=indent, subsequent_indent=indent, break_long_words=False, break_on_hyphens=False)


def widths_of(table, room):
    """Returns how wide each column is: as its longest cell, but for the widest, which share what room is left by how much they have. None is narrower
    than its longest word, up to a third of all."""
    columns = [[plain(cell) for cell in column] for column in zip(table.head, *table.rows)]
    wide = [max(map(len, it)) for it in columns]
    least = [min(room // 3, max(len(word) for cell in it for word in cell.split() or [""])) for it in columns]
    much = [sum(map(len, it)) / len(it) + 8 for it in columns]
    widths, left, room = {}, list(range(len(wide))), room - 2 * (len(wide) - 1)
    while left:
        free = room - sum(widths.values())
        share = {it: int(free * much[it] / sum(much[one] for one in left)) for it in left}
        tight = {it: least[it] for it in left if least[it] >= share[it]}
        widths |= tight or {it: wide[it] for it in left if wide[it] <= share[it]} or share
        left = [it for it in left if it not in widths]
    return [widths[it] for it in range(len(wide))]


def table_text(table, indent):
    widths = widths_of(table, WIDTH - len(indent))
    out = []
    for row in [table.head, ["-" * it for it in widths], *table.rows]:
        cells = [textwrap.wrap(plain(cell), width, break_on_hyphens=False) or [""] for cell, width in zip(row, widths)]
        for at in range(max(map(len, cells))):
            parts = [(cell[at] if at < len(cell) else "").ljust(width) for cell, width in zip(cells, widths)]
            out.append((indent + "  ".join(parts)).rstrip())
        out += [""] if any(len(cell) > 1 for cell in cells) else []
    return "\n".join(out).rstrip()


def to_text(blocks, indent=""):
    out = []
    for it in blocks:
        if isinstance(it, Head):
            text = plain(it.text)
            out.append(f"{text}\n{('=' if it.level == 1 else '-') * len(text)}" if it.level < 3 else text)
        elif isinstance(it, Para):
            out.append(wrapped(it.text, indent))
        elif isinstance(it, (Code, Picture)):
            out.append("\n".join(f"{indent}    {line}".rstrip() for line in it.lines))
        elif isinstance(it, Items):
            out.append("\n".join(f"{indent}- {wrapped(text, indent + '  ').lstrip()}" for text in it.texts))
        elif isinstance(it, Terms):
            out += [f"{indent}{plain(term)}\n{to_text(inside, indent + '    ')}" for term, inside, _ in it.rows]
        else:
            out.append(table_text(it, indent))
    return "\n\n".join(out)


def lost(pages):
    """Returns the links of pages that lead nowhere."""
    html_of = {it.name: to_html(it.blocks, it) for it in pages}
    anchors = {name: set(re.findall(r'\bid=["\']([^"\']*)', text)) for name, text in html_of.items()}
    found = []
    for it in pages:
        for target in sorted(set(re.findall(r'href="([^"]*)"', html_of[it.name]))):
            file, _, anchor = html.unescape(target).partition("#")
            if re.match(r"[a-z]+:", file):
                continue
            name = os.path.normpath(os.path.join(os.path.dirname(it.name), file))
            is_there = os.path.exists(name[6:]) if name.startswith("../../") else name[:-5] in anchors and (not anchor or anchor in anchors[name[:-5]])
            found += [] if is_there else [f"{it.name}: {target}"]
    return found


def write(page, folder):
    """Writes both forms of a page."""
    blocks = [Head(1, page.title), *page.blocks]
    up = "../" * page.name.count("/")
    back = "" if page.name == "index" else f'<nav><a href="{up}index.html">Berylwool, made from the sources</a></nav>\n'
    top = f'<!doctype html>\n<html lang="en"><head><meta charset="utf-8"><meta name="viewport" content="width=device-width">\n<title>{html.escape(plain(page.title))}</title>\n'
    for ending, text in ((".html", f"{top}<style>{STYLE}</style></head><body>\n{back}{to_html(blocks, page)}\n</body></html>"), (".txt", to_text(blocks))):
        file = f"{folder}/{page.name}{ending}"
        os.makedirs(os.path.dirname(file), exist_ok=True)
        with open(file, "w", encoding="utf-8") as it:
            it.write(text + "\n")

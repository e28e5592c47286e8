"""Blocks as a manual page."""
from page import Code, Head, Items, Para, Table, Terms, plain

# The columns that a line as it is may have.
WIDEST = 80 - 7


def escaped(text):
    text = plain(text).replace("`", "").replace("\\", "\\e").replace("-", "\\-").replace("'", "\\(aq")
    return f"\\&{text}" if text.startswith((".", "\\(aq")) else text


def broken(line):
    """Returns a line of a shell in several, where it is too wide."""
    if len(line) <= WIDEST:
        return [line]
    at = line.rfind(" ", 0, WIDEST - 2)
    return [f"{line[:at]} \\", *broken(f"      {line[at + 1 :]}")] if at > 6 else [line]


def lines_of(blocks):
    """Returns the lines of the blocks."""
    out = []
    for it in blocks:
        if isinstance(it, Head):
            out.append(f".SH {escaped(it.text).upper()}" if it.level < 3 else f".SS {escaped(it.text)}")
        elif isinstance(it, Para):
            out += [".PP", escaped(it.text)]
        elif isinstance(it, Code):
            out += [".PP", ".nf", *(f"\\&{escaped(line)}" for one in it.lines for line in broken(one)), ".fi"]
        elif isinstance(it, Items):
            for text in it.texts:
                out += [".IP \\(bu 2", escaped(text)]
        elif isinstance(it, Terms):
            for term, (first, *more), _ in it.rows:
                out += [".TP", f".B {escaped(term)}", escaped(first.text), *([".RS", *lines_of(more), ".RE"] if more else [])]
        elif isinstance(it, Table):
            for first, *rest in it.rows:
                said = [f"{head}: {cell}" if len(rest) > 1 else cell for head, cell in zip(it.head[1:], rest) if cell]
                out += [".TP", f".B {escaped(first)}", escaped("; ".join(said))]
    # (a heading begins a paragraph by itself)
    return [it for at, it in enumerate(out) if it != ".PP" or not out[at - 1].startswith((".SH", ".SS"))]


def page(name, section, date, source, blocks):
    return "\n".join([f'.TH {name.upper().replace("-", chr(92) + "-")} {section} "{date}" "{source}"', *lines_of(blocks)]) + "\n"

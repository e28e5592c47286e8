"""What was measured: the table and the plot of bench/history.tsv, beside what is wanted."""
import re

import wanted
from page import Head, Page, Para, Picture, Table
from sources import stop

STEP, LEFT, HIGH, ROOM = 56, 46, 110, 44


def table(rows):
    """Returns the table: each figure as it was measured last, and over all runs, with what is wanted."""
    out = []
    for name, goal in wanted.wanted_figures().items():
        measured = [(row["date"], row[name]) for row in rows if row.get(name)]
        if measured:
            ends = [end for _, cell in measured for end in wanted.ends_of(cell)]
            date, cell = measured[-1]
            out.append([name, cell, date, wanted.in_short(min(ends), max(ends)), goal, wanted.missed_by(name, goal, cell)])
        else:
            out.append([name, "", "", "", goal, "not measured yet"])
    return Table(["figure", "last", "on", "all runs", "wanted", "missed"], out)


def panel(rows, title, name, top, width):
    """Returns a panel of the plot: a bar or a point for each run that has the figure, and a line at what is wanted."""
    cells = [(number, wanted.ends_of(row[name])) for number, row in enumerate(rows) if row.get(name)]
    said = wanted.wanted_figures()[name]
    goal = float(re.search("[0-9.]+", said)[0])
    most = max([goal, *(end for _, ends in cells for end in ends)]) * 1.1
    at = lambda value: top + HIGH - value / most * HIGH
    out = [f'<text x="{LEFT}" y="{top - 8}" font-weight="bold">{title} (wanted: {said.split(":")[0]})</text>']
    out.append(f'<path d="M{LEFT} {top}V{top + HIGH}H{width - 20}" fill="none" stroke="black"/>')
    out += [f'<text x="{LEFT - 6}" y="{at(value) + 4:.1f}" text-anchor="end">{value:.2g}</text>' for value in (0, most / 1.1)]
    out.append(f'<path d="M{LEFT} {at(goal):.1f}H{width - 20}" stroke="firebrick" stroke-dasharray="4 3"/>')
    for number, (least, last) in cells:
        x = LEFT + STEP * number + STEP // 2
        bar = f'<path d="M{x} {at(least):.1f}V{at(last):.1f}" stroke="steelblue" stroke-width="7" stroke-linecap="round"/>'
        out.append(f'<circle cx="{x}" cy="{at(last):.1f}" r="3.5" fill="steelblue"/>' if least == last else bar)
        out.append(f'<text x="{x + 7}" y="{at(last) + 4:.1f}">{wanted.in_short(least, last).split(" to ")[-1]}</text>')
    return out


def plot(rows):
    shown = [row for row in rows if any(row.get(name) for _, name in wanted.PLOTTED)]
    width, height = LEFT + STEP * len(shown) + 20, (HIGH + ROOM) * len(wanted.PLOTTED) + 60
    out = [f'<svg xmlns="http://www.w3.org/2000/svg" viewBox="0 0 {width} {height}" width="{width}" font-family="sans-serif" font-size="11">']
    lines = []
    for at, (title, name) in enumerate(wanted.PLOTTED):
        out += panel(shown, title, name, at * (HIGH + ROOM) + 24, width)
        lines += [title, *(f"    {row['date']}  {row['build'][:9]:9}  {row['mib']:>4} MiB  {row[name]}" for row in shown if row.get(name)), ""]
    for number, row in enumerate(shown):
        x, y = LEFT + STEP * number + STEP // 2, (HIGH + ROOM) * len(wanted.PLOTTED)
        for below, text in ((0, row["date"][5:]), (14, row["build"][:9]), (28, f"{row['mib']} MiB")):
            out.append(f'<text x="{x}" y="{y + below}" text-anchor="middle">{text}</text>')
    return Picture("\n".join([*out, "</svg>"]), lines)


def page():
    rows = wanted.history()
    unknown = sorted({name for row in rows for name in row} - {*wanted.RUN, *wanted.wanted_figures(), *wanted.FORMER})
    if unknown or not rows:
        stop(f"bench/history.tsv has {'figures of which nothing is wanted: ' + ', '.join(unknown) if unknown else 'no rows'}")
    last = rows[-1]
    told = Table(["date", "commit", "machine", "build", "load", "MiB", "runs", "what"], [[row[it] for it in wanted.RUN] for row in reversed(rows)])
    blocks = [
        Para("`make bench` runs the programs in turns on a file of random bytes, and takes the least time of each. A figure is a ratio of two such times, a time or an amount of memory. Calls are measured through the C library; until 2026-11-30 most went through the Rust crates. Nothing here is proved, and a missed figure fails nothing."),
        Para(f"The last run was on {last['date']} on {last['machine']}, built for {last['build']}."),
        Head(2, "Figures"),
        table(rows),
        Head(2, "How some changed"),
        plot(rows),
        Head(2, "The runs"),
        told,
    ]
    return Page("figures", "What was measured", blocks)

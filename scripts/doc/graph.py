"""The dependencies among the libraries: a drawing, and the same in lines."""
from page import Picture

# The size of a box, the width that a line takes where it passes between boxes, and how far apart rows and columns are.
WIDE, HIGH, THIN, GAP, STEP = 104, 26, 8, 18, 58


def reach(name, edges):
    """Returns all crates to which the edges lead from this one."""
    found, todo = set(), [name]
    while todo:
        for it in edges[todo.pop()]:
            if it not in found:
                found.add(it)
                todo.append(it)
    return found


def shortened(uses):
    """Returns the dependencies without those that a longer path implies."""
    below = {name: reach(name, uses) for name in uses}
    return {name: [it for it in its if not any(it in below[other] for other in its if other != it)] for name, its in uses.items()}


def rows_of(edges):
    """Returns rows, the lowest first, and what each of their members is linked to in the next lower row. A crate is as high as the longest path below
    it. Where a line passes a row, a pair of crates stands for it."""
    height = {}
    for name in edges:
        height[name] = max((height[it] + 1 for it in edges[name]), default=0)
    rows, links = [[] for _ in range(max(height.values()) + 1)], {}
    for name in edges:
        rows[height[name]].append(name)
        for it in edges[name]:
            above = name
            for level in range(height[name] - 1, height[it], -1):
                rows[level].append((name, it))
                links.setdefault((above, level + 1), []).append((name, it))
                above = (name, it)
            links.setdefault((above, height[it] + 1), []).append(it)
    return rows, links


def ordered(rows, links):
    """Puts the members of each row in an order that crosses few lines: near the middle of what they are linked to, below and above in turn."""
    up = {}
    for (above, level), its in links.items():
        for it in its:
            up.setdefault((it, level - 1), []).append(above)
    for turn in range(12):
        near, step = (links, -1) if turn % 2 == 0 else (up, 1)
        for level in range(len(rows)) if step < 0 else reversed(range(len(rows))):
            if 0 <= level + step < len(rows):
                beside = rows[level + step]
                middle = lambda it: [(beside.index(one) + 0.5) / len(beside) for one in near.get((it, level), [])]
                at = {it: sum(middle(it)) / len(middle(it)) if middle(it) else (rows[level].index(it) + 0.5) / len(rows[level]) for it in rows[level]}
                rows[level].sort(key=at.get)
    return rows


def placed(rows):
    """Returns the middle of each member of each row, by itself and its row, and the width of all."""
    size = lambda it: WIDE if isinstance(it, str) else THIN
    full = [sum(map(size, row)) + GAP * (len(row) - 1) for row in rows]
    at = {}
    for level, row in enumerate(rows):
        x = (max(full) - full[level]) / 2 + GAP
        for it in row:
            at[it, level] = x + size(it) / 2
            x += size(it) + GAP
    return at, max(full) + 2 * GAP


def drawing(uses, pages):
    """Returns the drawing of these crates; those that have a page lead there."""
    edges = shortened(uses)
    rows, links = rows_of(edges)
    at, width = placed(ordered(rows, links))
    top = lambda level: (len(rows) - 1 - level) * STEP + GAP
    out = [f'<svg xmlns="http://www.w3.org/2000/svg" viewBox="0 0 {width:.0f} {top(-1):.0f}" width="{width:.0f}" font-family="sans-serif" font-size="12">']
    for (above, level), its in links.items():
        for it in its:
            x, y, to_x, to_y = at[above, level], top(level) + HIGH, at[it, level - 1], top(level - 1)
            bend = (y + to_y) / 2
            through = "" if isinstance(it, str) else f"V{to_y + HIGH}"
            out.append(f'<path d="M{x:.0f} {y}C{x:.0f} {bend:.0f} {to_x:.0f} {bend:.0f} {to_x:.0f} {to_y}{through}" fill="none" stroke="#789"/>')
    for (name, level), x in at.items():
        if isinstance(name, str):
            box = f'<rect x="{x - WIDE / 2:.0f}" y="{top(level)}" width="{WIDE}" height="{HIGH}" rx="4" fill="#eef3f8" stroke="#567"/>'
            box += f'<text x="{x:.0f}" y="{top(level) + 17}" text-anchor="middle" fill="#123">{name}</text>'
            out.append(f'<a href="crates/{name}.html">{box}</a>' if name in pages else box)
    names = [it for row in reversed(rows) for it in row if isinstance(it, str)]
    lines = [f"{name:{max(map(len, names))}}  {'on ' + ', '.join(edges[name]) if edges[name] else ''}".rstrip() for name in names]
    return Picture("\n".join([*out, "</svg>"]), lines)

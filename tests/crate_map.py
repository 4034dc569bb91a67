"""The map of the crates: docs/crates.svg, drawn from crates.txt.

    python3 -m tests.crate_map    draws it again, after a change of crates.txt

Each crate is below those that it needs, and has the colour of its family. An edge that others imply isn't drawn: if A
needs B and C, and B needs C, there is no line from A to C. Each edge is a line of the file, whose title names both
crates. tests/tools/test_docs.py compares the file with crates.txt."""
from functools import lru_cache
from html import escape
from pathlib import Path

TOP = Path(__file__).resolve().parent.parent
MAP = TOP / "docs/crates.svg"
COLOURS = {
    "machine": "#dbe8f8", "bytes": "#eceae4", "autocoder": "#e2f1d9", "room": "#fbe6c4", "console": "#fff3b8",
    "operate": "#f6d9e2", "serving": "#dff0f0", "job": "#e8dff5", "program": "#f2f2f2", "tests": "#ffffff",
}
# The family of each crate that doesn't have its name: those that a user of the library imports.
DOORS = {
    "bcd_1401": "machine", "core_1401": "machine", "fields_1401": "machine", "devices_1401": "machine",
    "cpu_1401": "machine", "autocoder_1401": "autocoder", "room_1401": "room", "console_1401": "console",
    "ibm1401": "program",
}
# In pixels: a letter, a box, what is between two of them, and from one row to the next.
LETTER, TALL, GAP, ROW = 6.7, 22, 16, 78


def crates():
    """The crates in the order of crates.txt, each with those of ours that it needs."""
    lines = (TOP / "crates.txt").read_text().splitlines()
    rows = [line.partition(":") for line in lines if line and not line.startswith("#")]
    known = {crate for crate, _, _ in rows}
    return {crate: [each for each in lower.split() if each in known] for crate, _, lower in rows}


def closure(needed):
    """All crates that each one needs, whether directly or not."""
    @lru_cache(None)
    def below(crate):
        return frozenset(needed[crate]).union(*(below(lower) for lower in needed[crate]))
    return {crate: below(crate) for crate in needed}


def edges(needed):
    """The edges that no others imply, as pairs: a crate, and what it needs."""
    below = closure(needed)
    return [(crate, lower) for crate, all_lower in needed.items() for lower in all_lower
            if not any(lower in below[other] for other in all_lower)]


def family_of(crate):
    """The family of a crate."""
    return DOORS.get(crate) or crate.partition("_")[0]


def rows_of(needed):
    """The row of each crate: the crates that need nothing are in row 0, any other is below all that it needs."""
    @lru_cache(None)
    def row(crate):
        return 1 + max((row(lower) for lower in needed[crate]), default=-1)
    return {crate: row(crate) for crate in needed}


class Layout:
    """Where each crate is, and each bend of an edge that crosses rows: a bend has both ends of the edge, and its row."""

    def __init__(self, needed):
        self.row, self.lines = rows_of(needed), edges(needed)
        self.ways = {}
        for crate, lower in self.lines:
            bends = [(crate, lower, row) for row in range(self.row[lower] + 1, self.row[crate])]
            self.ways[crate, lower] = [lower, *bends, crate]
        self.rows = [[] for _ in range(max(self.row.values()) + 1)]
        for crate, row in self.row.items():
            self.rows[row].append(crate)
        for way in self.ways.values():
            for bend in way[1:-1]:
                self.rows[bend[2]].append(bend)
        self.near = {}
        for way in self.ways.values():
            for upper, lower in zip(way, way[1:]):
                self.near.setdefault(upper, []).append(lower)
                self.near.setdefault(lower, []).append(upper)
        self.x = {}
        for row in self.rows:
            self.place(row, [100.0 * number for number in range(len(row))])
        for turn in range(60):
            for row in self.rows if turn % 2 == 0 else reversed(self.rows):
                self.settle(row)
        left = min(self.x[each] - wide(each) / 2 for each in self.x)
        self.x = {each: at - left + GAP for each, at in self.x.items()}

    def settle(self, row):
        """Puts what is in a row in the middle of what it is joined to, in that order."""
        wanted = {each: sum(self.x[other] for other in self.near.get(each, [each])) / len(self.near.get(each, [each]))
                  for each in row}
        row.sort(key=lambda each: (wanted[each], str(each)))
        self.place(row, [wanted[each] for each in row])

    def place(self, row, wanted):
        """Puts a row near the places that are wanted, in its order, with nothing over anything else."""
        groups = []
        for each, at in zip(row, wanted):
            groups.append([[each], wide(each), at])
            while len(groups) > 1 and groups[-2][2] + groups[-2][1] / 2 > groups[-1][2] - groups[-1][1] / 2:
                names, width, middle = groups.pop()
                before = groups[-1]
                whole = before[1] + width
                # The middle that is nearest to those of all parts, by how many they are.
                count = len(before[0]) + len(names)
                shifted = (before[2] + width / 2) * len(before[0]) + (middle - before[1] / 2) * len(names)
                groups[-1] = [before[0] + names, whole, shifted / count]
        for names, width, middle in groups:
            at = middle - width / 2
            for each in names:
                self.x[each] = at + wide(each) / 2
                at += wide(each)


def wide(each):
    """How wide a crate or a bend is, with the gap next to it."""
    return len(each) * LETTER + 12 + GAP if isinstance(each, str) else 9


def curve(points):
    """The text of a line through these points, straight down at each of them."""
    text = f"M{points[0][0]:.0f} {points[0][1]:.0f}"
    for (x, y), (to, down) in zip(points, points[1:]):
        half = (y + down) / 2
        text += f" C{x:.0f} {half:.0f} {to:.0f} {half:.0f} {to:.0f} {down:.0f}"
    return text


def drawn(needed):
    """The text of the map."""
    layout = Layout(needed)
    width = max(layout.x[each] + wide(each) / 2 for each in layout.x)
    height = ROW * len(layout.rows)
    high = {crate: 20 + ROW * row for crate, row in layout.row.items()}
    text = [f'<svg xmlns="http://www.w3.org/2000/svg" viewBox="0 0 {width:.0f} {height}" '
            'font-family="monospace" font-size="11">',
            '<rect width="100%" height="100%" fill="#ffffff"/>']
    for crate, lower in layout.lines:
        way = layout.ways[crate, lower]
        points = [(layout.x[lower], high[lower] + TALL)]
        for bend in way[1:-1]:
            points += [(layout.x[bend], 20 + ROW * bend[2]), (layout.x[bend], 20 + ROW * bend[2] + TALL)]
        points.append((layout.x[crate], high[crate]))
        text.append(f'<path d="{curve(points)}" fill="none" stroke="#888888" stroke-width="0.8">'
                    f"<title>{escape(crate)} needs {escape(lower)}</title></path>")
    for crate in needed:
        box = wide(crate) - GAP
        text.append(f'<rect x="{layout.x[crate] - box / 2:.0f}" y="{high[crate]}" width="{box:.0f}" height="{TALL}" '
                    f'rx="3" fill="{COLOURS[family_of(crate)]}" stroke="#555555" stroke-width="0.8"/>')
        middle = f'x="{layout.x[crate]:.0f}" y="{high[crate] + 15}" text-anchor="middle"'
        text.append(f"<text {middle}>{escape(crate)}</text>")
    return "\n".join([*text, "</svg>", ""])


if __name__ == "__main__":
    MAP.write_text(drawn(crates()))

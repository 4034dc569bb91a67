"""The ruler of speed: the rows of benches/README.md that say how many host instructions one instruction takes."""
import re
import statistics
from pathlib import Path

from bench import digits

README = Path(__file__).resolve().parent / "README.md"
# How far a count may be from its row, as a part of the row. It is the same on every host, but for the C library's own.
WITHIN = 0.02
RUN = "speed --count"
RENEWED_BY = "benches/speed --renew"
# A row: what it is, ours, the peer's, the ratio, and when it was counted.
ROW = re.compile(rf"^\| {RUN} \| (.*), host instructions for each \| (.*) \| (.*) \| (.*) \| (.*) \|$", re.MULTILINE)
BLOCK = re.compile(rf"(?:^\| {RUN} \| .*\n)+", re.MULTILINE)


def number(cell):
    """The figure of a cell, or None for an empty one."""
    return float(cell.replace(",", "")) if cell else None


def rows_in(page):
    """What the rows of a page say: ours and the peer's, by workload."""
    return {name: (number(ours), number(theirs)) for name, ours, theirs, _, _ in ROW.findall(page)}


def differs(name, count, page):
    """Why this count of a workload isn't that of its row, or nothing."""
    ours = rows_in(page).get(name, (None, None))[0]
    if ours is None:
        return f"benches/README.md has no row for it; {RENEWED_BY} writes one"
    if abs(count - ours) <= WITHIN * ours:
        return ""
    return (f"{digits(ours)} in benches/README.md, {100 * (count / ours - 1):+.1f} percent; if a change of the program "
            f"means to do that, {RENEWED_BY} renews the rows")


def renewed(page, counts, basic, mean, when):
    """A page with these counts as its rows. A row keeps the peer's count; the mean is that of the basic workloads."""
    theirs, lines, ratios = rows_in(page), [], []
    for name, ours in counts.items():
        peer = theirs.get(name, (None, None))[1]
        if peer and name in basic:
            ratios.append(peer / ours)
        cells = [digits(ours), digits(peer), f"{peer / ours:.2f}"] if peer else [digits(ours), "", ""]
        lines.append(" | ".join([f"| {RUN}", f"{name}, host instructions for each", *cells, when]))
    lines.append(" | ".join([f"| {RUN}", mean, digits(statistics.geometric_mean(ratios)), "", "", when]))
    block = "".join(f"{line} |\n" for line in lines)
    if len(BLOCK.findall(page)) != 1:
        raise ValueError(f"benches/README.md has no table with rows of {RUN} in one place")
    return BLOCK.sub(lambda _: block, page)

"""Counts what makes the proofs of each crate heavy, and holds each crate below its ceilings.

    python3 -m tests.counts            prints the table, and what is above its ceiling
    python3 -m tests.counts --renew    lowers the ceilings to what is counted, and gives a new crate its own

The ceilings are in tests/counts.txt, a line for each crate and one for all: functions, early exits (`?`), closures and
clauses (`ensures` and `requires`). They only go down. A new crate gets a line while all crates together stay below
theirs, so what moves from one crate to a new one is free, and what comes on top is paid for by less elsewhere.
tests/proof_weight.py measures what this counts; docs/CONTRIBUTING.md says what each costs."""
import re
import sys
from pathlib import Path

TOP = Path(__file__).resolve().parent.parent
CEILINGS = TOP / "tests/counts.txt"

# What a line of code has of each kind. Comments and what is in quotation marks don't count.
KINDS = {
    "functions": re.compile(r"^\s*(?:(?:pub(?:\([a-z]+\))?|const|unsafe) )*fn "),
    "early exits": re.compile(r"\?(?!\w)"),
    "closures": re.compile(r"[(,=] ?(?:move )?\|[^|]*\| "),
    "clauses": re.compile(r"^\s*(?:ensures|requires)\b"),
}
# How many there may be at the end of the way that CONTRIBUTING describes.
TARGETS = {"crates": 46, "functions": 3000}
ALL = "all"
# A text in quotation marks may have several lines.
QUOTED = re.compile(r"""//[^\n]*|\bb?r(#*)".*?"\1|b?"(?:[^"\\]|\\.)*"|b?'(?:[^'\\]|\\.)'""", re.DOTALL)


def count_in(text):
    """How many of each kind a source has."""
    lines = QUOTED.sub('""', text).splitlines()
    return {kind: sum(len(form.findall(line)) for line in lines) for kind, form in KINDS.items()}


def total(rows):
    """The sums of these rows, and how many they are."""
    rows = list(rows)
    return {"crates": len(rows), **{kind: sum(row[kind] for row in rows) for kind in KINDS}}


def counts(folder=TOP / "crates"):
    """How many of each kind each crate has, and all of them together."""
    rows = {}
    for crate in sorted(each for each in folder.iterdir() if (each / "src").is_dir()):
        rows[crate.name] = count_in("\n".join(each.read_text() for each in sorted((crate / "src").rglob("*.rt"))))
    return {**rows, ALL: total(rows.values())}


def line_of(name, row):
    """A row of the table, as `name: 12 functions, 3 early exits`."""
    return f"{name}: " + ", ".join(f"{number} {kind}" for kind, number in row.items())


def ceilings(text):
    """The rows of the table."""
    rows = {}
    for line in text.splitlines():
        name, _, said = line.partition(": ")
        rows[name] = {kind: int(number) for number, _, kind in (each.partition(" ") for each in said.split(", "))}
    return rows


def above(now, most):
    """What is above its ceiling, a line each. A crate without a line has none of anything."""
    return [f"{name} has {number} {kind}, and {most.get(name, {}).get(kind, 0)} is the ceiling"
            for name, row in now.items() for kind, number in row.items() if number > most.get(name, {}).get(kind, 0)]


def lowered(now, most):
    """The ceilings after these counts: no crate's gets higher, a new crate gets what it has if all together have no
    more than before, and a crate that is gone has none."""
    fits = not above({ALL: now[ALL]}, most)
    return {name: {kind: min(number, most[name][kind]) for kind, number in row.items()} if name in most else row
            for name, row in now.items() if name in most or fits}


def main(given=()):
    """Does what these words ask for; the status is 0 if nothing is above its ceiling."""
    now = counts()
    most = ceilings(CEILINGS.read_text()) if CEILINGS.exists() else now
    if list(given) == ["--renew"]:
        most = lowered(now, most)
        CEILINGS.write_text("".join(line_of(name, row) + "\n" for name, row in most.items()))
    for name, row in now.items():
        print(line_of(name, row))
    over = above(now, most)
    for line in over:
        print(f"FAILED  {line}")
    print("targets: " + ", ".join(f"{number} {kind}" for kind, number in TARGETS.items()))
    return 1 if over else 0


if __name__ == "__main__":
    sys.exit(main(sys.argv[1:]))

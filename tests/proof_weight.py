"""What the proof of each function of a crate weighs, by the sizes of what a check leaves in its folder. They are the
same on every machine: two commits can be compared, and no quiet hour is needed.

    python3 -m tests.proof_weight [--top N | --csv | --total] [--in FOLDER] CRATE ..

Run `rt check` in the crate first, from nothing (remove its out/incremental), or the sizes include what is gone. CRATE
is the crate's folder, or its name at the top of the repository. --in reads another folder of such modules. --top prints
the N heaviest functions alone, --csv all of them as lines with commas, --total a line for each crate. The columns:

  steps   how many steps the function has, and MB of its module `Lts`, which has them
  goals   how many goals it leaves, and MB of its module `Proof`, which answers them
  rest    MB of all its other modules
  weight  seconds on a quiet processor, estimated: 0.65 for each MB of steps, 2.5 of goals, 0.5 of the rest

The last lines have the totals: of functions, of derived impls and closures among them, and of the crate. A crate takes
the gate its weight, half a second for each crate below it, and ten seconds. docs/CONTRIBUTING.md has what was measured."""
import argparse
import collections
import os
import re
import sys

# the modules that are made of each function; any other below a function's name belongs to another one
PARTS = "Answers Code Given Goals Invariants Key Kinds Layout Lts Met Mir Named Proof Reads Statement Symbol".split()
PARTS += ["TheImpl", "TheLink", "TheLinks", "Tie", "View"]
DERIVED = re.compile(r"(Debug|PartialEq|Eq|Clone|Display|Hash|PartialOrd|Ord|Default|Error|From\w+)\.\w+$")
SECONDS = {"lts": 0.65e-6, "proof": 2.5e-6, "rest": 0.5e-6}


def modules(folder):
    """The checked modules below a folder: the path of each, and its file name without its ending."""
    for at, _, files in os.walk(folder):
        for file in files:
            if file.endswith(".oantt") and not file.endswith(".decls.oantt"):
                yield os.path.join(at, file), file[:-6]


def function_of(name, crate):
    """The function that a module is made of and which part it is, or None for what belongs to no function."""
    found = re.match(rf"Rattle-{crate}-(proofs|specs\.contracts)\.(.*)$", name)
    if not found:
        return None
    words = found[2].split(".")
    part = words[-1].split("-")[0]
    while words and (words[-1] in PARTS or re.match(r"Lts-", words[-1])):
        words.pop()
    return (".".join(words), part) if words and part in PARTS else None


def weights(folder, crate):
    """By function: the sizes of its modules, its steps and its goals; and the size of all else in the folder."""
    found, other = collections.defaultdict(collections.Counter), 0
    for path, name in modules(folder):
        size, of = os.path.getsize(path), function_of(name, crate)
        if of is None:
            other += size if f"Rattle-{crate}-" in name else 0
            continue
        function, part = of
        row = found[function]
        row[{"Lts": "lts", "Proof": "proof"}.get(part, "rest")] += size
        if part == "Lts":
            with open(path, "rb") as file:
                text = file.read()
            row["steps"] += len(set(re.findall(rb'"name":"(m\d+)"', text)))
            row["goals"] += len(set(re.findall(rb'"name":"(Need-[^"]*)"', text)))
    return {function: row for function, row in found.items() if row["lts"]}, other


def seconds(row):
    """The weight of a row."""
    return sum(row[part] * each for part, each in SECONDS.items())


def line(row, name):
    """A row as it is printed."""
    steps, goals, rest = row["lts"] / 1e6, row["proof"] / 1e6, row["rest"] / 1e6
    return f"{row['steps']:6} {steps:8.2f} {row['goals']:6} {goals:8.2f} {rest:8.2f} {seconds(row):8.2f}  {name}"


def total(rows):
    """The sums of these rows."""
    found = collections.Counter()
    for row in rows:
        found.update(row)
    return found


def show(crate, folder, top, form):
    """Prints what was asked for of a crate."""
    rows, other = weights(folder, crate)
    if not rows:
        sys.exit(f"proof_weight: nothing of {crate} is in {folder}: run rt check in the crate first")
    ordered = sorted(rows.items(), key=lambda it: -seconds(it[1]))
    if form == "total":
        print(line(total(rows.values()), f"{crate}, {len(rows)} functions"))
        return
    if form == "csv":
        for name, row in ordered:
            sizes = [row[each] for each in ("steps", "lts", "goals", "proof", "rest")]
            print(",".join([crate, name, *map(str, sizes), f"{seconds(row):.2f}"]))
        return
    print(f"== {crate}\n steps   Lts MB  goals Proof MB  rest MB   weight")
    for name, row in ordered[:top]:
        print(line(row, name))
    if top and top < len(ordered):
        print(line(total(row for _, row in ordered[top:]), f"the other {len(ordered) - top}"))
    derived = [row for name, row in ordered if DERIVED.search(name)]
    closures = [row for name, row in ordered if "+Fn" in name or ".fn." in name]
    print(line(total(derived), f"{len(derived)} derived impls among them"))
    print(line(total(closures), f"{len(closures)} of closures and functions passed by name"))
    whole = f"all {len(rows)} functions; lemmas, types and the rest of the crate {other / 1e6:.1f} MB"
    print(line(total(rows.values()), whole))


def main():
    """Reads the command line."""
    form = argparse.RawDescriptionHelpFormatter
    known = argparse.ArgumentParser(prog="python3 -m tests.proof_weight", description=__doc__, formatter_class=form)
    known.add_argument("--top", type=int, metavar="N")
    known.add_argument("--csv", dest="form", action="store_const", const="csv")
    known.add_argument("--total", dest="form", action="store_const", const="total")
    known.add_argument("--in", dest="folder")
    known.add_argument("crates", nargs="+", metavar="CRATE")
    given = known.parse_args()
    for name in given.crates:
        at = name if os.path.isdir(name) else os.path.join("crates", name)
        crate = os.path.basename(os.path.normpath(at))
        show(crate, given.folder or os.path.join(at, "out", "incremental"), given.top, given.form)


if __name__ == "__main__":
    main()

"""Prints the public contracts of crates, or which of them differ from an earlier commit.

    python3 -m tests.clauses [CRATE ..]              each public function of these crates, with its clauses
    python3 -m tests.clauses --since REV [CRATE ..]  those that are gone, new or changed since that commit
    python3 -m tests.clauses --without [CRATE ..]    the public functions that ensure nothing, a line for each crate
    python3 -m tests.clauses --renew                 writes these lines, of all crates, to tests/safety_alone.txt

Without a crate it is the eight whose names end in _1401, and with --without all but tests_library, which has tests
alone. A change of a lower crate shows here only where one of these says so itself: name the lower crate too. Layout and
comments don't count."""
import difflib
import re
import subprocess
import sys
from pathlib import Path

TOP = Path(__file__).resolve().parent.parent
SAFETY_ALONE = TOP / "tests/safety_alone.txt"
FUNCTION = re.compile(r"^( *)pub (?:const |unsafe )*fn (\w+)")
CLAUSE = re.compile(r"^\s*(?:ensures|requires)\b")
OWNER = re.compile(r"^(?:impl|pub trait)\b(.*?)(?: \{| where|$)")


def doors():
    """The crates that a user of the library imports."""
    return sorted(each.name for each in (TOP / "crates").glob("*_1401"))


def sources(crate, rev=None):
    """The sources of a crate, here or at a commit, by their paths."""
    if rev is None:
        files = sorted((TOP / f"crates/{crate}/src").rglob("*.rt"))
        return {str(each.relative_to(TOP)): each.read_text() for each in files}

    def git(*words):
        return subprocess.run(["git", "-C", TOP, *words], capture_output=True, check=True).stdout.decode()
    names = git("ls-tree", "-r", "--name-only", rev, f"crates/{crate}/src").split()
    return {name: git("show", f"{rev}:{name}") for name in names if name.endswith(".rt")}


def contracts_in(text):
    """The public functions of a source with their clauses, each as one line, by the names of type and function."""
    found, owner, lines = {}, "", text.splitlines()
    for at, line in enumerate(lines):
        if OWNER.match(line):
            owner = " ".join(OWNER.match(line)[1].split())
        elif line.startswith(("pub fn", "fn", "}")):
            owner = ""
        named = FUNCTION.match(line)
        if named is None:
            continue
        parts, has_clauses = [], False
        for each in lines[at:]:
            has_clauses |= CLAUSE.match(each) is not None
            ends = each.rstrip() == f"{named[1]}{{" or (not has_clauses and each.endswith(("{", ";")))
            if not each.lstrip().startswith("//"):
                parts += each.split()
            if ends:
                break
        found[f"{owner}::{named[2]}".removeprefix("::")] = " ".join(parts).rstrip("{; ")
    return found


def contracts(crates, rev=None):
    """The public functions of these crates with their clauses, by crate and name."""
    return {f"{crate}: {name}": said for crate in crates for text in sources(crate, rev).values()
            for name, said in contracts_in(text).items()}


def without_clauses(text):
    """The public functions of a source that ensure nothing: proved safe, and no more is said of them."""
    for name, said in contracts_in(text).items():
        if " ensures" not in said:
            while name != (plain := re.sub(r"<[^<>]*>", "", name)):
                name = plain
            yield name.strip()


def safety_alone(crates=None):
    """Those of each crate that has some, a line each."""
    crates = crates or sorted(each.parent.name for each in (TOP / "crates").glob("*/src"))
    found = {crate: [name for text in sources(crate).values() for name in without_clauses(text)]
             for crate in crates if crate != "tests_library"}
    return [f"{crate}: {', '.join(names)}" for crate, names in found.items() if names]


def differences(before, now):
    """What is gone, new or changed, a line each."""
    lines = [f"gone  {name}" for name in sorted(before.keys() - now.keys())]
    lines += [f"new  {name}" for name in sorted(now.keys() - before.keys())]
    for name in sorted(before.keys() & now.keys()):
        if before[name] != now[name]:
            lines.append(f"changed  {name}")
            words = difflib.ndiff(before[name].split(" ensures "), now[name].split(" ensures "))
            lines += [f"    {each}" for each in words if each[:1] in "+-"]
    return lines


def main(given):
    """Prints what these words ask for."""
    if given == ["--renew"]:
        SAFETY_ALONE.write_text("".join(f"{line}\n" for line in safety_alone()))
        return 0
    rev = given[1] if given[:1] == ["--since"] and len(given) > 1 else None
    crates = given[2:] if rev else given[1:] if given[:1] == ["--without"] else given
    unknown = [each for each in crates if not (TOP / f"crates/{each}/src").is_dir()]
    if unknown or (given[:1] == ["--since"] and rev is None):
        print(f"there is no crate {unknown[0]}" if unknown else "usage: --since REV [CRATE ..]", file=sys.stderr)
        return 2
    if given[:1] == ["--without"]:
        print("\n".join(safety_alone(crates)))
        return 0
    now = contracts(crates or doors())
    print("\n".join(differences(contracts(crates or doors(), rev), now) if rev else
                    [f"{name}\n    {said}" for name, said in now.items()]))
    return 0


if __name__ == "__main__":
    sys.exit(main(sys.argv[1:]))

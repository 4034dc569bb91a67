"""The definitions of the basic machine: no feature changes them, and nothing else does without being noticed."""
import hashlib
import re
import sys

from tests.support import TESTS, TOP, ProgramTest

CRATES = TOP / "crates"
# What a step of the basic machine is, and what its operations are.
FIRST = ("cpu_1401/specs/Step.antt", "machine_tables/specs/Operation.antt")
# What a machine with features has more: where the state of a machine and the features themselves are said.
WITH_FEATURES = {"cpu_1401/specs/State.antt", "machine_tables/specs/Features.antt"}
SUMS = TESTS / "basic_machine.txt"


def cited(file):
    """The files of definitions that a file cites, of our crates."""
    for crate, name in re.findall(r"^(?:pub )?use Rattle\.(\w+)\.specs\.([A-Z]\w*)", (CRATES / file).read_text(), re.M):
        place = f"{crate}/specs/{name}.antt"
        if (CRATES / place).exists():
            yield place


def definitions():
    """All files that the definitions of the basic machine are in."""
    found, more = set(), set(FIRST)
    while more:
        found |= more
        more = {place for file in more for place in cited(file)} - found
    return sorted(found - WITH_FEATURES)


def sums():
    """A line for each of them: its SHA-256, and its name."""
    return "".join(f"{hashlib.sha256((CRATES / each).read_bytes()).hexdigest()}  {each}\n" for each in definitions())


class BasicMachine(ProgramTest):
    """What the machine is without features is text for text what it was before there were any."""

    def test_its_definitions_are_what_they_were(self):
        self.assertGreater(len(definitions()), 30)
        wanted = dict(line.split("  ")[::-1] for line in SUMS.read_text().splitlines())
        for line in sums().splitlines():
            found, name = line.split("  ")
            self.same(name, found, wanted.pop(name, "none"))
        self.same("no other is listed", sorted(wanted), [])


if __name__ == "__main__":
    sys.exit(print(sums(), end=""))

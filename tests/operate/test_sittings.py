"""Sittings at a person's console, `operate`: those of tests/sittings/, a test each, every byte compared.

A file of tests/sittings/ has a remark on its theme, and then sittings, each below its title and as a page shows it:

    == A break after three visits is met once
    $ ./ibm1401 operate
    4000 places; next is 0000; help lists the words
    1401> deposit 500 ~N~B500~N
    00500  ~N~B500~N
    1401> save kept
    1 command is in kept
    recorded
    DEPOSIT 0500 ~N~B500~N

'recorded' is followed by all commands of the journal that the sitting has saved as 'kept', if they are looked at;
'500 times' gives the command above so often in all. A remark begins with '#', in any place.

A sitting finds the files of examples/, the program reading.source, which reads cards up to the last one and then halts,
and each deck that it names: A1200.cards has 1,200 cards, each with an A in its first column. Lines with a dollar sign
above the call are done by a shell first."""
import re
import shutil
import unittest
from itertools import zip_longest

from tests.support import EXAMPLES, TESTS, difference, program, run
from tests.operate.test_operate import PROMPT, recorded, typed_in
from tests.texts import add_cases, read_parts

SITTINGS = TESTS / "sittings"
FILES = sorted(SITTINGS.glob("*.txt"))
CALL = "$ ./ibm1401 operate"
DECK = re.compile(rf"^{PROMPT}deck (([A-Z])(\d+)\.cards)$", re.MULTILINE)


class Sitting:
    """What a shell does first, a call, what is typed and shown, and the commands of the saved journal, if they count."""

    def __init__(self, name):
        self.name, self.before, self.words, self.shown, self.recorded = name, [], None, "", None

    def take(self, line):
        """Takes a line of the sitting's text, and returns whether it says something there."""
        said = re.fullmatch(r"(\d+) times", line)
        if self.words is None:
            if line.startswith(CALL):
                self.words = line.removeprefix(CALL).split()
            else:
                self.before.append(line.removeprefix("$ "))
            return line.startswith("$ ")
        if self.recorded is None and line == "recorded":
            self.recorded = []
        elif self.recorded is None:
            self.shown += f"{line}\n"
        elif said:
            self.recorded += self.recorded[-1:] * (int(said[1]) - 1)
        else:
            self.recorded.append(line)
        return True


def read_sittings(text):
    """The sittings of a file."""
    return read_parts(text, Sitting)


def first_other(found, wanted):
    """A list that says which line is the first that differs from the wanted one; empty if none does."""
    for number, (line, other) in enumerate(zip_longest(found, wanted), 1):
        if line != other:
            return [f"line {number} is {line!r}, not {other!r}"]
    return []


def wrong_in(test, sitting):
    """What is wrong with a sitting: its status, what it shows, and what it has recorded."""
    shutil.copytree(EXAMPLES, test.folder, dirs_exist_ok=True)
    shutil.copy(SITTINGS / "reading.source", test.folder)
    for command in sitting.before:
        run(["bash", "-c", command], cwd=test.folder)
    for name, letter, count in DECK.findall(sitting.shown):
        (test.folder / name).write_text(f"{letter}\n" * int(count))
    ran = program("operate", *sitting.words, "--echo", lines=typed_in(sitting.shown).encode(), cwd=test.folder)
    status = int("\n? " in sitting.shown)
    wrong = [] if ran.returncode == status else [f"status {ran.returncode}, not {status}"]
    wrong += difference("standard error", ran.stderr, b"")
    wrong += first_other(ran.stdout.decode().split("\n"), sitting.shown.split("\n"))
    if sitting.recorded is not None and not wrong:
        commands, _ = recorded((test.folder / "kept").read_text())
        wrong += [f"recorded: {why}" for why in first_other(commands, sitting.recorded)]
    return wrong


add_cases(globals(), FILES, read_sittings, wrong_in)


if __name__ == "__main__":
    unittest.main()

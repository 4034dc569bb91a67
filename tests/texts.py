"""What session texts and source texts share: a file is a row of parts, each below its name, and each part is a test."""
import re

from tests.support import ProgramTest


def read_parts(text, kind):
    """The parts of a file, each made by `kind` of its name, which takes the lines below it."""
    read = []
    for number, line in enumerate(text.splitlines(), 1):
        if line.startswith("== "):
            read.append(kind(line[3:]))
        elif line and not line.startswith("# ") and not (line == line.rstrip() and read and read[-1].take(line)):
            raise ValueError(f"line {number} says nothing there: {line!r}")
    return read


def method_name(case, title):
    """The name of a test method: its title in small letters, with an underscore in place of what is no letter or digit.
    Titles that differ in nothing else get a number."""
    name = "test_" + re.sub(r"[^a-z0-9]+", "_", title.lower()).strip("_")
    others = sum(re.fullmatch(rf"{name}(_\d+)?", each) is not None for each in vars(case))
    return f"{name}_{others + 1}" if others else name


def add_cases(module, files, read, wrong):
    """Gives a module a class of tests for each file, with a method for each of its parts. `read` reads a file's text, and
    `wrong` says what is wrong with a part; it gets the test too."""
    for file in files:
        facts = {"__doc__": f"What {file.name} has.", "__module__": module["__name__"]}
        case = type(file.stem.title().replace("_", ""), (ProgramTest,), facts)
        for part in read(file.read_text()):

            def test(self, part=part):
                self.assertEqual([], wrong(self, part))

            test.__name__, test.__doc__ = method_name(case, part.name), part.name
            setattr(case, test.__name__, test)
        module[case.__name__] = case

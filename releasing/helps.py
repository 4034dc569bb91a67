"""The program's help texts, as data: manual pages and completions are made of it."""
import re
import subprocess
from dataclasses import dataclass

# The words for values that are names of files.
FILES = {"NEW", "OUT", "FILE", "DECK"}


@dataclass
class Option:
    """An option, or an argument without a name."""
    short: str
    long: str
    value: str
    help: str

    @property
    def choices(self):
        """The values that it may have, if the help lists them."""
        listed = re.search(r"\[possible values: (.*?)\]", self.help)
        return listed[1].split(", ") if listed else []

    @property
    def is_file(self):
        """Whether its value is the name of a file."""
        return self.value in FILES

    @property
    def names(self):
        """Its names, the short one first."""
        return [name for name in (self.short, self.long) if name]


@dataclass
class Page:
    """What the help says of the program, or of one of its subcommands."""
    name: str
    about: str
    usage: str
    commands: list
    arguments: list
    options: list
    sections: list

    @property
    def call(self):
        """How it is called."""
        return f"ibm1401 {self.name}".strip()


@dataclass
class Script(Page):
    """What the help of a program of its own says, which a package has next to the program."""
    @property
    def call(self):
        """How it is called."""
        return f"ibm1401-{self.name}"


def rows(text):
    """The left and right halves of the rows of a section."""
    found = [re.fullmatch(r"\s+(.*?)(?:  +(.*))?", line) for line in text.splitlines()]
    return [(each[1], each[2] or "") for each in found]


def option_of(left, right):
    """A row of options or arguments."""
    found = re.fullmatch(r"(?:(-\w)(?:, )?)?(--[\w-]+)?(?: ?[<[](.*)[]>])?", left)
    return Option(found[1] or "", found[2] or "", found[3] or "", right)


def read_page(name, text):
    """The page of a help text."""
    about, usage, *parts = text.strip("\n").split("\n\n")
    sections = [part.split("\n", 1) for part in parts]
    known = {title: rows(body) for title, body in sections}
    return Page(name, about, usage.removeprefix("Usage: "), known.pop("Commands:", []),
                [option_of(*row) for row in known.pop("Arguments:", [])],
                [option_of(*row) for row in known.pop("Options:", [])], list(known.items()))


def pages_of(program):
    """The page of the program, and then that of each subcommand that it lists."""
    def said(*words):
        ran = subprocess.run([program, *words, "--help"], stdin=subprocess.DEVNULL, stdout=subprocess.PIPE, check=True)
        return ran.stdout.decode()
    whole = read_page("", said())
    return [whole] + [read_page(name, said(name)) for name, _ in whole.commands if name != "help"]


def lesson_page(top):
    """The page of the script that hands out the lessons."""
    ran = subprocess.run([top / "examples/course/lesson", "--help"], stdin=subprocess.DEVNULL, stdout=subprocess.PIPE,
                         check=True)
    page = read_page("lesson", ran.stdout.decode())
    return Script(**{**vars(page), "usage": page.usage.rpartition("lesson ")[2]})

"""Sources as texts: what their form is, and how one is tried.

A file of tests/sources/ has a remark on its theme, and then sources, each with what the assembler makes of it:

    == An index register is a zone over the tens
    size 1400
    >      A         MLC  15+X2,A+1000+X1
    >                END  A
    image
    IMAGE2 01400
    00333 07 ~M0J5TT3
    END 00333

'==' begins a source, with its name. 'size' is how many places of core storage it is for, where none is asked for, and
'language ibm' the wider language. Each line of the source follows '>' and a blank. Then comes what is looked at: the
'image', the 'listing', the 'symbols' and the 'references', and what is 'reported' of its faults or its warnings, each
with its lines below it; or the first 'fault', for which nothing is made. A line that begins or ends with a blank is
between two bars. A remark begins with '#', above the source's lines."""
from tests.support import difference, program
from tests.texts import read_parts

# What is asked for with the source where a part is looked at.
PARTS = {"image": [], "listing": ["--list"], "symbols": ["--symbols"], "references": ["--xref"], "reported": ["--all"]}
# Each call that makes something of a source: for a fault all of them end alike.
CALLS = [[], ["--list"], ["--symbols", "--xref"]]

# A good source, its image and its listing.
GOOD, IMAGE = "               END  0\n", "IMAGE2 04000\nEND 00000\n"
LISTING = "0001 00000                         END  0\n"
# Sources with a fault each, by where it is met: in a line, at the end, and at a place that isn't in core.
FAULTY_SOURCES = [
    ("     A         QQ   1\n     A         H\n               END  A\n", "line 1: 6 OPERATION"),
    ("", "line 1: 10 NO END"),
    ("               ORG  4000\n     A         H\n               END  0\n", "line 2: 9 OUT OF CORE"),
]


class SourceText:
    """A source, what its assembly is asked for besides, and what is looked at."""

    def __init__(self, name):
        self.name, self.words, self.lines, self.parts, self.fault, self.part = name, [], [], {}, "", None

    @property
    def text(self):
        """The source itself."""
        return "".join(f"{line}\n" for line in self.lines)

    def take(self, line):
        """Takes a line of the file, and returns whether it says something there."""
        word, _, rest = line.partition(" ")
        if line == ">" or line.startswith("> "):
            self.lines.append(line[2:])
            return self.part is None
        if word in ("size", "language") and not self.lines:
            self.words += [f"--{word}", rest]
        elif word == "fault" and self.lines and not self.parts:
            self.fault = rest
        elif line in PARTS and self.lines and line not in self.parts:
            self.part = self.parts[line] = []
        elif self.part is not None:
            self.part.append(line[1:-1] if line[0] == line[-1] == "|" else line)
        else:
            return False
        return True


def read_sources(text):
    """The sources of a file."""
    read = read_parts(text, SourceText)
    for each in read:
        if not each.parts and not each.fault:
            raise ValueError(f"nothing is looked at: {each.name}")
    return read


def wrong_ends(source, words, fault=""):
    """What is wrong with how each call ends: with the same fault, or well."""
    wanted = (1, f"ibm1401: line {fault}\n") if fault else (0, "")
    wrong = []
    for call in CALLS:
        ran = program("assemble", *words, *call, source)
        if (ran.returncode, ran.stderr.decode()) != wanted or (fault and ran.stdout):
            wrong.append(f"assemble {' '.join(call)}: status {ran.returncode}, {ran.stderr}")
    return wrong


def wrong_parts(source, words, parts):
    """What is wrong with what is made of a source. Reports on a source that has an image leave the image as it is."""
    wrong = []
    for part, lines in parts.items():
        ran = program("assemble", *words, *PARTS[part], source.name, cwd=source.parent)
        if part == "reported" and "image" in parts:
            wrong += [] if ran.returncode == 0 else [f"with --all it has status {ran.returncode}"]
            wrong += difference("the image with --all", ran.stdout, "".join(f"{line}\n" for line in parts["image"]))
        found, beginning = (ran.stderr, f"{source.name}:") if part == "reported" else (ran.stdout, "")
        wrong += difference(f"the {part}", found, "".join(f"{beginning}{line}\n" for line in lines))
    return wrong


def wrong_source(source, text, words=(), fault="", parts=None):
    """What is wrong with a source that is written to a file: with its fault, if it has one, and what is made of it."""
    source.write_text(text, newline="")
    parts = parts or {}
    wrong = [] if "reported" in parts and "image" not in parts else wrong_ends(source, words, fault)
    return wrong + wrong_parts(source, words, parts)

"""i1401 of SIMH, which runs the same decks and reels: what it says, and how cells come to its core storage."""
import shutil
import subprocess
import unittest

from tests.chains import OURS
from tests.support import SECONDS

PEER = shutil.which("i1401")
# A test, or a class of tests, that needs it.
with_peer = unittest.skipUnless(PEER, "i1401 isn't there: install Debian's package simh")
# What it says of a cell with a word mark.
MARK = 0o100


def peer(*lines):
    """What i1401 says to these lines."""
    text = "\n".join([*lines, "quit", ""]).encode()
    return subprocess.run([PEER], input=text, capture_output=True, timeout=SECONDS).stdout.decode()


def deposits(at, cells):
    """The lines that put cells, as the console writes them, into its core storage from an address on."""
    lines, mark = [], 0
    for each in cells:
        if each == "~":
            mark = MARK
        else:
            lines.append(f"deposit {at} {OURS.index(each) + mark:o}")
            at, mark = at + 1, 0
    return lines


def image(entry, cells, size=4_000):
    """The text of a core image with these cells by their addresses, which begins at this entry."""
    parts = [(at, text, len(text) - text.count("~")) for at, text in cells.items()]
    segments = "".join(f"{at:05} {count:02} {text}\n" for at, text, count in parts)
    return f"IMAGE2 {size:05}\n{segments}END {entry:05}\n"

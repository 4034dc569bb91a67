"""Sessions as texts: what their form is, and how one is tried.

A file of tests/sessions/ has a remark on its theme, and then sessions, each at a machine of its own:

    == A cell keeps its word mark
    size 16000
    # The third cell is a blank.
    > DEPOSIT 0500 ~AB
    OK
    > EXAMINE 0500 3
    |~AB |
    2 entries

'==' begins a session, with its name. 'size' is how many places of core storage it has, where it hasn't 4,000, and 'fit'
names the features that it is fitted with, if it is. A remark begins with '#', in any place. Each typed line begins with '>', and its reply follows, if it has one. The last line says
how many entries the journal has. '500 times' gives the line above, with its reply, so often in all; 'no line feed'
leaves out that of the last line.

No reply has a small letter. A line or a reply that begins or ends with a blank, and a reply that could be taken for
something else, is between two bars: '|' is no graphic."""
import re
import tempfile
from pathlib import Path

from tests.support import difference, program
from tests.texts import read_parts

# The graphics by code, sixteen of each zone.
GRAPHICS = " 1234567890#@:>(^/STUVWXYZ',%=\\+-JKLMNOPQR!$*];_&ABCDEFGHI?.)[<\""


class Session:
    """Lines for a machine of its own, each with its reply or none, and how many entries the journal has afterwards, if
    that is looked at."""

    def __init__(self, name, size=4000, given=(), features=None):
        self.name, self.size, self.given, self.features = name, size, list(given), features
        self.end, self.entries = "\n", None

    def take(self, line):
        """Takes a line of the session's text, and returns whether it says something there."""
        if self.entries is not None:
            return False
        if said := re.fullmatch(r"size (\d+)", line):
            self.size = int(said[1])
        elif said := re.fullmatch(r"fit (\S+)", line):
            self.features = said[1]
        elif line.startswith("> "):
            self.given.append((bare(line[2:]), None))
        elif not self.given:
            return False
        elif said := re.fullmatch(r"(\d+) times", line):
            self.given += self.given[-1:] * (int(said[1]) - 1)
        elif line == "no line feed":
            self.end = ""
        elif said := re.fullmatch(r"(\d+) entr(?:y|ies)", line):
            self.entries = int(said[1])
        elif self.given[-1][1] is None and not re.search(r"[a-z]", line):
            self.given[-1] = (self.given[-1][0], bare(line))
        else:
            return False
        return True


def registers(i, a, b, line=1, on=()):
    """The reply to REGS where these indicators are on."""
    indicators = " ".join(f"{name}={int(name in on)}" for name in ("UNEQUAL", "LOW", "HIGH", "OVERFLOW"))
    devices = f"HOPPER=000 STACKER=000 PAPER=000 FORM=0001 LINE={line:02}"
    return f"I={i:05} A={a:05} B={b:05} {indicators} SWITCHES=------- {devices}"


def bare(text):
    """A line or a reply without the bars around it, if it has them."""
    return text[1:-1] if re.fullmatch(r"\|.*\|", text) else text


def read_sessions(text):
    """The sessions of a file."""
    read = read_parts(text, Session)
    for each in read:
        if each.entries is None:
            raise ValueError(f"how many entries the journal has isn't said: {each.name}")
    return read


def fitted_with_all(session):
    """The same session on a machine with each feature, up to where the basic one stops as LENGTH or NOTFITTED. The
    command that fits it is one more, which a glance counts."""
    fitted = Session(f"{session.name}, with each feature", session.size)
    for line, reply in session.given:
        if re.match("STOP (08|12) ", reply or ""):
            break
        if said := re.match(r"AFTER (\d+)", reply or ""):
            reply = f"AFTER {int(said[1]) + 1}{reply[said.end():]}"
        fitted.given.append((line, reply))
    fitted.features, fitted.end = "all", session.end if len(fitted.given) == len(session.given) else "\n"
    return fitted


def wrong_in(session):
    """What is wrong with a session: by itself, or else where its journal is kept, whose entries are counted."""
    with tempfile.TemporaryDirectory() as folder:
        lines, kept = Path(folder) / "lines", Path(folder) / "journal"
        lines.write_text("\n".join(line for line, _ in session.given) + session.end)
        words = ["console", "--size", str(session.size)]
        words += ["--fit", session.features] if session.features else []
        wrong = wrong_run(session, words, lines)
        if wrong or session.entries is None:
            return wrong
        wrong = [f"where it is kept, {why}" for why in wrong_run(session, [*words, "--journal", kept], lines)]
        entries = kept.read_bytes().count(b"\n") - 1 if kept.exists() else 0
    return wrong + ([] if entries == session.entries else [f"{entries} entries, not {session.entries}"])


def wrong_run(session, words, lines):
    """What is wrong with a run of its lines: how it ends, what it writes, and what it leaves unread."""
    with lines.open("rb") as given:
        ran = program(*words, stdin=given)
        left = given.read()
    typed = [line for line, _ in session.given]
    after = typed[typed.index("QUIT") + 1 :] if "QUIT" in typed else []
    wrong = [] if ran.returncode == 0 else [f"status {ran.returncode}"]
    wrong += unlike(session, ran.stdout) + difference("standard error", ran.stderr, b"")
    return wrong + difference("what is left unread", left, "".join(f"{line}\n" for line in after))


def unlike(session, output):
    """The first reply that is another one, with its line."""
    answered = [(line, reply) for line, reply in session.given if reply is not None]
    if output == "".join(f"{reply}\n" for _, reply in answered).encode():
        return []
    found = output.decode(errors="replace").split("\n")
    for (line, reply), found_reply in zip(answered, found, strict=False):
        if found_reply != reply:
            return [f"{line!r} is answered {found_reply!r}, not {reply!r}"]
    return [f"{len(found) - 1} replies, not {len(answered)}"]

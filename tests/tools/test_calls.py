"""The public calls of the eight crates, by the program of crates/tests_library: what they give, and what they answer
with each allocation refused in turn.

Its file `stdout` has what it shows where nothing is refused, by the word that asks for it; the gate compares the whole.
A call that is refused memory is reported, and is made again: what the program shows besides must be what it shows where
nothing is refused. Rooms end with the whole journal and the whole machine."""
import unittest
from functools import cache, partial

from tests.preloaded import needs_compiler
from tests.refused_growth import LINES, each_growth, without
from tests.support import TOP, TRIALS, ProgramTest, difference, run

CRATE = TOP / "crates/tests_library"
SESSION = (*LINES, b"QUIT\n")
QUESTION = (b"DEPOSIT 0500 ~0K\n", b"EXAMINE 0500 2\n", b"QUIT\n")
PROGRAM_RUN = (b"RUN 10\n", b"EXAMINE 0418 3\n")
# Words whose trials are made again where they were refused.
AGAIN = """core marks blocks devices machine reply_text read_image assemble assemble_in assemble_image assemble_packed
assemble_program assemble_with_tables assemble_listing faults warnings room put_image put_lent_image reserve shared notes
in_time outlived kept carry command""".split()
# Those whose lines the file doesn't have.
LONG = ["carry", "command"]
# Each console, with its lines and the ends that it must have come to.
CONSOLES = [
    ("a session", "session", SESSION, {"Memory", "at the journal", "at a reply"}),
    ("a question", "session", QUESTION, {"Memory", "at the journal", "at a reply"}),
    ("a program", "program", PROGRAM_RUN, {"Memory", "at a reply"}),
    ("an attended console", "attend", SESSION, {"Memory", "at the journal", "at a reply"}),
]
BEFORE = "before the call"


def expected():
    """The lines that the file has for each word."""
    found, lines = {}, []
    for line in (CRATE / "stdout").read_bytes().splitlines(keepends=True):
        if line.startswith(b"== "):
            lines = found.setdefault(line[3:-1].decode(), [])
        lines.append(line)
    return found


@cache
def whole(word, lines=b""):
    """What a word shows where nothing is refused."""
    return run([TRIALS, word], lines).stdout.splitlines(keepends=True)


def without_refusal(printed):
    """What was refused, and what was shown besides: of a trial that was made again, only the second time."""
    refused = [line for line in printed if line.startswith(b"refused ")]
    again = [place for place, line in enumerate(printed) if line.startswith(b"== ") and line.endswith(b" again\n")]
    for place in again:
        begun = max(other for other in range(place) if printed[other].startswith(b"== "))
        printed = [*printed[: begun + 1], *printed[place + 1 :]]
    return refused, [line for line in printed if line not in refused]


def again_outcome(word, how):
    """How a trial went whose calls are made again where they were refused."""
    ran = run([TRIALS, word], **how)
    printed = ran.stdout.splitlines(keepends=True)
    if ran.returncode != 0 and not printed:
        return BEFORE, ""
    refused, rest = without_refusal(printed)
    wrong = [] if (ran.returncode, ran.stderr, len(refused) < 2) == (0, b"", True) else [f"{ran.returncode} {refused}"]
    wrong += difference("what else it showed", b"".join(rest), b"".join(whole(word)))
    if word == "carry" and len(refused) == 1 and refused[0].split()[-1].isdigit():
        answers = [line for line in printed[: printed.index(refused[0])] if line.startswith(b"seat ")]
        wrong += difference("the journal then", refused[0].split()[-1], str(len(answers)))
    return "Memory" if refused else "without an effect", "; ".join(wrong)


def split(printed):
    """The replies of each console, its end, and what is left: the journal and the machine."""
    consoles, lines = [], []
    for line in printed:
        if line.startswith(b"END"):
            consoles.append((lines, line.decode().split()[1:]))
            lines = []
        elif not line.startswith((b"== ", b"before line ", b"after line ")):
            lines.append(line)
    return consoles, [line for line in lines if line.startswith(b"Entry")], [
        line for line in lines if not line.startswith(b"Entry")
    ]


def replies(word, lines):
    """The replies of a console to these lines where nothing is refused."""
    return split(whole(word, b"".join(lines)))[0][0][0]


def carried_out(word, lines, replied, end):
    """The lines of a console whose commands were carried out, and the replies that it must have had."""
    ample = replies(word, lines)
    if b"FAULT 1 MEMORY\n" in replied:
        place = replied.index(b"FAULT 1 MEMORY\n")
        rest = (*lines[:place], *lines[place + 1 :])
        return rest, without(lines, place, lambda given: replies(word, given))
    if end == "Memory":
        return lines[: len(replied) + 1], ample[: len(replied)]
    return lines, ample


def console_outcome(word, lines, how):
    """How a session or an attended console went: what comes before it was refused, and done again, a command was
    refused, or the session ended at a reply."""
    ran = run([TRIALS, word], b"".join(lines), **how)
    printed = ran.stdout.splitlines(keepends=True)
    if ran.returncode != 0 and not printed:
        return BEFORE, ""
    refused, rest = without_refusal(printed)
    if refused:
        wrong = difference("what else it showed", b"".join(rest), b"".join(whole(word, b"".join(lines))))
        wrong += [f"{ran}"] if (ran.returncode, len(refused)) != (0, 1) else []
        return "Memory", "; ".join(wrong)
    consoles, journal, machine = split(printed)
    if ran.returncode != 0 or len(consoles) != (2 if word == "attend" else 1):
        return "", f"{ran}"
    replied, end = consoles[0]
    remaining, wanted = carried_out(word, lines, replied, end[0])
    wrong = difference("the replies", b"".join(replied), b"".join(wanted))
    _, wanted_journal, wanted_machine = split(whole(word, b"".join(remaining)))
    kind = "at a reply" if end[0] == "Memory" else "at the journal" if b"FAULT 1 MEMORY\n" in replied else ""
    if word == "attend":
        others, other_end = consoles[1]
        remaining, wanted = carried_out("session", (b"EXAMINE 0\n", b"QUIT\n"), others, other_end[0])
        wrong += difference("the other's replies", b"".join(others), b"".join(wanted))
        wanted_journal = wanted_journal if b"EXAMINE 0\n" in remaining else wanted_journal[:-1]
        wrong += ["both are refused"] if kind and (others != wanted or other_end[0] != "Quit") else []
        kind = kind or ("at a reply" if other_end[0] == "Memory" else "at the journal" if len(remaining) < 2 else "")
    wrong += difference("the journal", b"".join(journal), b"".join(wanted_journal))
    wrong += difference("the machine", b"".join(machine), b"".join(wanted_machine))
    ample = "Quit" if lines[-1] == b"QUIT\n" else "EndOfInput"
    wrong += [] if end[0] in (ample, "Memory") else [f"it ends as {end}"]
    return kind or "without an effect", "; ".join(wrong)


def served_outcome(how):
    """How a room that was served went: its consoles' replies, how many there were, and what is left."""
    ran = run([TRIALS, "serve"], **how)
    printed = ran.stdout.splitlines(keepends=True)
    if ran.returncode != 0 and not printed:
        return BEFORE, ""
    refused, rest = without_refusal(printed)
    if refused:
        wrong = [] if (ran.returncode, len(refused)) == (0, 1) else [f"{ran}"]
        return "Memory", "; ".join([*wrong, *difference("what else it showed", b"".join(rest), b"".join(whole("serve")))])
    consoles, journal, machine = split(printed[3:])
    if ran.returncode != 0 or len(consoles) != 2 or not printed[2].startswith(b"CONSOLES "):
        return "", f"{ran}"
    attended, fault = printed[2].split()[1:]
    entries, hindered, wrong = 0, 0, []
    for number, (replied, _) in enumerate(consoles):
        is_attended = number < int(attended)
        refused = b"FAULT 1 MEMORY\n" in replied
        wanted = [b"FAULT 1 MEMORY\n" if refused else b" \n", b"BYE\n"] if is_attended else []
        wrong += [] if replied == wanted[: len(replied)] else [f"{replied}"]
        entries += is_attended and not refused
        hindered += is_attended and (refused or len(replied) < 2)
    wrong += [f"{hindered} are hindered"] if hindered > (fault == b"None") else []
    wrong += [f"{attended} consoles, {fault}"] if (int(attended) == 2) != (fault == b"None") else []
    wrong += [] if fault in (b"None", b"Some(Thread)") else [fault.decode()]
    wrong += [f"{len(journal)} entries, not {entries}"] if len(journal) != entries else []
    wrong += difference("the machine", b"".join(machine), b"".join(split(whole("serve")[3:])[2]))
    end = "Thread" if fault != b"None" else "at a console" if hindered else "without an effect"
    return end, "; ".join(wrong)


@unittest.skipUnless(TRIALS.exists(), "crates/tests_library isn't built; ./check builds it")
class Calls(ProgramTest):
    """Each call with ample memory, and with each growth that it asks for refused once."""

    def hold_ample(self, name, word, lines=b""):
        """A subtest: with ample memory a call isn't refused."""
        ample = whole(word, lines)
        refusals = b"refused", b"FAULT 1", b"END Memory"
        refused = [line for line in ample if line.startswith(refusals) or b"Thread" in line]
        self.check(f"{name} with ample memory", "" if ample and not refused else f"{refused}")

    def test_what_each_word_shows(self):
        found = expected()
        for word, lines in found.items():
            shown = run([TRIALS, word], (CRATE / "stdin").read_bytes() if word == "program" else b"")
            self.same(word, shown.stdout.decode(), b"".join(lines).decode())
        self.same("words that the file lacks", [word for word in AGAIN if word not in found], LONG)

    @needs_compiler
    def test_calls_that_are_made_again(self):
        for word in AGAIN:
            self.hold_ample(word, word)
            each_growth(self, word, partial(again_outcome, word), {"Memory"})

    @needs_compiler
    def test_consoles(self):
        for name, word, lines, ends in CONSOLES:
            self.hold_ample(name, word, b"".join(lines))
            each_growth(self, name, partial(console_outcome, word, lines), ends)

    @needs_compiler
    def test_a_room(self):
        self.hold_ample("a room", "serve")
        each_growth(self, "a room", served_outcome, {"Thread", "at a console"})


if __name__ == "__main__":
    unittest.main()

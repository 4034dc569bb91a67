"""Each allocation refused in turn: served rooms of two consoles, rooms that are kept, and rooms that go on."""
import unittest

from tests.preloaded import needs_compiler
from tests.refused_growth import LINES, MEMORY, THREAD, UNKEPT, each_growth, replies
from tests.support import UNWRITTEN, ProgramTest, difference

REFUSED = b"FAULT 1 MEMORY\n"


def is_command(line):
    """Whether a line of LINES is a command, which the journal records."""
    return line.split()[0] not in (b"HELLO", b"GLANCE", b"QUIT")


def wrong_replies(asked, wanted):
    """What is wrong with replies, one of them perhaps missing: the others are the wanted ones."""
    return [f"{line}: {reply}, not {want}" for (line, reply), want in zip(asked, wanted, strict=True)
            if reply not in (want, b"")]


def ask_in_turn(consoles):
    """Gives the lines to two consoles in turn, as long as each is answered: a seat, a line and its reply."""
    asked, gone = [], set()
    for place, line in enumerate((*LINES, b"QUIT\n", b"QUIT\n")):
        seat = place % 2
        if seat not in gone:
            said = consoles[seat].say(line)
            reply = said if said.endswith(b"\n") else b""
            asked.append((seat, line, reply))
            gone |= {seat} if reply in (b"", b"BYE\n") else set()
    return asked


def ask_alone(console):
    """Gives the lines to a console, as long as each is answered: a line and its reply."""
    asked = []
    for line in (*LINES, b"QUIT\n"):
        said = console.say(line)
        asked.append((line, said if said.endswith(b"\n") else b""))
        if asked[-1][1] in (b"", b"BYE\n"):
            break
    return asked


def served_outcome(asked, ran):
    """What became of a room that was opened. Its consoles are answered as one console is that gives the commands which
    were carried out, but for the one that was refused; and the journal has these commands."""
    is_unserved = (ran.returncode, ran.stderr) == (1, THREAD)
    served = {seat for seat, _, reply in asked if reply} if is_unserved else {0, 1}
    kept = [(line, reply) for seat, line, reply in asked if seat in served and reply != REFUSED and line != b"QUIT\n"]
    wrong = wrong_replies(kept, replies(tuple(line for line, _ in kept)))
    lost = [line for seat, line, reply in asked if not reply and seat in served]
    refused = [line for _, line, reply in asked if reply == REFUSED]
    wrong += [f"no reply to {lost}, and {refused} refused"] if len(lost) + len(refused) > 1 else []
    commands = [line for line, _ in kept if is_command(line)]
    wrong += difference("standard output", ran.stdout, f"READY\nJOURNAL {len(commands)}\n")
    wrong += [f"{ran}"] if not is_unserved and (ran.returncode, ran.stderr) != (0, b"") else []
    ends = ("at the journal", refused), ("at a reply", lost), ("at a thread", is_unserved), ("without an effect", True)
    return next(end for end, is_met in ends if is_met), "; ".join(wrong)


def kept_outcome(asked, ran, text, given):
    """What became of a kept room that was opened after these commands. Its console is answered as one is that gives the
    commands which were carried out; the file has all of them, but for a last one that wasn't kept and has no reply."""
    # The thread that was refused may be another one than the console's.
    is_unserved = ran.stderr == THREAD and not any(reply for _, reply in asked)
    is_unkept = ran.stderr == UNWRITTEN.encode() + UNKEPT
    kept = [] if is_unserved else [each for each in asked if each[1] != REFUSED and each[0] != b"QUIT\n"]
    wrong = wrong_replies(kept, replies((*given, *(line for line, _ in kept)))[len(given):])
    lost = [line for line, reply in asked if not reply]
    refused = [line for line, reply in asked if reply == REFUSED]
    wrong += [f"no reply to {lost}, and {refused} refused"] if len(lost) + len(refused) > 1 else []
    wrong += ["a command that isn't kept is answered"] if is_unkept and not lost else []
    commands = [*given, *(line for line, _ in kept if is_command(line))]
    wrong += difference("standard output", ran.stdout, f"READY\nJOURNAL {len(commands)}\n")
    wrong += [f"{ran}"] if (ran.returncode, ran.stderr) not in (
        (0, b""), (1, THREAD), (1, UNWRITTEN.encode() + UNKEPT)) else []
    found = [line.split(b"\t")[2].split()[0] for line in text.splitlines()[1:]]
    there = commands[:-1] if is_unkept else commands
    wrong += difference("the journal", b" ".join(found), b" ".join(line.split()[0] for line in there))
    ends = (("unkept", is_unkept), ("at the journal", refused), ("at a thread", is_unserved), ("at a reply", lost),
            ("without an effect", True))
    return next(end for end, is_met in ends if is_met), "; ".join(wrong)


@needs_compiler
class GrowthOfRooms(ProgramTest):
    """Rooms in which one growth was refused."""

    def served_end(self, how):
        """How a room of two consoles ended, whose lines come in turn."""
        room, consoles = self.plain_room(2, **how), []
        has_begun = room.first.startswith(b"READY\n")
        try:
            consoles += [room.console() for _ in range(2)] if has_begun else []
        except (ConnectionRefusedError, ConnectionResetError):
            pass
        asked = ask_in_turn(consoles) if len(consoles) == 2 else []
        for console in consoles:
            console.close()
        ran = room.end()
        if asked:
            return served_outcome(asked, ran)
        if has_begun:
            is_so = (ran.returncode, ran.stdout, ran.stderr) == (1, b"READY\nJOURNAL 0\n", THREAD)
            return "before a console", "" if is_so else f"{ran}"
        is_so = (ran.returncode, ran.stdout) == (1, b"") and ran.stderr in (MEMORY, b"ibm1401: no reader\n")
        return "before READY", "" if is_so else f"{ran}"

    def kept_end(self, how, given=()):
        """How a room ended whose seat is taken again and whose journal is kept: a new one, or one that is resumed after
        its seat gave these commands."""
        path = self.folder / "a.journal"
        path.unlink(missing_ok=True)
        entries = (b"%d\t1\t%s\tOK\n" % (number, line[:-1]) for number, line in enumerate(given, 1))
        begun = b"JOURNAL1 4000\n" + b"".join(entries)
        if given:
            path.write_bytes(begun)
        room = self.room(*(["resume", path] if given else ["serve", "--journal", path]), seats=1, **how)
        try:
            console = room.console() if room.first.startswith(b"READY\n") else None
        except OSError:
            console = None
        asked = ask_alone(console) if console else []
        ran = room.end()
        if console:
            console.close()
        text = path.read_bytes() if path.exists() else None
        if not ran.stdout:
            named = [b"ibm1401: %s: " % bytes(path) + fault for fault in (
                b"cannot be written\n", b"cannot be read\n", b"line 1: 1 MEMORY\n", b"1 MEMORY\n")]
            is_so = (ran.returncode, text) == (1, begun if given else None)
            is_so &= ran.stderr in (MEMORY, UNKEPT, b"ibm1401: no reader\n", *named)
            return "before READY", "" if is_so else f"{ran} {text}"
        if ran.stderr == MEMORY:
            is_so = (ran.returncode, ran.stdout, text) == (1, b"READY\nJOURNAL %d\n" % len(given), begun)
            return "before a console", "" if is_so else f"{ran} {text}"
        return kept_outcome(asked, ran, text, given)

    def test_a_room(self):
        ends = "before READY", "at the journal", "at a reply"
        each_growth(self, "each growth refused", self.served_end, ends)

    def test_a_kept_room(self):
        ends = "before READY", "before a console", "at the journal", "unkept", "at a reply"
        each_growth(self, "each growth refused", self.kept_end, ends)

    def test_a_room_that_goes_on(self):
        ends = "before READY", "before a console", "at the journal", "unkept", "at a reply"
        each_growth(self, "each growth refused", lambda how: self.kept_end(how, (b"START 0001\n",)), ends)


if __name__ == "__main__":
    unittest.main()

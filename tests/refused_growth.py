"""Runs of a program with one allocation refused: a small library in front of the C library's refuses it.

No run may do anything but what a run without a refusal does, up to a named end or with the one command refused."""
from functools import cache

from tests.preloaded import preloading
from tests.support import program

MEMORY = b"ibm1401: memory refused\n"
NO_LINES = b"ibm1401: line 0: 1 MEMORY\n"
THREAD = b"ibm1401: thread refused\n"
UNKEPT = b"ibm1401: session ended: UNKEPT\n"
MOST_GROWTHS = 10_000
# How often each growth is refused, as long as an end isn't met. Where there are several threads, it is chance which of
# them asks for the growth of a number, so one may be left out.
TURNS = 20
# Lines that ask for memory in each way, and others.
LINES = [
    b"DEPOSIT 0500 ~K\n", b"EXAMINE 0500\n", b"HELLO\n", b"DEPOSIT 0600 ~A500500~.\n", b"START 0600\n",
    b"GLANCE 0500\n", b"RUN 1\n", b"REGS\n", b"FEED CARD\n", b"EXAMINE 0500 3\n", b"DEPOSIT 0700 ~2700\n", b"LINE\n",
    b"EXAMINE 0500\n",
]


def each_growth(test, name, attempt, ends):
    """A subtest: an attempt is made for each growth that it asks for, with that one refused, until an attempt meets no
    refusal. An attempt gives the end that it came to, and what is wrong. Each of these ends is met."""
    met, wrong, mark = {}, [], test.folder / "refused"
    for _ in range(TURNS):
        number = 0
        while number < MOST_GROWTHS and not wrong:
            number += 1
            mark.unlink(missing_ok=True)
            end, fault = attempt(preloading("refuse_growth", REFUSED_FILE=mark, REFUSED_GROWTH=number))
            wrong += [f"growth {number}: {fault}"] if fault else []
            if not mark.exists():
                break
            met[end] = met.get(end, 0) + 1
        wrong += [f"{number} runs, and more growths"] if number == MOST_GROWTHS else []
        if wrong or all(end in met for end in ends):
            break
    wrong = wrong or [f"none ended so: {end}, of {met}" for end in ends if end not in met]
    test.check(name, wrong)
    return number - 1


@cache
def replies(lines):
    """The replies to these lines at a new machine with ample memory."""
    return program("console", lines=b"".join(lines)).stdout.splitlines(keepends=True)


def without(lines, place, ample=replies):
    """The replies where the command at this place is refused for memory: the others are those without it."""
    rest = ample((*lines[:place], *lines[place + 1 :]))
    return [*rest[:place], b"FAULT 1 MEMORY\n", *rest[place:]]


def session_end(lines, ran, before):
    """How a session ended in which one growth was refused, or what is wrong with it."""
    if ran.returncode == 1 and not ran.stdout and ran.stderr in before:
        return "before the session", ""
    whole = replies(lines)
    lines_out = ran.stdout.splitlines(keepends=True)
    if ran.returncode == 1 and ran.stderr == b"ibm1401: session ended: MEMORY\n":
        is_part = lines_out == whole[: len(lines_out)] and len(lines_out) < len(whole)
        return "at a reply", "" if is_part else f"{lines_out}"
    if ran.returncode == 0 and not ran.stderr and b"FAULT 1 MEMORY\n" in lines_out:
        place = lines_out.index(b"FAULT 1 MEMORY\n")
        return "at the journal", "" if lines_out == without(lines, place) else f"{lines_out}"
    return "without an effect", "" if (ran.returncode, lines_out, ran.stderr) == (0, whole, b"") else f"{ran}"


def written_end(ran, whole, faults):
    """How a call that writes one text ended."""
    if ran.returncode == 1 and not ran.stdout and ran.stderr in faults:
        return ran.stderr.decode().split(": ", 1)[1].strip(), ""
    return "without an effect", "" if (ran.returncode, ran.stdout, ran.stderr) == (0, whole, b"") else f"{ran}"

"""Lines, decks, images and sources of chance: whatever comes, each answer is one of those that there are.

Half of what is given is a damaged copy of an example. One seed is always the same, and another is made of the sources,
so each change of them tries something else, and the same sources are tried alike everywhere. CHANCE_SEED=n python3 -m
unittest tests.tools.test_chance tries another one."""
import os
import random
import re
import socket
import struct
import unittest
import zlib

from tests.session_texts import GRAPHICS
from tests.source_texts import read_sources
from tests.chains import DOUBTFUL, SIMH
from tests.support import EXAMPLES, TESTS, TOP, ProgramTest, program

OLD_DECKS = [each.text.encode() for file in ("old_decks.txt", "literals.txt")
             for each in read_sources((TESTS / "sources" / file).read_text())]

def seed_of_sources():
    """A seed that is another one for other sources."""
    texts = (each.read_bytes() for each in sorted((TOP / "crates").glob("*/src/**/*.rt")))
    return zlib.crc32(b"".join(texts))


SEEDS = 1401, int(os.environ.get("CHANCE_SEED", seed_of_sources()))

ONE = f"[{re.escape(GRAPHICS)}]"
STOPS = "LIMIT HALT READER FORMS STACKER NOMARK OPCODE LENGTH ADDRESS OVERLAP CARRIAGE NOTFITTED DCHAR TAPE".split()
REFUSED = "ADDRESS HOPPER READER EMPTY LIMIT COUNT".split()
ERRORS = "WORD NUMBER GRAPHIC LENGTH EXTRA".split()
KINDS = ("MEMORY|LONG LINE|GRAPHIC|LABEL|DOUBLE LABEL|OPERATION|UNDEFINED|OPERAND|OUT OF CORE|NO END|"
         "AFTER END").split("|")
IMAGES = "MEMORY HEADER RECORD RANGE TRUNCATED".split()


def numbered(names, digits=1):
    """The names with their numbers in front, as a pattern."""
    return "|".join(f"{number:0{digits}} {name}" for number, name in enumerate(names, 1))


REPLY = re.compile(
    rf"OK|BYE|(?:~?{ONE}){{1,40}}|AFTER \d{{1,6}} ~?{ONE}|GLANCE FAULT 1 RANGE"
    r"|I=\d{5} A=\d{5} B=\d{5} UNEQUAL=[01] LOW=[01] HIGH=[01] OVERFLOW=[01] SWITCHES=[A-G-]{7}"
    r" HOPPER=\d{3} STACKER=\d{3} PAPER=\d{3} FORM=\d{4} LINE=\d\d"
    rf"|STOP (?:{numbered(STOPS, 2)}) STEPS \d{{1,7}} I \d{{5}}|LINE \d{{4}} \d\d (?:{ONE}{{0,132}})|CARD {ONE}{{0,80}}"
    rf"|REFUSED (?:{numbered(REFUSED)})|ERROR (?:{numbered(ERRORS)})|FAULT 2 JOURNAL FULL"
)
IMAGE = re.compile(rf"IMAGE2 \d{{5}}\n(?:\d{{5}} \d\d (?:~?{ONE}){{1,40}}\n)*END \d{{5}}\n")
LISTING = re.compile(rf"(?:\d{{5}} [^\n]*\n)+")
JOB = re.compile(
    rf"ibm1401: ({'|'.join(STOPS)}) at \d{{4,5}}(?: \([^\n]+\))?(?:: [^\n]+)? after \d+ steps?;"
    r" \d+ cards? read, \d+ lines? printed, \d+ cards? punched\n"
)
WORDS = [
    b"DEPOSIT", b"EXAMINE", b"REGS", b"START", b"SWITCH", b"FEED", b"LOAD", b"RUN", b"LINE", b"CARD", b"GLANCE",
    b"QUIT ", b"ON", b"OFF", b"A", b"G", b"0", b"1", b"40", b"41", b"500", b"3999", b"4000", b"15999", b"16000",
    b"1000", b"9999999", b"00000001", b"~A", b"~.", b"~M500600~.", b"~", b"", b"\r", b"\t", b"\0", b"\xff",
    b"~,008015~2~.", b" ",
]


def damaged(chance, text):
    """A copy of a text with some bytes changed, taken out, doubled or moved."""
    text = bytearray(text)
    for _ in range(chance.randint(1, 6)):
        at = chance.randrange(len(text) + 1)
        end = min(len(text), at + chance.choice([1, 1, 2, 10, 60]))
        kind = chance.randrange(4)
        if kind == 0 and at < len(text):
            text[at] = chance.choice([chance.randrange(256), 10, 32, 126, ord(chance.choice(GRAPHICS))])
        elif kind == 1:
            del text[at:end]
        elif kind == 2:
            text[at:at] = text[at:end]
        else:
            count = chance.randint(1, 90)
            text[at:at] = bytes(chance.choice([chance.randrange(256), 32, 48, 126]) for _ in range(count))
    return bytes(text)


def lines_of_chance(chance):
    """Lines made of words of the console, of bytes, or of an example's lines."""
    if chance.random() < 0.5:
        return damaged(chance, chance.choice(sorted(EXAMPLES.glob("*.console"))).read_bytes())
    lines = []
    for _ in range(chance.randint(0, 60)):
        words = [chance.choice(WORDS) for _ in range(chance.randint(0, 4))]
        lines.append(chance.choice([b" ", b" ", b"  "]).join(words))
    return b"\n".join(lines) + chance.choice([b"\n", b"", b"\r\n"])


def answered(lines):
    """How many replies these lines have: one for each that isn't empty, up to QUIT."""
    count = 0
    for line in lines.split(b"\n")[:-1]:
        line = line[:-1] if line.endswith(b"\r") else line
        count += len(line) > 200 or line.strip(b" ") != b""
        if len(line) <= 200 and line.strip(b" ") == b"QUIT":
            return count
    return count + (lines.split(b"\n")[-1].strip(b" ") != b"" or len(lines.split(b"\n")[-1]) > 200)


def unlike(replies):
    """The first line that is no reply, if there is one."""
    return next((repr(line) for line in replies.decode("latin-1").split("\n")[:-1] if not REPLY.fullmatch(line)), "")


def session(chance):
    """A session with lines of chance."""
    lines = lines_of_chance(chance)
    size = chance.choice(["1400", "2000", "4000", "8000", "12000", "16000"])
    ran = program("console", "--size", size, lines=lines)
    if (ran.returncode, ran.stderr) != (0, b"") or ran.stdout.count(b"\n") != answered(lines):
        return f"{lines!r}: status {ran.returncode}, {ran.stderr!r}, {ran.stdout!r}"
    return f"{lines!r}: {unlike(ran.stdout)}" if unlike(ran.stdout) else ""


def image(chance, file):
    """A session with an image of chance."""
    text = chance.choice(sorted(EXAMPLES.glob("*.image"))).read_bytes()
    text = damaged(chance, text) if chance.random() < 0.9 else chance.randbytes(chance.randrange(100))
    file.write_bytes(text)
    ran = program("load", file, lines=b"REGS\nQUIT\n")
    fault = rf"ibm1401: image refused: (?:{numbered(IMAGES)})\n"
    is_refused = ran.returncode == 1 and not ran.stdout and re.fullmatch(fault, ran.stderr.decode())
    is_loaded = (ran.returncode, ran.stderr, ran.stdout.count(b"\n"), unlike(ran.stdout)) == (0, b"", 2, "")
    return "" if is_refused or is_loaded else f"{text!r}: status {ran.returncode}, {ran.stderr!r}, {ran.stdout!r}"


def listing(chance, file):
    """The instructions and data of an image of chance: what `load` refuses isn't listed, for the same fault."""
    text = chance.choice(sorted(EXAMPLES.glob("*.image"))).read_bytes()
    file.write_bytes(damaged(chance, text) if chance.random() < 0.9 else text)
    loaded, listed = program("load", file, lines=b""), program("disassemble", file)
    is_alike = (listed.returncode, listed.stderr) == (loaded.returncode, loaded.stderr)
    is_listing = LISTING.fullmatch(listed.stdout.decode("latin-1")) if loaded.returncode == 0 else not listed.stdout
    return "" if is_alike and is_listing else f"{file.read_bytes()!r}: {loaded.stderr!r}, {listed}"


def deck(chance, file):
    """A program run with a deck of chance: it ends at a stop, or the deck is refused for a line and a column of it."""
    source = EXAMPLES / "sales.source"
    text = source.with_suffix(".cards").read_bytes()
    text = damaged(chance, text) if chance.random() < 0.9 else chance.randbytes(chance.randrange(200))
    file.write_bytes(text)
    words = ["run", source, "--cards", file, "--switches", "A", "--limit", "100000"]
    ran = program(*words)
    small = f"ibm1401: {file}: small letters are read as capitals\n"
    suggested = DOUBTFUL if re.search(rb"[=(+]", text) else SIMH if re.search(rb"[{|~}]", text) else None
    suggested = f"ibm1401: {file}: {suggested}\n" if suggested else ""
    reported = ran.stderr.decode("latin-1")
    if not reported.startswith(suggested):
        return f"{text!r}: {ran.stderr!r} doesn't begin with {suggested!r}"
    reported = reported.removeprefix(suggested)
    has_small_report = reported.startswith(small)
    reported = reported.removeprefix(small).removeprefix(f"ibm1401: {file}: ")
    faults = "no card has this character|a card has 80 columns"
    refused = re.fullmatch(rf"line (\d+), column (\d+): (?:{faults})\n", reported)
    is_refused = refused and not ran.stdout and int(refused[1]) <= text.count(b"\n") + 1 and int(refused[2]) <= 81
    ended = JOB.fullmatch(reported)
    has_small = re.search(rb"[a-z]", text) is not None
    is_ended = ended and (ran.returncode == 0) == (ended[1] == "HALT") and has_small_report == has_small
    is_so = ran.returncode in (0, 1) and (is_refused or is_ended)
    return "" if is_so else f"{text!r}: status {ran.returncode}, {ran.stderr!r}, {ran.stdout!r}"


def source(chance, file):
    """An assembly of a source of chance."""
    text = chance.choice(sorted(EXAMPLES.glob("*.source"))).read_bytes()
    text = damaged(chance, text) if chance.random() < 0.9 else chance.randbytes(chance.randrange(200))
    file.write_bytes(text)
    ran = program("assemble", file)
    reported = re.fullmatch(rf"ibm1401: line (\d+): (?:{numbered(KINDS)})\n", ran.stderr.decode())
    is_refused = ran.returncode == 1 and not ran.stdout and reported and 1 <= int(reported[1]) <= text.count(b"\n") + 2
    is_written = (ran.returncode, ran.stderr) == (0, b"") and IMAGE.fullmatch(ran.stdout.decode("latin-1"))
    return "" if is_refused or is_written else f"{text!r}: status {ran.returncode}, {ran.stderr!r}, {ran.stdout!r}"


def reports_of(file, ran):
    """The numbers and the kinds of what `--all` reports of a source, each line in its form; none if one isn't."""
    form = rf"{re.escape(str(file))}:(\d+):\d+: ({'|'.join(KINDS)}|WARNING): [^\n]*"
    text = ran.stderr.decode("latin-1").removeprefix(f"ibm1401: {file}: {SIMH}\n")
    lines = [re.fullmatch(form, line) for line in text.split("\n")[:-1]]
    return [(line[1], line[2]) for line in lines] if all(lines) else None


def source_in_both(chance, file):
    """A source of chance in both languages: of what the plain one takes the wider one writes the same, and `--all`
    reports its fault before all others, or warnings."""
    examples = [source.read_bytes() for source in sorted(EXAMPLES.glob("*.source"))]
    text = damaged(chance, chance.choice(chance.choice([examples, OLD_DECKS])))
    file.write_bytes(text)
    plain, wider, whole = (program("assemble", *words, file) for words in (
        [], ["--language", "ibm"], ["--language", "ibm", "--all"]
    ))
    reported = reports_of(file, whole)
    fault = re.fullmatch(rf"ibm1401: line (\d+): \d+ ({'|'.join(KINDS)})\n", wider.stderr.decode())
    is_same = plain.returncode != 0 or (wider.returncode, wider.stdout, wider.stderr) == (0, plain.stdout, b"")
    if wider.returncode == 0:
        is_image = IMAGE.fullmatch(wider.stdout.decode("latin-1"))
        is_so = is_image and (whole.returncode, whole.stdout) == (0, wider.stdout)
        is_reported = reported is not None and all(kind == "WARNING" for _, kind in reported)
    else:
        is_so = fault and (wider.stdout, whole.returncode, whole.stdout) == (b"", 1, b"")
        is_reported = bool(reported) and fault and reported[0] == (fault[1], fault[2])
    return "" if is_same and is_so and is_reported else f"{text!r}: {plain}, {wider}, {whole}"


def operator(chance, console):
    """What an operator of chance does to a connection before leaving it, and what is wrong with what came back."""
    replies = b""
    try:
        console.sendall(lines_of_chance(chance).replace(b"RUN 9999999", b"RUN 9"))
        kind = chance.randrange(4)
        if kind == 0:
            console.setsockopt(socket.SOL_SOCKET, socket.SO_LINGER, struct.pack("ii", 1, 0))
        elif kind == 1:
            console.shutdown(socket.SHUT_WR)
        else:
            console.sendall(b"\nQUIT\n" if kind == 2 else b"\nREGS")
            console.shutdown(socket.SHUT_WR)
        while kind != 0 and (more := console.recv(1 << 16)):
            replies += more
    except OSError:
        pass
    console.close()
    return unlike(replies)


def wrong_room(chance, room):
    """What is wrong with a room whose operators do as chance has it. One that keeps to its lines is answered all the
    same."""
    steady, wrong = room.console(), []
    others = [room.console() for _ in range(3)]
    steady.sendall(b"EXAMINE 3990\n" * 20)
    for console in others:
        wrong.append(operator(chance, console))
    steady.sendall(b"QUIT\n")
    replies = steady.hear()
    steady.close()
    ran = room.end()
    ended = (ran.returncode, ran.stderr) == (0, b"") and re.fullmatch(rb"READY\nJOURNAL (\d+)\n", ran.stdout)
    wrong += [] if replies.count(b"\n") == 21 and replies.endswith(b"BYE\n") else [repr(replies)]
    wrong += [] if ended and int(ended[1]) >= 20 else [f"{ran}"]
    return "; ".join(each for each in wrong if each)


class Chance(ProgramTest):
    """What chance brings, for a seed that stays and for that of the sources."""

    def attempt(self, times, attempt):
        """A subtest for each seed: this many attempts, until something is wrong."""
        for seed in SEEDS:
            chance = random.Random(seed)
            self.check(f"CHANCE_SEED={seed}", next(filter(None, (attempt(chance) for _ in range(times))), ""))

    def test_sessions(self):
        self.attempt(250, session)

    def test_images(self):
        self.attempt(150, lambda chance: image(chance, self.folder / "a file"))

    def test_sources(self):
        self.attempt(150, lambda chance: source(chance, self.folder / "a file"))

    def test_listings(self):
        self.attempt(75, lambda chance: listing(chance, self.folder / "a file"))

    def test_decks(self):
        self.attempt(75, lambda chance: deck(chance, self.folder / "a file"))

    def test_rooms(self):
        self.attempt(12, lambda chance: wrong_room(chance, self.plain_room(4)))

    def test_sources_in_both_languages(self):
        self.attempt(150, lambda chance: source_in_both(chance, self.folder / "a file"))


if __name__ == "__main__":
    unittest.main()

"""The command line: each option of each subcommand, alone, changes what the program does, or is refused.

A row is a call with and without the option, and what differs: the status, the output, or a file. The last test reads
the options from the program's own help, so an option without a row is noticed.
"""
import os
import re
import resource
import shutil
import signal
import socket
import subprocess
import sys
import tempfile
import unittest
from pathlib import Path

sys.dont_write_bytecode = True
from tests.chains import DOUBTFUL, SIMH, SOURCE_SIMH
from tests.support import PORTS_TRIED, SECONDS, at_a_port, free_ports, needs

TOP = Path(__file__).resolve().parents[2]
PROGRAM = Path(os.environ.get("IBM1401", TOP / "crates/ibm1401/out/ibm1401"))
MISUSE = 2

# A source that both languages take, one that the wider language alone takes, and one with two faults.
SOURCE = """\
     START     MLC  A,B
               H
     A         DCW  @X@
     B         DCW  @Y@
               END  START
"""
WIDE = SOURCE.replace("MLC", "mlc")
# One with a group mark, and the same in SIMH's graphics.
MARKED = SOURCE.replace("@X@", '@"@')
SIMHS = SOURCE.replace("@X@", "@}@")
FAULTY = "               BOO\n               BOO\n               END  333\n"
# A program that reads two cards if there are two, prints and punches the first, and halts on if switch B is on.
JOB = """\
               ORG  400
     START     SW   1
               R
               MLC  80,280
               MLC  80,180
               W
               P
               BSS  ON,B
               H
     ON        H
               DCW  @ @
               END  START
"""
# A program that is beyond a small core.
HIGH = """\
               ORG  1399
     START     NOP
     HIGH      H
               DCW  @ @
               END  START
"""
# A card that branches to a place beyond a small core.
DECK = "BV00\n"
# A reel with a record of the characters AB^ and a tape mark, and one with the record of that card.
REEL = "\3\0\0\0" "12\x10\0" "\3\0\0\0" "\0\0\0\0"
OF_DECK = "P\0\0\0" "2\x15\n\n" + 76 * "\0" + "P\0\0\0" "\0\0\0\0"
# A program that multiplies 12 by 34.
TIMES = """\
               ORG  400
     START     M    A,PROD
               H
     A         DCW  12
     PROD      DCW  34000
               END  START
"""
JOURNAL = "JOURNAL1 1400\n1\t1\tDEPOSIT 0500 ~A\tOK\n2\t2\tDEPOSIT 0500 ~B\tOK\n3\t1\tEXAMINE 0500 1\t~B\n"


def refuse_writes():
    """Has each write to a file fail in a process that is begun."""
    signal.signal(signal.SIGXFSZ, signal.SIG_IGN)
    resource.setrlimit(resource.RLIMIT_FSIZE, (0, 0))


class Room:
    """A folder of its own for a call, with the files that calls name."""

    def __init__(self, test):
        folder = tempfile.TemporaryDirectory()
        test.addCleanup(folder.cleanup)
        self.path = Path(folder.name)
        texts = {"source": SOURCE, "wide": WIDE, "faulty": FAULTY, "job": JOB, "high": HIGH, "journal": JOURNAL}
        texts |= {"another": JOURNAL, "another.2": NEXT_JOURNAL}
        texts.update({"marked": MARKED, "simhs": SIMHS, "plus": "A+B\n", "lines": "evaluate 400\n", "times": TIMES})
        for name, text in {**texts, "cards": "FIRST\nSECOND\n", "deck": DECK, "reel": REEL}.items():
            (self.path / name).write_text(text)
        shutil.copy(TOP / "examples/five_and_five.image", self.path / "image")
        (self.path / "folder").mkdir()

    def run(self, words, lines=""):
        """The status of a call, its output, its standard error, and the files that it made or changed, by name."""
        before = {each.name: each.read_bytes() for each in self.path.iterdir() if each.is_file()}
        ran = subprocess.run([PROGRAM, *words], cwd=self.path, input=lines, text=True, capture_output=True,
                             timeout=SECONDS, check=False)
        files = {each.name: each.read_text() for each in self.path.iterdir()
                 if each.is_file() and each.read_bytes() != before.get(each.name)}
        return ran.returncode, ran.stdout, ran.stderr, files


SYNC_LIBRARY = next(each for each in (TOP / "tests/refuse_sync.c", TOP / "checks/refuse_sync.c") if each.exists())
ONE_EACH = "1 card read, 1 line printed, 1 card punched\n"
NONE = "0 cards read, 0 lines printed, 0 cards punched\n"
HALTED = f"ibm1401: HALT at 0426 (line 9, H) after 8 steps; {ONE_EACH}"
NO_CARD = f"ibm1401: READER at 0404 (line 3, R): no card in the hopper after 1 step; {NONE}"
STEPS = "00400\t~,001    \tSW   001            \t00000\t00000\t00001| |~ \n"
STEPS += "00404\t~1       \tR                   \t00000\t00000\tREADER\n"
IMAGE = "IMAGE2 04000\n00333 10 ~M341342~.~X~Y\nEND 00333\n"
MARKED_IMAGE = IMAGE.replace("X", '"')
OWN_DECK = (
    ",008015,022029,036040,044051,056060/I99H039C039062B036/1001099\n"
    ",047055,059063,067071,075079)044056,181L199099)060)081)181/039,0011040\n"
    f"{'M341342.':8}\"{'Y':30}L039371,340,341,342,040,040,040,0401040\n{'':39}/333080\n"
)
PLUS = f"ibm1401: plus: {DOUBTFUL}\n"
SYMBOLS = "START  00333 00007 0001\nA      00341 00001 0003\nB      00342 00001 0004\n"
REFERENCES = "START  0001 0005\nA      0003 0001\nB      0004 0001\n"
LISTING = "".join(f"{front} {line}\n" for front, line in zip(
    ["0001 00333 M341342 ", "0002 00340 .       ", "0003 00341 X       ", "0004 00342 Y       ", "0005 00333         "],
    SOURCE.splitlines(), strict=True))
LOADED = "1\t0\tDEPOSIT 0400 ~?423420~A423420~.414~   ~HI~E\tOK\n2\t0\tSTART 0400\tOK\n"
LAST_PLACE = "EXAMINE 1400\nQUIT\n"
NEXT_JOURNAL = "JOURNAL1 1400\n1\t1\tDEPOSIT 0500 ~A\tOK\n"
CELL = "EXAMINE 0500\nQUIT\n"
SHOWN = ["1 seat 1  DEPOSIT 0500 ~A              OK\n", "2 seat 2  DEPOSIT 0500 ~B              OK\n",
         "3 seat 1  EXAMINE 0500 1               ~B\n"]
EACH_FEATURE = "FIT MULTIPLY MOVE-RECORD MODIFY-ADDRESS BIT-TEST LENGTHS READ-PUNCH-RELEASE TAPES"
TIMES_IMAGE = "IMAGE2 04000\n00400 15 ~@409414~.~12~34000\nEND 00400\n"
TIMES_HALTED = f"ibm1401: HALT at 0407 (line 3, H) after 2 steps; {NONE}"
WITHOUT_2 = "JOURNAL1 1400\n1\t1\tDEPOSIT 0500 ~A\tOK\n2\t1\tEXAMINE 0500 1\t~A\n3\t0\tEXAMINE 0500 1\t~A\n"

AT_POWER_ON = "4000 places; next is 0000; help lists the words\n"
JOB_READY = "job: 4000 places; next is 0400 (line 2, START SW 1); help lists the words\n"
SOURCE_READY = "source: 4000 places; next is 0333 (line 1, START MLC A,B); help lists the words\n"

# A call, the lines that it is given, and its status, output, standard error (None: some) and files. The first row of a
# block is a call without the option that each next row adds.
ROWS = [
    ("console", LAST_PLACE, 0, " \nBYE\n", "", {}),
    ("console --size 1400", LAST_PLACE, 0, "REFUSED 1 ADDRESS\nBYE\n", "", {}),
    ("console --journal new", LAST_PLACE, 0, " \nBYE\n", "", {"new": "JOURNAL1 4000\n1\t0\tEXAMINE 1400 1\t \n"}),
    ("console --sync", LAST_PLACE, MISUSE, "", None, {}),
    ("console --fit lengths,multiply --journal new", CELL, 0, " \nBYE\n", "",
     {"new": "JOURNAL1 4000\n1\t0\tFIT MULTIPLY LENGTHS\tOK\n2\t0\tEXAMINE 0500 1\t \n"}),
    ("console --fit all --journal new", "", 0, "", "", {"new": f"JOURNAL1 4000\n1\t0\t{EACH_FEATURE}\tOK\n"}),
    ("console --fit all", "DEPOSIT 0400 ~.700800~.\nSTART 0400\nRUN 1\n", 0,
     "OK\nOK\nSTOP 02 HALT STEPS 1 I 00407\n", "", {}),
    ("console --fit lengths,lengths", "", MISUSE, "", None, {}),
    ("console --fit all,lengths", "", MISUSE, "", None, {}),
    ("console --fit lengths --fit multiply", "", MISUSE, "", None, {}),
    ("console --fit print-edit", "", MISUSE, "", None, {}),
    ("console --fit LENGTHS", "", MISUSE, "", None, {}),
    ("console --fit", "", MISUSE, "", None, {}),
    ("assemble source", "", 0, IMAGE, "", {}),
    ("assemble --output new source", "", 0, "", "", {"new": IMAGE}),
    ("assemble -o new source", "", 0, "", "", {"new": IMAGE}),
    ("assemble --list source", "", 0, LISTING, "", {}),
    ("assemble --symbols source", "", 0, SYMBOLS, "", {}),
    ("assemble --xref source", "", 0, REFERENCES, "", {}),
    ("assemble --size 1400 source", "", 0, IMAGE.replace("04000", "01400"), "", {}),
    ("assemble faulty", "", 1, "", "ibm1401: line 1: 6 OPERATION\n", {}),
    ("assemble --all faulty", "", 1, "",
     "faulty:1:16: OPERATION: BOO isn't an operation\nfaulty:2:16: OPERATION: BOO isn't an operation\n", {}),
    ("assemble wide", "", 1, "", "ibm1401: line 1: 3 GRAPHIC\n", {}),
    ("assemble --language ibm wide", "", 0, IMAGE, "", {}),
    ("assemble simhs", "", 1, "", "ibm1401: line 3: 3 GRAPHIC\n", {}),
    ("assemble --graphics ours simhs", "", 1, "", f"ibm1401: simhs: {SOURCE_SIMH}\nibm1401: line 3: 3 GRAPHIC\n", {}),
    ("assemble --all simhs", "", 1, "", f"ibm1401: simhs: {SIMH}\nsimhs:3:22: GRAPHIC: the byte }} isn't allowed "
     "in this column\n", {}),
    ("assemble --graphics simh simhs", "", 0, MARKED_IMAGE, "", {}),
    ("assemble --source-graphics simh simhs", "", 0, MARKED_IMAGE, "", {}),
    ("assemble --deck new marked", "", 0, "", "", {"new": OWN_DECK}),
    ("assemble --deck new --out-graphics simh marked", "", 0, "", "", {"new": OWN_DECK.replace('"', "}")}),
    ("load image", LAST_PLACE, 0, " \nBYE\n", "", {}),
    ("load --journal new image", LAST_PLACE, 0, " \nBYE\n", "",
     {"new": f"JOURNAL1 4000\n{LOADED}3\t0\tEXAMINE 1400 1\t \n"}),
    ("load --fit bit-test --journal new image", "", 0, "", "",
     {"new": "JOURNAL1 4000\n1\t0\tFIT BIT-TEST\tOK\n2\t0\tDEPOSIT 0400 ~?423420~A423420~.414~   ~HI~E\tOK\n"
             "3\t0\tSTART 0400\tOK\n"}),
    ("load --fit bit-test image", LAST_PLACE, 0, " \nBYE\n", "", {}),
    ("load --fit all,all image", "", MISUSE, "", None, {}),
    ("load --sync image", LAST_PLACE, MISUSE, "", None, {}),
    ("run job", "", 1, "", NO_CARD, {}),
    ("disassemble --load deck", "", 0, "00001*BV00     B    1500\n01500          END  1500\n", "", {}),
    ("disassemble --load --size 1400 deck", "", 1, "", "ibm1401: the deck isn't loaded: NOMARK at 1500\n", {}),
    ("disassemble --load --graphics simh deck", "", 0, "00001*BV00     B    1500\n01500          END  1500\n", "", {}),
    ("disassemble --graphics simh deck", "", MISUSE, "", None, {}),
    ("reel reel", "", 0, "000001 00003 AB^\n000002 TAPE MARK\nRECORDS 1 TAPE MARKS 1 CHARACTERS 3\n", "", {}),
    ("reel --even-parity reel", "", 0,
     "000001 00003 AB \n000002 TAPE MARK\nRECORDS 1 TAPE MARKS 1 CHARACTERS 3\n", "", {}),
    ("reel --deck new reel", "", 0, "", "", {"new": "AB^\n"}),
    ("reel --deck new --even-parity reel", "", 0, "", "", {"new": "AB\n"}),
    ("reel --from-deck -o new deck", "", 0, "", "", {"new": OF_DECK}),
    ("reel --from-deck --output new --even-parity deck", "", 0, "", "",
     {"new": OF_DECK[:8] + 76 * "\x10" + OF_DECK[84:]}),
    ("reel --from-deck --graphics fortran -o new plus", "", 0, "", "",
     {"new": "P\0\0\0" "102" + 77 * "\0" + "P\0\0\0" "\0\0\0\0"}),
    ("reel --from-deck deck", "", MISUSE, "", None, {}),
    ("reel --graphics simh reel", "", MISUSE, "", None, {}),
    ("reel -o new reel", "", MISUSE, "", None, {}),
    ("reel --from-deck -o new --deck other deck", "", MISUSE, "", None, {}),
    ("run --load --image new deck", "", 1, "", None, {"new": "IMAGE2 04000\n00001 04 ~BV00\nEND 01500\n"}),
    ("run --image new job", "", MISUSE, "", None, {}),
    ("run --cards plus --punch new job", "", 0, "A+B\n", PLUS + HALTED, {"new": "A+B\n"}),
    ("run --cards plus --punch new --out-graphics fortran job", "", 0, "A+B\n", PLUS + HALTED, {"new": 'A"B\n'}),
    ("run --cards plus --punch new --graphics fortran --source-graphics ours job", "", 0, "A&B\n", HALTED,
     {"new": "A+B\n"}),
    ("run --cards cards job", "", 0, "FIRST\n", HALTED, {}),
    ("run --cards cards --punch new job", "", 0, "FIRST\n", HALTED, {"new": "FIRST\n"}),
    ("run --cards cards --paper new job", "", 0, "", HALTED, {"new": "FIRST\n"}),
    ("run --cards cards --switches B job", "", 0, "FIRST\n", HALTED.replace("0426 (line 9, H)", "0427 (line 10, ON H)"),
     {}),
    ("run --trace new job", "", 1, "", NO_CARD, {"new": STEPS}),
    ("run --limit 1 job", "", 1, "", NO_CARD.replace("READER", "LIMIT").replace(
        "no card in the hopper", "the step limit was reached"), {}),
    ("run --load job", "", 1, "",
     "ibm1401: OPCODE at 0001 ( 000,000,): the character blank is no operation after 0 steps; "
     f"{NONE.replace('0 cards', '1 card', 1)}", {}),
    ("run wide", "", 1, "",
     "wide:1:16: GRAPHIC: the small letter m isn't allowed in this column\nibm1401: line 1: 3 GRAPHIC\n", {}),
    ("run --language ibm wide", "", 0, "", f"ibm1401: HALT at 0340 (line 2, H) after 2 steps; {NONE}", {}),
    ("run high", "", 0, "", f"ibm1401: HALT at 1400 (line 3, HIGH H) after 2 steps; {NONE}", {}),
    ("run --size 1400 high", "", 1, "", "high:3:1: OUT OF CORE: its last place is 1400, 1 past the last place in "
     "core, 1399, which --size sets\nibm1401: line 3: 9 OUT OF CORE\n", {}),
    ("run --language ibm times", "", 1, "", None, {}),
    ("run --language ibm --fit multiply times", "", 0, "", TIMES_HALTED, {}),
    ("run --language ibm --fit lengths times", "", 1, "", None, {}),
    ("run --fit multiply,multiply job", "", MISUSE, "", None, {}),
    ("run --tape 1=reel job", "", 1, "", NO_CARD.replace("punched", "punched, tape 1 at record 0 of 2"), {}),
    ("run --tape 1=reel --tape 2=new:new job", "", 1, "",
     NO_CARD.replace("punched", "punched, tape 1 at record 0 of 2, tape 2 at record 0 of 0"), {"new": ""}),
    ("run --tape 1=reel --tape 1=:scratch job", "", MISUSE, "", None, {}),
    ("run --tape 7=reel job", "", MISUSE, "", None, {}),
    ("run --load-tape 1=reel", "", 1, "", "ibm1401: NOMARK at 0001: no word mark at 001 after 0 steps; "
     + NONE.replace("punched", "punched, tape 1 at record 1 of 2"), {}),
    ("run --load-tape 1=reel job", "", MISUSE, "", None, {}),
    ("assemble --language ibm --all times", "", 0, TIMES_IMAGE,
     "times:2:16: WARNING: this machine has no instruction of this operation and length\n", {}),
    ("assemble --language ibm --all --fit lengths,multiply times", "", 0, TIMES_IMAGE, "", {}),
    ("assemble --fit multiply,multiply source", "", MISUSE, "", None, {}),
    ("serve --port 1401 --seats 2 --fit all,all", "", MISUSE, "", None, {}),
    ("resume --fit all journal", "", MISUSE, "", None, {}),
    ("journal journal", "", 0, "".join(SHOWN), "", {}),
    ("journal --seat 1 journal", "", 0, SHOWN[0] + SHOWN[2], "", {}),
    ("journal --from 3 journal", "", 0, SHOWN[2], "", {}),
    ("journal --check journal", "", 0, "3 entries\n", "", {}),
    ("resume journal", CELL, 0, "~B\nBYE\n", "", {"journal": f"{JOURNAL}4\t0\tEXAMINE 0500 1\t~B\n"}),
    ("resume --journal new journal", CELL, 0, "~B\nBYE\n", "", {"new": f"{JOURNAL}4\t0\tEXAMINE 0500 1\t~B\n"}),
    ("resume --until 1 journal", CELL, 0, "~A\nBYE\n", "", {}),
    ("resume --last another", CELL, 0, "~A\nBYE\n", "", {"another.2": f"{NEXT_JOURNAL}2\t0\tEXAMINE 0500 1\t~A\n"}),
    ("resume another", CELL, 0, "~B\nBYE\n", "", {"another": f"{JOURNAL}4\t0\tEXAMINE 0500 1\t~B\n"}),
    ("resume --without 2 journal", CELL, MISUSE, "", None, {}),
    ("resume --without 1,x --journal new journal", CELL, MISUSE, "", None, {}),
    ("resume --without 2 --journal new journal", CELL, 0, "~A\nBYE\n", "", {"new": WITHOUT_2}),
    ("resume --until 1 --sync journal", CELL, MISUSE, "", None, {}),
    ("resume --port 1401 journal", CELL, MISUSE, "", None, {}),
    ("resume --page 1401 journal", CELL, MISUSE, "", None, {}),
    ("resume --seats 2 journal", CELL, MISUSE, "", None, {}),
    ("serve --port 1401", "", MISUSE, "", None, {}),
    ("serve --page 1401", "", MISUSE, "", None, {}),
    ("serve --seats 2", "", MISUSE, "", None, {}),
    ("serve --port 1401 --seats 2 --sync", "", MISUSE, "", None, {}),
    ("serve --port 1401 --seats 2 --origin https://museum.example", "", MISUSE, "", None, {}),
    ("resume --port 1401 --seats 2 --origin https://museum.example journal", "", MISUSE, "", None, {}),
    ("serve --port 1401 --seats 2 --image image --size 4000", "", MISUSE, "", None, {}),
    ("serve --port 1401 --seats 2 --graphics simh", "", MISUSE, "", None, {}),
    ("serve --port 1401 --seats 2 --renew-after 5", "", MISUSE, "", None, {}),
    ("resume --port 1401 --seats 2 --renew-after 5 journal", "", MISUSE, "", None, {}),
    ("resume --renew-after 5 journal", "", MISUSE, "", None, {}),
    ("assemble -o new --deck new source", "", MISUSE, "", None, {}),
    ("operate", "evaluate 400\n", 0, f"{AT_POWER_ON}400, spelled 400\n", "", {}),
    ("operate --echo", "evaluate 400\n", 0, f"{AT_POWER_ON}1401> evaluate 400\n400, spelled 400\n", "", {}),
    ("operate --size 1400", "", 0, AT_POWER_ON.replace("4000", "1400"), "", {}),
    ("operate --size 1401", "", 1, "",
     "ibm1401: size refused: core storage has 1400, 2000, 4000, 8000, 12000 or 16000 places\n", {}),
    ("operate --do lines", "", 0, f"{AT_POWER_ON}400, spelled 400\n", "", {}),
    ("operate --limit 5", "deposit 600 ~B600~.\ngo 600\n", 0, f"{AT_POWER_ON}00600  ~B600~.\nLIMIT: 5 steps were "
     "carried out, and nobody is at a terminal to stop it\nnext is 0600 (B 600)\n", "", {}),
    ("operate --journal new", "deposit 500 ~A\n", 0, f"{AT_POWER_ON}00500  ~A\n", "",
     {"new": "JOURNAL1 4000\n1\t0\tDEPOSIT 0500 ~A\tOK\n"}),
    ("operate --switches B --journal new", "", 0, AT_POWER_ON, "", {"new": "JOURNAL1 4000\n1\t0\tSWITCH B ON\tOK\n"}),
    ("operate --switches H", "", MISUSE, "", None, {}),
    ("operate --fit lengths --journal new", "", 0, AT_POWER_ON, "", {"new": "JOURNAL1 4000\n1\t0\tFIT LENGTHS\tOK\n"}),
    ("operate --fit lengths,lengths", "", MISUSE, "", None, {}),
    ("operate --resume journal --fit all", "", MISUSE, "", None, {}),
    ("operate --sync", "", MISUSE, "", None, {}),
    ("operate --resume journal", "deposit 500 ~C\n", 0,
     "journal: 1400 places; next is 0000; help lists the words\n00500  ~C\n", "",
     {"journal": f"{JOURNAL}4\t0\tDEPOSIT 0500 ~C\tOK\n"}),
    ("operate --resume journal --journal new", "", MISUSE, "", None, {}),
    ("operate job", "", 0, JOB_READY, "", {}),
    ("operate --cards cards job", "", 0, f"cards: 2 cards; hopper: 2\n{JOB_READY}", "", {}),
    ("operate --load deck", "", 0,
     "deck: 1 card; hopper: 1\ndeck: 4000 places; next is 0001 (B 1500); help lists the words\n", "", {}),
    ("operate --load", "", MISUSE, "", None, {}),
    ("operate --language ibm wide", "", 0, SOURCE_READY.replace("source", "wide").replace("MLC", "mlc"), "", {}),
    ("operate --graphics simh simhs", "", 0, SOURCE_READY.replace("source", "simhs"), "", {}),
    ("operate --source-graphics simh simhs", "", 0, SOURCE_READY.replace("source", "simhs"), "", {}),
]

# The calls that read a file. What those of an image or a source alone say is shorter, and as old as they are.
UNREAD = [
    "assemble FILE", "load FILE", "serve --port 1401 --seats 1 --image FILE",
    "disassemble FILE", "disassemble --load FILE", "reel FILE", "reel --deck new FILE", "reel --from-deck -o new FILE",
    "run FILE", "run --load FILE", "run --cards FILE job", "run --tape 1=FILE job", "run --tape 2=FILE:ring job",
    "run --load-tape 1=FILE",
    "serve --port 1401 --seats 1 --cards FILE",
    "operate FILE", "operate --load FILE", "operate --cards FILE job", "operate --resume FILE", "operate --do FILE",
    "journal FILE", "journal --check FILE", "resume FILE", "resume --journal new FILE",
]
UNREAD_FILES = [("nothing", "no such file"), ("folder", "is a folder"), ("job/nothing", "no such file"),
                ("n" * 300, "cannot be read")]


class Served:
    """The program serving at free ports, from its first line on."""

    def __init__(self, test, room, words, environment=()):
        self.test = test
        pipes = dict.fromkeys(("stdin", "stdout", "stderr"), subprocess.PIPE)
        for _ in range(PORTS_TRIED):
            self.port = free_ports(4)
            named = words.replace("PORT", str(self.port)).replace("PAGE", str(self.port + 1)).split()
            self.process = subprocess.Popen([PROGRAM, *named], cwd=room.path, env={**os.environ, **dict(environment)},
                                            text=True, **pipes)
            test.addCleanup(self.stop, self.process)
            first = self.process.stdout.readline()
            # Somebody else may have taken a port meanwhile.
            if first or self.process.stderr.read() != "ibm1401: port refused\n":
                break
        test.assertEqual(first, "READY\n")

    def stop(self, process):
        """Ends the program if it hasn't ended."""
        process.kill()
        for each in (process.stdin, process.stdout, process.stderr):
            each.close()
        process.wait(SECONDS)

    def say(self, lines):
        """What a new console is answered until its connection ends."""
        with socket.create_connection(("127.0.0.1", self.port), SECONDS) as console:
            console.sendall(lines.encode())
            return b"".join(iter(lambda: console.recv(4096), b"")).decode()

    def end(self, lines=""):
        """What the program writes further until it ends."""
        return self.process.communicate(lines, timeout=SECONDS)[0]


class Options(unittest.TestCase):
    """Each option, next to the same call without it."""

    def test_each_call_does_what_its_options_say(self):
        for words, lines, *wanted in ROWS:
            with self.subTest(words):
                status, output, error, files = Room(self).run(words.split(), lines)
                if wanted[2] is None:
                    self.assertNotEqual(error, "")
                    error = None
                self.assertEqual([status, output, error, files], wanted)

    def test_one_name_for_an_image_and_a_deck_is_refused_before_the_source_is_read(self):
        for source in ("source", "none"):
            with self.subTest(source):
                error = Room(self).run(["assemble", "-o", "new", "--deck", "new", source])[2]
                self.assertTrue(error.startswith("error: -o and --deck name the same file\n\nUsage: "), error)

    def test_a_file_that_cannot_be_read_is_reported_alike(self):
        for words in UNREAD:
            for name, reason in UNREAD_FILES:
                with self.subTest(words, file=name):
                    fixed = words.split()[0] in ("assemble", "load") or "--image" in words
                    text = f"cannot read {name}" if fixed else f"{name}: {reason}"
                    status, output, error, files = Room(self).run(words.replace("FILE", name).split())
                    self.assertEqual((status, output, error, files), (1, "", f"ibm1401: {text}\n", {}))

    def test_a_deck_is_one_that_runs(self):
        room = Room(self)
        status, output, error, files = room.run(["assemble", "--deck", "new", "source"])
        self.assertEqual((status, output, error, [*files]), (0, "", "", ["new"]))
        self.assertEqual(room.run(["run", "--load", "new"])[0], 0)

    @needs("cc")
    def test_sync_forces_each_entry_onto_the_disk(self):
        room = Room(self)
        library = room.path / "refuse_sync.so"
        subprocess.run(["cc", "-shared", "-fPIC", "-O2", "-o", library, SYNC_LIBRARY], check=True)
        for words in ["console --journal N", "load --journal N image", "resume journal", "resume --journal N journal"]:
            counts = []
            for option in ("", " --sync"):
                room.path.joinpath("N").unlink(missing_ok=True)
                room.path.joinpath("events").unlink(missing_ok=True)
                subprocess.run([PROGRAM, *(words + option).split()], cwd=room.path, input="EXAMINE 0\n" * 3 + "QUIT\n",
                               env={**os.environ, "LD_PRELOAD": str(library), "EVENTS_FILE": str(room.path / "events")},
                               stdout=subprocess.PIPE, text=True, timeout=SECONDS, check=True)
                counts.append((room.path / "events").read_text().count("s"))
            with self.subTest(words):
                self.assertGreaterEqual(counts[1] - counts[0], 3)
        counts = []
        for option in ("", " --sync"):
            (room.path / "events").unlink(missing_ok=True)
            environment = {"LD_PRELOAD": str(library), "EVENTS_FILE": str(room.path / "events")}
            served = Served(self, room, f"serve --port PORT --seats 1 --journal J{option}", environment)
            self.assertEqual(served.say("EXAMINE 0\n" * 3 + "QUIT\n"), " \n" * 3 + "BYE\n")
            served.end("QUIT\n")
            (room.path / "J").unlink()
            counts.append((room.path / "events").read_text().count("s"))
        with self.subTest("serve"):
            self.assertGreaterEqual(counts[1] - counts[0], 3)

    def test_serve_has_as_many_seats_as_it_is_told(self):
        served = Served(self, Room(self), "serve --port PORT --seats 1")
        self.assertEqual(served.say(LAST_PLACE), " \nBYE\n")
        self.assertEqual(served.end(), "JOURNAL 1\n")
        served = Served(self, Room(self), "serve --port PORT --seats 2")
        self.assertEqual(served.say(LAST_PLACE), " \nBYE\n")
        self.assertEqual(served.say(LAST_PLACE), " \nBYE\n")
        self.assertEqual(served.end(), "JOURNAL 2\n")

    def test_a_served_machine_has_the_size_that_is_named(self):
        served = Served(self, Room(self), "serve --port PORT --seats 1 --size 1400")
        self.assertEqual(served.say(LAST_PLACE), "REFUSED 1 ADDRESS\nBYE\n")

    def test_a_seat_that_is_kept_is_given_again(self):
        served = Served(self, Room(self), "serve --port PORT --seats 1 --keep-seats")
        for _ in range(2):
            self.assertEqual(served.say(LAST_PLACE), " \nBYE\n")
        self.assertEqual(served.end("QUIT\n"), "JOURNAL 2\n")

    def test_a_room_begins_with_an_image_or_a_deck(self):
        served = Served(self, Room(self), "serve --port PORT --seats 1 --image image")
        self.assertEqual(served.say("EXAMINE 0400 8\nQUIT\n"), "~?423420~A\nBYE\n")
        served = Served(self, Room(self), "serve --port PORT --seats 1 --cards cards")
        self.assertIn(" HOPPER=002 ", served.say("REGS\nQUIT\n"))
        served = Served(self, Room(self), "serve --port PORT --seats 1")
        self.assertEqual(served.say("EXAMINE 0400 8\nQUIT\n"), " " * 8 + "\nBYE\n")

    def test_a_journal_is_the_one_of_the_room(self):
        room = Room(self)
        served = Served(self, room, "serve --port PORT --seats 1 --journal new")
        self.assertEqual(served.say("EXAMINE 0500\nQUIT\n"), " \nBYE\n")
        served.end("QUIT\n")
        self.assertEqual((room.path / "new").read_text(), "JOURNAL1 4000\n1\t1\tEXAMINE 0500 1\t \n")

    def test_a_room_is_fitted_before_all_else(self):
        room = Room(self)
        served = Served(self, room, "serve --port PORT --seats 1 --fit lengths --image image --journal new")
        self.assertEqual(served.say("DEPOSIT 0600 ~.700800~.\nSTART 0600\nRUN 1\nQUIT\n"),
                         "OK\nOK\nSTOP 02 HALT STEPS 1 I 00607\nBYE\n")
        served.end("QUIT\n")
        kept = (room.path / "new").read_text()
        self.assertTrue(kept.startswith("JOURNAL1 4000\n1\t1\tFIT LENGTHS\tOK\n2\t1\tDEPOSIT 0400 "), kept)

    def test_a_fitted_machine_is_taken_up_as_it_was(self):
        room = Room(self)
        room.run("console --fit lengths --journal new".split(), "DEPOSIT 0600 ~.700800~.\nSTART 0600\n")
        for words, reply in (("resume --until 3 new", "STOP 02 HALT STEPS 1 I 00607\n"),
                             ("resume --without 1 --journal other new", "STOP 08 LENGTH STEPS 0 I 00600\n")):
            with self.subTest(words):
                self.assertEqual(room.run(words.split(), "RUN 1\n")[:3], (0, reply, ""))

    def test_no_file_is_left_if_a_new_journal_cannot_begin(self):
        for words in ("console --journal new", "load --journal new image", "resume --journal new journal",
                      "operate --journal new", "serve --port PORT --seats 1 --journal new"):
            with self.subTest(words):
                room = Room(self)
                ran = at_a_port(lambda port: subprocess.run(
                    [PROGRAM, *words.replace("PORT", str(port)).split()], cwd=room.path, stdin=subprocess.DEVNULL,
                    capture_output=True, timeout=SECONDS, check=False, preexec_fn=refuse_writes))
                self.assertEqual((ran.returncode, (room.path / "new").exists()), (1, False), ran.stderr)

    def test_a_page_is_at_its_own_port(self):
        for words in ("serve --page PAGE --seats 1", "serve --port PORT --page PAGE --seats 2",
                      "resume --page PAGE --seats 2 journal"):
            with self.subTest(words):
                served = Served(self, Room(self), words)
                with socket.create_connection(("127.0.0.1", served.port + 1), SECONDS) as page:
                    page.sendall(f"GET / HTTP/1.1\r\nHost: 127.0.0.1:{served.port + 1}\r\n\r\n".encode())
                    self.assertEqual(page.recv(12), b"HTTP/1.1 200")
                if "--port" in words:
                    with socket.create_connection(("127.0.0.1", served.port), SECONDS) as console:
                        console.sendall(b"EXAMINE 0\n")
                        self.assertEqual(console.recv(2), b" \n")
                else:
                    with self.assertRaises(OSError):
                        socket.create_connection(("127.0.0.1", served.port), 1)

    def test_a_journal_is_taken_up_at_seats(self):
        served = Served(self, Room(self), "resume --port PORT --seats 2 journal")
        self.assertEqual(served.say(CELL), "~B\nBYE\n")
        self.assertEqual(served.end("QUIT\n"), "JOURNAL 4\n")

    def test_each_option_that_help_lists_is_tried_here(self):
        listed = subprocess.run([PROGRAM, "--help"], capture_output=True, text=True, check=True).stdout
        tried = Path(__file__).read_text()
        for name in re.findall(r"^  (\w+)  ", listed, re.MULTILINE):
            if name == "help":
                continue
            text = subprocess.run([PROGRAM, name, "--help"], capture_output=True, text=True, check=True).stdout
            for option in set(re.findall(r"^ +(?:-\w, )?(--[\w-]+)", text, re.MULTILINE)) - {"--help"}:
                with self.subTest(f"{name} {option}"):
                    self.assertRegex(tried, rf'"{name}\b[^"]* {option}\b')


if __name__ == "__main__":
    unittest.main()

"""Programs that the tests run with a deck, and the line in which `run` says how a program ended."""
from tests.support import EXAMPLES

# Columns 1 to 4 of each card are listed and punched, until it was the last one.
LIST_AND_PUNCH = """\
               ORG  400
     START     SW   1,101
     NEXT      R
               MLC  4,204
               MLC  4,104
               W
               P
               BLC  DONE
               B    NEXT
     DONE      H    *-3
               NOP
               END  START
"""

# Goes on if switch G is on and B isn't; lists and punches columns 1 to 4 of a card; and goes to DONE if it was the last
# one and switch A is on: seven steps.
SWITCHED = """\
               ORG  1
               DCW  #1
               ORG  101
               DCW  #1
               ORG  400
     START     BSS  WRONG,B
               BSS  GOOD,G
     WRONG     H    *-3
     GOOD      R
               MLC  4,204
               MLC  4,104
               WP
               BLC  DONE
               H    *-3
     DONE      H    *-3
               NOP
               END  START
"""

# Prints a line, and halts; and what its trace has for the two steps.
ONE_LINE = """\
               ORG  400
     START     W
               H
               NOP
               END  START
"""
STEPS = [
    "00400\t~2       \tW                   \t00000\t00333\tPRINT 0001/01\tCARRIAGE 0001/02\n",
    "00401\t~.       \tH                   \t00000\t00333\tHALT\n",
]

# Prints and punches columns 1 to 64 of a card: seven steps.
COPY = """\
               ORG  400
     START     SW   101,201
               R
               SW   1
               MLC  64,164
               MLC  64,264
               WP
               H    *-3
               NOP
               END  START
"""

# Goes round without an end, by itself or with a line printed each time.
ROUND = "               ORG  400\n     START     B    START\n               END  START\n"
LINES_WITHOUT_END = "               ORG  400\n     START     W\n               B    START\n               END  START\n"

# The example that reads a deck: its call.
SALES = EXAMPLES / "sales"
SALES_CALL = [f"{SALES}.source", "--cards", f"{SALES}.cards", "--switches", "A"]

# Where the program that lists and punches ends, and why a run can end.
DONE, NO_CARD = "line 10, DONE H *-3", "no card in the hopper"
LIMIT = "the step limit was reached"


def counted(number, name):
    """This many of these."""
    return f"{number} {name}" if number == 1 else f"{number} {name}s"


def ending(stop, address, steps, read=0, printed=0, punched=0, shown="", why=""):
    """The last line of a run: the stop, where, the instruction as it is shown, why, and the counts."""
    shown, why = f" ({shown})" if shown else "", f": {why}" if why else ""
    counts = f"{counted(read, 'card')} read, {counted(printed, 'line')} printed, {counted(punched, 'card')} punched"
    return f"ibm1401: {stop} at {address:04}{shown}{why} after {counted(steps, 'step')}; {counts}\n"


# The last line of the run of SALES_CALL.
SALES_ENDING = ending("HALT", 463, 24, 3, 2, shown="line 19, H *-3")


def paper_of(lines):
    """The paper that lists these lines, 66 on a form."""
    each = lines.splitlines(keepends=True)
    return "\f".join("".join(each[at:at + 66]) for at in range(0, len(each), 66))


def statement(listing, address):
    """The number of the line that a listing has at an address, its label, operation and operands."""
    line = next(each for each in listing.splitlines() if each[5:10] == f"{address:05}" and each[11:19].strip())
    fields = line[25:35], line[35:40], line[40:].partition(" ")[0]
    return f"line {int(line[:4])}, {' '.join(each.strip() for each in fields if each.strip())}"

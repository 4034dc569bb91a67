"""Reels for the programs of examples/tapes, and the reels and the paper that these make of them, worked out without a
program for the 1401.

    python3 -m tests.tape_reels FOLDER    writes the reels that the programs read, and those that they should write

Each has ten thousand records of 80 characters in even parity, by chance and always the same."""
import sys
from pathlib import Path
from typing import NamedTuple

from tests.chains import OURS

RECORDS = 10_000
COLUMNS = 80
# A tape mark as SIMH writes it, and the record that is another form of it.
MARK = bytes(4)
MARK_RECORD = b"\1\0\0\0\x0f\0\1\0\0\0"
EVEN_BLANK = OURS.index("^")
# The characters of these records, the lowest in the collating order first.
COLLATION = " .-/,ABCDEFGHIJKLMNOPQRSTUVWXYZ0123456789"
PLACES = {ord(each): at for at, each in enumerate(COLLATION)}
NAMES = ("BOLT", "NUT", "WASHER", "SCREW", "HINGE", "NAIL", "ROPE, HEMP", "LAMP", "CHAIN", "VALVE", "PIPE 1/2", "WIRE")
KINDS = ("STEEL", "BRASS", "IRON", "COPPER", "ZINC-PLATED", "SPARE")
# A program that copies the reel of unit 1 to unit 2: where it begins, and its cells and the end of its area.
COPY_START = 600
COPY = {COPY_START: "~M%U1800R~B625K~M%U2800W~B600~U%U2M~.~.", 880: '~"'}
# Digits with the zone of a minus, with that of a plus, and with none.
MINUS, PLUS, NONE = "!JKLMNOPQR", "?ABCDEFGHI", "0123456789"
ZONES = MINUS, PLUS, NONE


class Task(NamedTuple):
    """What a program gets and makes: the reels that it reads and those that it writes, each by its unit as a list of
    records; the pages of its paper, each as its lines by their numbers on the form; and the units with reels for work.
    """

    reads: dict
    writes: dict
    pages: list
    work: tuple = ()


class Chance:
    """Numbers by chance, the same on each host."""

    def __init__(self, seed):
        self.state = seed
        self.letters = "".join(self.one(COLLATION) for _ in range(5_000))

    def below(self, most):
        """A number below this one."""
        self.state = (self.state * 6_364_136_223_846_793_005 + 1_442_695_040_888_963_407) % (1 << 64)
        return (self.state >> 33) % most

    def one(self, things):
        """One of these."""
        return things[self.below(len(things))]

    def text(self, count):
        """A text of this many characters, at most 100."""
        at = self.below(len(self.letters) - 100)
        return self.letters[at:at + count]

    def shuffle(self, things):
        """Brings a list out of its order."""
        for at in range(len(things) - 1, 0, -1):
            other = self.below(at + 1)
            things[at], things[other] = things[other], things[at]


def tape(records, end=MARK):
    """The bytes of a reel with these records in even parity, and a tape mark after the last."""
    parts = []
    for record in records:
        body = bytes(OURS.index(each) or EVEN_BLANK for each in record)
        size = len(body).to_bytes(4, "little")
        parts += [size, body, b"\0" * (len(body) % 2), size]
    return b"".join(parts) + end


def records_of(text):
    """The records of a reel in even parity up to its first tape mark."""
    records, at = [], 0
    while (size := int.from_bytes(text[at:at + 4], "little")) != 0:
        body = (each & 0o77 for each in text[at + 4:at + 4 + size])
        records.append("".join(" " if each == EVEN_BLANK else OURS[each] for each in body))
        at += 8 + size + size % 2
    return records


def paper_of(pages):
    """The paper of these pages, as `run` writes it."""
    return "\f".join("".join(f"{page.get(line, '').rstrip()}\n" for line in range(1, max(page) + 1)) for page in pages)


def rank(record):
    """The place of a record in the collating order of columns 1 to 10."""
    return record[:10].translate(PLACES)


def in_order(records):
    """Records in the order of columns 1 to 10; those with the same stay in theirs."""
    return sorted(records, key=rank)


def amount(value, digits):
    """A number of so many digits, with the zone of a minus over its units if it is below zero."""
    shown = f"{abs(value):0{digits}}"
    return shown[:-1] + MINUS[int(shown[-1])] if value < 0 else shown


def counted(count, text):
    """A line that counts something."""
    return f"{count:6}  {text}"


def merging():
    """Two reels in the order of columns 1 to 10, and both in one; the same key comes from the first reel first."""
    chance = Chance(1)
    pool = [chance.text(10) for _ in range(RECORDS)]
    reels = [in_order(chance.one(pool) + f"{unit}{number:05}" + chance.text(COLUMNS - 16) for number in range(RECORDS))
             for unit in (1, 2)]
    lines = (counted(RECORDS, "RECORDS OF UNIT 1"), counted(RECORDS, "RECORDS OF UNIT 2"),
             counted(2 * RECORDS, "RECORDS ON UNIT 3"))
    return Task({1: reels[0], 2: reels[1]}, {3: in_order(reels[0] + reels[1])}, [dict(enumerate(lines, 1))])


def name_of(chance):
    """A name of 20 columns."""
    return f"{chance.one(KINDS)} {chance.one(NAMES)}"[:20].ljust(20)


def added(field, other):
    """The sum of two fields of one length, as the machine leaves it in the first: of like signs the zone over its units
    stays, of unlike ones the sign is written, that of the greater or of the first."""
    first, second = value_of(field), value_of(other)
    total, digits = abs(first + second), len(field)
    if (field[-1] in MINUS) == (other[-1] in MINUS):
        zone = next(zone for zone in ZONES if field[-1] in zone)
    else:
        zone = MINUS if first + second < 0 or (total == 0 and field[-1] in MINUS) else PLUS
    shown = f"{total:0{digits}}"
    assert len(shown) == digits
    return shown[:-1] + zone[int(shown[-1])]


def value_of(field):
    """The number in a field."""
    units = next(zone.index(field[-1]) for zone in ZONES if field[-1] in zone)
    return int(field[:-1] + str(units)) * (-1 if field[-1] in MINUS else 1)


def masters_of(chance):
    """The records of a master reel, in the order of their keys."""
    records, key = [], 0
    for _ in range(RECORDS):
        key += 1 + chance.below(198)
        total = amount(chance.below(2_000_000) - 500_000, 8)
        records.append(f"{key:06}{name_of(chance)}{total}{chance.text(46)}")
    return records


def transactions_of(chance, keys):
    """The records of a reel of transactions for the masters with these keys, and for others; some fit none."""
    known, chosen, records, before = set(keys), [], [], None
    for number in range(RECORDS):
        key = chance.one(keys) if chance.below(4) else chance.below(999_999)
        chosen += [(key, number)] + [(key, number + RECORDS)] * (chance.below(5) == 0)
    for key, _ in sorted(chosen[:RECORDS]):
        usual = "CCCCCCD" if key in known or key == before else "A"
        code = chance.one("ACDX" if chance.below(40) == 0 else usual)
        total = amount(chance.below(400_000) - 200_000, 8)
        records.append(f"{key:06}{name_of(chance)}{total}{chance.text(45)}{code}")
        before = key
    return records


def updating():
    """A master reel, a reel of transactions, and the master reel that comes of both, with the transactions that fit no
    record on paper."""
    chance = Chance(2)
    old = masters_of(chance)
    given = transactions_of(chance, [int(record[:6]) for record in old])
    records = {record[:6]: record for record in old}
    counts, rejected = dict.fromkeys("ACD", 0), []
    for each in given:
        key, code = each[:6], each[79]
        if code not in counts:
            rejected.append((each, "NO SUCH CODE"))
        elif (code == "A") == (key in records):
            rejected.append((each, "RECORD IS THERE" if code == "A" else "NO SUCH RECORD"))
        else:
            counts[code] += 1
            if code == "A":
                records[key] = each[:79] + " "
            elif code == "C":
                held = records[key]
                records[key] = held[:26] + added(held[26:34], each[26:34]) + held[34:]
            else:
                del records[key]
    new = [records[key] for key in sorted(records)]
    lines = [f"{each[:6]} {each[79]} {each[6:26]}  {why}" for each, why in rejected]
    pages = [lines[at:at + 50] for at in range(0, len(lines), 50)]
    totals = ((RECORDS, "OLD RECORDS READ"), (counts["A"], "RECORDS ADDED"), (counts["C"], "CHANGES MADE"),
              (counts["D"], "RECORDS DELETED"), (len(rejected), "REJECTED"), (len(new), "NEW RECORDS"))
    pages.append([counted(count, text) for count, text in totals])
    shown = [{4: f"REJECTED TRANSACTIONS  PAGE{number:4}", **dict(enumerate(page, 6))}
             for number, page in enumerate(pages, 1)]
    return Task({1: old, 2: given}, {3: new}, shown)


def edited(value):
    """An amount in cents as a ledger has it."""
    units = f"{abs(value) // 100:,}" if abs(value) >= 100 else ""
    return f"{units}.{abs(value) % 100:02} {'CR' if value < 0 else '  '}"


def listing():
    """A master reel, and its list: 50 records on a page, a page and a total for each department, and the total."""
    records = masters_of(Chance(3))
    pages, whole = [], 0
    for department in sorted({record[:2] for record in records}):
        ours = [record for record in records if record[:2] == department]
        values = [value_of(record[26:34]) for record in ours]
        lines = [f"{record[:2]}-{record[2:6]}  {record[6:26]}   {edited(value):>13}"
                 for record, value in zip(ours, values)]
        for at in range(0, len(lines), 50):
            heading = {4: f"{'STOCK LEDGER':37}PAGE{len(pages) + 1:4}"}
            pages.append(heading | dict(enumerate(lines[at:at + 50], 6)))
        whole += sum(values)
        pages[-1][max(pages[-1]) + 2] = f"TOTAL OF DEPARTMENT {department}       {edited(sum(values)):>16}"
    pages[-1][max(pages[-1]) + 2] = f"TOTAL OF ALL RECORDS   {RECORDS:6}{edited(whole):>16}"
    return Task({1: records}, {}, pages)


def runs_of(records):
    """The records as lists that are each in order, as long as they are."""
    runs = []
    for record in records:
        if runs and rank(runs[-1][-1]) <= rank(record):
            runs[-1].append(record)
        else:
            runs.append([record])
    return runs


def passes_of(records):
    """In how many passes runs of two reels become one on a third, dealt to the two in turn each time."""
    passes, number = 0, len(records)
    while number > 1 or passes == 0:
        runs = runs_of(records)
        reels = [runs_of([record for run in runs[unit::2] for record in run]) for unit in (0, 1)]
        number, passes, records = max(map(len, reels)), passes + 1, []
        for at in range(number):
            records += in_order(record for reel in reels for run in reel[at:at + 1] for record in run)
    return passes


def sorting():
    """A reel whose keys are in no order, and the same records in order."""
    chance = Chance(4)
    records = [f"{chance.text(5)}{number:05}{chance.text(COLUMNS - 10)}" for number in range(RECORDS)]
    chance.shuffle(records)
    lines = counted(RECORDS, "RECORDS SORTED"), counted(passes_of(records), "PASSES")
    return Task({1: records}, {4: in_order(records)}, [dict(enumerate(lines, 1))], (2, 3))


TASKS = {"list_reel": listing, "sort_reel": sorting, "merge_reels": merging, "update_master": updating}


def main(words):
    """Writes the reels to the folder that the command line names, and returns the status."""
    if len(words) != 1:
        print("usage: python3 -m tests.tape_reels FOLDER", file=sys.stderr)
        return 2
    for name, task in TASKS.items():
        for way, reels in zip(("reads", "writes"), task()[:2]):
            for unit, records in reels.items():
                (Path(words[0]) / f"{name}_{way}_{unit}.tap").write_bytes(tape(records))
    return 0


if __name__ == "__main__":
    sys.exit(main(sys.argv[1:]))

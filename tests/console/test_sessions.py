"""Sessions at a console: those of tests/sessions/, a test each, and what each character does as an instruction."""
import unittest

from tests.session_texts import GRAPHICS, Session, fitted_with_all, read_sessions, registers, wrong_in
from tests.support import TESTS, ProgramTest
from tests.texts import add_cases

# What a character does as an instruction of 1 to 8 characters, with 7007102 after it: a letter of OUTCOMES each. An
# edit of a field by itself overlaps, the hopper is empty, and 7 is no lozenge and a channel without a hole.
DOES = {
    "AS?!DY)CZ": "cLLcLLcL",
    "E": "oLLoLLcL",
    "ML": "cLLcLLcF",
    ",": "cLLcLLcs",
    "/": "cLLcLLbb",
    "B": "LLLbcLLc",
    "V": "LLLLLLLb",
    "QH": "LLLcLLLL",
    "N": "cccccccc",
    ".": "hLLjLLLL",
    "K": "LcLLbLLL",
    "1357": "rFLrFLLL",
    "2": "cdLbdLLL",
    "46": "cFLbFLLL",
    "F": "LgLLgLLL",
    "@%U89PXW#": "FFFFFFFF",
}
NO_OPERATION = "OOOOOOOO"
# What those do that features change, on a machine with each of them. One field alone leaves no place for a multiplier or
# a quotient, and has no end of a record.
DOES_WITH_ALL = {
    "B": "cLLbcLLc",
    "V": "cLLLLLLb",
    "Q": "ALLcLLLL",
    "H": "ALLcLLcL",
    ".": "hhhjhhhh",
    "@": "ALLoLLoL",
    "%P": "ALLALLAL",
    "#": "ALLcLLcL",
    "W": "cLLLLLLc",
    "89": "cLLLLLLL",
    "U": "LLLLFLLL",
}
# The stop of each letter, and where the machine goes on: after the instruction, after seven characters, at 700 or at
# 600.
OUTCOMES = {
    "c": ("01 LIMIT STEPS 1", "after"),
    "s": ("01 LIMIT STEPS 1", 607),
    "b": ("01 LIMIT STEPS 1", 700),
    "h": ("02 HALT STEPS 1", "after"),
    "j": ("02 HALT STEPS 1", 700),
    "r": ("03 READER STEPS 0", 600),
    "O": ("07 OPCODE STEPS 0", 600),
    "L": ("08 LENGTH STEPS 0", 600),
    "A": ("09 ADDRESS STEPS 0", 600),
    "o": ("10 OVERLAP STEPS 0", 600),
    "g": ("11 CARRIAGE STEPS 0", 600),
    "F": ("12 NOTFITTED STEPS 0", 600),
    "d": ("13 DCHAR STEPS 0", 600),
}


def outcomes(char, features=None):
    """The character as an instruction of each length, with a word mark after it."""
    rows = [*(DOES_WITH_ALL.items() if features else ()), *DOES.items()]
    row = next((row for chars, row in rows if char in chars), NO_OPERATION)
    for length, letter in zip(range(1, 9), row, strict=True):
        stop, place = OUTCOMES[letter]
        place = 600 + length if place == "after" else place
        text = "7007102 "
        given = [f"DEPOSIT {at} ~5" for at in (0, 700, 710)]
        given += [f"DEPOSIT 601 {text[: length - 1]}~{text[length - 1 :]}", f"DEPOSIT 600 ~{char}", "START 600"]
        given = [*((line, "OK") for line in given), ("RUN 1", f"STOP {stop} I {place:05}")]
        yield Session(f"{char!r}, {length} characters", 1400, given, features)


def channels():
    """A branch by channel 9, one by channel 12, and a space, at each line of a form."""
    given, i, a, b = [("DEPOSIT 0600 ~B7009~B700@~FJ~.", "OK")], 0, 0, 0
    for line in range(1, 67):
        given.append(("REGS", registers(i, a, b, line)))
        for at, after, is_taken in (600, 605, line == 60), (605, 610, line == 63), (610, 612, False):
            i = 700 if is_taken else after
            b = after if is_taken else b
            given += [(f"START 0{at}", "OK"), ("RUN 1", f"STOP 01 LIMIT STEPS 1 I {i:05}")]
        a = 700
    return Session("the channels", 1400, given)


FILES = sorted((TESTS / "sessions").glob("*.txt"))


class SessionsOfTables(ProgramTest):
    """Sessions of tables."""

    def test_each_file_has_sessions(self):
        self.assertTrue(FILES)
        for file in FILES:
            self.check(file.name, "" if read_sessions(file.read_text()) else "it has none")

    def test_each_character_as_an_instruction_of_each_length(self):
        for char in GRAPHICS:
            for session in outcomes(char):
                self.check(session.name, wrong_in(session))

    def test_the_same_on_a_machine_with_each_feature(self):
        for char in GRAPHICS:
            for session in outcomes(char, "all"):
                self.check(session.name, wrong_in(session))

    def test_the_sessions_of_the_basic_machine_on_one_with_each_feature(self):
        for file in FILES:
            for session in read_sessions(file.read_text()):
                if not session.features:
                    self.check(f"{file.name}: {session.name}", wrong_in(fitted_with_all(session)))

    def test_the_channels_are_met_at_their_lines_alone(self):
        self.assertEqual([], wrong_in(channels()))


add_cases(globals(), FILES, read_sessions, lambda _, session: wrong_in(session))


if __name__ == "__main__":
    unittest.main()

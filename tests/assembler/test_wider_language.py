"""`--language ibm`: sources as old decks have them, what is refused, and the size that a source asks for."""
import re
import unittest

from tests.old_decks import LEFT_OUT, NOT_OF_OLD_DECKS, REFUSED_TOGETHER, TOGETHER_REFUSED, columns
from tests.source_texts import read_sources
from tests.support import EXAMPLES, TESTS, TOP, ProgramTest, program, shell


class Language(ProgramTest):
    """Tests of sources in a file of one name."""

    def setUp(self):
        self.source = self.folder / "old.source"

    def assemble(self, text, *words):
        """A run of `assemble` with a source of this text in the wider language."""
        self.source.write_text(text)
        return program("assemble", "--language", "ibm", *words, "old.source", cwd=self.folder)


class Taken(Language):
    """Sources that the wider language takes."""

    def test_sources_of_old_decks(self):
        """A listing has their lines as they are, and the plain language refuses them."""
        for file in "old_decks.txt", "literals.txt":
            for each in read_sources((TESTS / "sources" / file).read_text()):
                listing = self.assemble(each.text, "--list").stdout.decode().splitlines()
                shown = [line[20:] for line in listing if line[:4] != "    "]
                self.same(f"{each.name}: its listing", shown, each.lines)
                self.expect(f"{each.name}: not in the plain language", program("assemble", self.source), 1, "", "...")

    def test_a_literal_is_listed_in_capitals(self):
        lines = "               org  500\n     start     mcw  @ab@,start\n               end  start\n"
        listing = (
            "0001 00500                         org  500\n0002 00500 M508500       start     mcw  @ab@,start\n"
            "     00507 AB       @AB@\n0003 00500                         end  start\n"
        )
        self.expect("the listing", self.assemble(lines, "--list"), 0, listing)

    def test_examples_are_the_same_in_both_languages(self):
        for example in sorted(EXAMPLES.glob("*.source")):
            for words in [], ["--list"], ["--symbols", "--xref"], ["--all"]:
                plain = program("assemble", *words, example)
                ran = program("assemble", "--language", "ibm", *words, example)
                self.expect(f"{example.name} {' '.join(words)}", ran, 0, plain.stdout, plain.stderr)

    def test_small_letters_are_those_of_a_plain_source(self):
        lines = "     START     H    start\n     AFTER     dcw  #1\n               end  START\n"
        plain = self.folder / "plain"
        plain.write_text(lines.upper())
        deck = program("assemble", plain, "--deck", "/dev/stdout").stdout
        self.expect("--deck", self.assemble(lines, "--deck", "/dev/stdout"), 0, deck)
        self.expect("-o", self.assemble(lines, "-o", "out"))
        self.holds("-o: the image", self.folder / "out", program("assemble", plain).stdout)
        self.expect("run", program("run", "--language", "ibm", self.source), 0, "", "...")
        ran = program("run", self.source)
        letters = [f"{place}: GRAPHIC: the small letter {letter} isn't allowed in this column\n"
                   for place, letter in (("1:21", "s"), ("2:16", "d"), ("3:16", "e"))]
        reported = "".join(f"{self.source}:{each}" for each in letters)
        self.expect("run in the plain language", ran, 1, "", f"{reported}ibm1401: line 1: 3 GRAPHIC\n")
        for output in ">&-", ">/dev/full":
            for words in "", "--list":
                closed = shell(f'"$0" assemble --language ibm {words} "$1" {output}', self.source)
                self.expect(f"{words} {output}", closed, 1, "", "ibm1401: cannot write\n")

    def test_a_d_character_in_column_72(self):
        last = "               END  START\n"
        image = f"IMAGE2 04000\n00333 40 ~B386005X~{'A' * 32}\n00373 14 {'A' * 14}\nEND 00333\n"
        for language in "plain", "ibm":
            call = ["assemble", "--language", language, self.source]
            self.source.write_text(f"     START     BCE  @{'A' * 46}@,5,XIDENTIF\n{last}")
            self.expect(f"in column 72, {language}", program(*call), 0, image)
            self.source.write_text(f"     START     BCE  @{'A' * 45}@,5,XYDENTIF\n{last}")
            fault = "ibm1401: line 1: 8 OPERAND\n"
            self.expect(f"in column 71, and no blank after it, {language}", program(*call), 1, "", fault)


class Refused(Language):
    """Sources that the wider language refuses, or both."""

    def test_sources_of_statements(self):
        for statements, number, fault in REFUSED_TOGETHER:
            ran = self.assemble(columns(statements))
            self.expect(f"{statements}", ran, 1, "", f"ibm1401: line {number}: {fault}\n")
            reported = self.assemble(columns(statements), "--all")
            self.expect(f"{statements}: --all", reported, 1, "", f"old.source:{number}:...")

    def test_statements(self):
        for statement, fault, reported in NOT_OF_OLD_DECKS:
            lines = f"{statement}\n               END  0\n"
            self.expect(statement.strip(), self.assemble(lines), 1, "", f"ibm1401: line 1: {fault}\n")
            wanted = f"old.source:1:{reported}\n" if reported else "old.source:1:..."
            self.expect(f"{statement.strip()}: --all", self.assemble(lines, "--all"), 1, "", wanted)

    def test_statements_after_others(self):
        for lines, number, fault, reported in TOGETHER_REFUSED:
            name, text = lines.splitlines()[-1].strip(), f"{lines}               END  0\n"
            self.expect(name, self.assemble(text), 1, "", f"ibm1401: line {number}: {fault}\n")
            if reported:
                self.expect(f"{name}: --all", self.assemble(text, "--all"), 1, "", f"old.source:{number}:{reported}\n")

    def test_what_neither_language_has(self):
        for fault, lines in LEFT_OUT.items():
            for line in lines:
                self.source.write_text(f"     {line}\n     TAG       DCW  #3\n               END  0\n")
                for language in "plain", "ibm":
                    ran = program("assemble", "--language", language, self.source)
                    self.expect(f"{line.strip()}, {language}", ran, 1, "", f"ibm1401: line 1: {fault}\n")

    def test_misused(self):
        self.source.write_text("               END  0\n")
        needed = "a value is required for '--language <LANGUAGE>' but none was supplied..."
        for command in "assemble", "run":
            for word in "IBM", "autocoder", "":
                ran = program(command, "--language", word, self.source)
                error = f"invalid value '{word}' for" if word else ""
                self.expect(f"{command} --language '{word}'", ran, 2, "", f"error: {error}...")
            ran = program(command, self.source, "--language")
            self.expect(f"{command} --language alone", ran, 2, "", f"error: {needed}")
            twice = program(command, "--language", "ibm", "--language", "plain", self.source)
            self.expect(f"{command} --language twice", twice, 2, "", "error: ...")


class SizeAskedFor(Language):
    """A source of the wider language says how large core storage is, unless the command line does."""

    def test_each_size(self):
        for digit, size in zip("123456", (1400, 2000, 4000, 8000, 12000, 16000)):
            ran = self.assemble(f"               CTL  6{digit}1\n               END  {size - 1}\n")
            self.expect(f"CTL asks for {size} places", ran, 0, f"IMAGE2 {size:05}\nEND {size - 1:05}\n")
            beyond = f"               CTL  6{digit}\n               END  {size}\n"
            ran = self.assemble(beyond)
            self.expect(f"no place {size} of them", ran, 1, "", "ibm1401: line 2: 9 OUT OF CORE\n")
            if size < 16000:
                both = self.assemble(beyond, "--size", "16000")
                self.expect(f"--size goes before CTL's {size}", both, 0, f"IMAGE2 16000\nEND {size:05}\n")
                listed = self.assemble(beyond, "--size", "16000", "--list")
                self.expect(f"CTL 6{digit} is listed as a comment is", listed, 0, f"0001{'':31}CTL  6{digit}\n...")

    def test_no_size_asked_for(self):
        for columns_16_on in "", "6", "6 11":
            ran = self.assemble(f"               CTL  {columns_16_on}\n               END  3999\n")
            self.expect(f"CTL '{columns_16_on}'", ran, 0, "IMAGE2 04000\nEND 03999\n")

    def test_a_size_on_the_command_line(self):
        lines = "               CTL  61\n               END  1399\n"
        for size in "1400", "2000", "4000":
            self.expect(f"--size {size}", self.assemble(lines, "--size", size), 0, f"IMAGE2 0{size}\nEND 01399\n")
        self.expect("--size 1401", self.assemble(lines, "--size", "1401"), 1, "", "ibm1401: size refused\n")

    def test_a_run(self):
        self.source.write_text("               ctl  66\n               ORG  15998\n     GO        H\n"
                               "               DCW  #1\n               END  GO\n")
        call = ["run", "--language", "ibm", self.source]
        self.expect("a halt at the end of CTL's places", program(*call), 0, "", "...")
        outside = "2:1: OUT OF CORE: its value is 15998, 7999 past the last place in core, 7999, which --size sets"
        fault = f"{self.source}:{outside}\nibm1401: line 2: 9 OUT OF CORE\n"
        self.expect("--size goes before CTL", program(*call, "--size", "8000"), 1, "", fault)
        self.expect("a size refused", program(*call, "--size", "1401"), 1, "", "ibm1401: size refused\n")
        self.source.write_text("               ctl  66\n     GO        CS   332\n               W\n               H\n"
                               "               DCW  #1\n               END\n")
        for output in ">&-", ">/dev/full":
            closed = shell(f'"$0" run --language ibm "$1" {output}', self.source)
            self.expect(f"run {output}", closed, 1, "", "ibm1401: cannot write\n")


# What is written below a statement of OLD_DECKS: the labels that it names.
LABELS = "     TAG       DCW  #3\n     AREA      DCW  #9\n               END  TAG\n"
# Operations that this assembler has, of those that OLD_DECKS shows.
OPERATION = re.compile(r"`((?:MN|MZ|LCA|B|BWZ|BCE|CC|SS|NOP|H|MLC|ZS|DCW|DC|EX|ORG|DA)(?: .*?)?)`")


class OldDecks(Language):
    """What the page OLD_DECKS.md shows."""

    page = (TOP / "docs/OLD_DECKS.md").read_text()

    def test_each_statement(self):
        """It is refused as the page says, or taken in the wider language, and what goes in its place is taken."""
        rows = re.findall(r"^\| `(.*?)` \| (\d+ [A-Z ]+) \| (.*) \|$", self.page, re.MULTILINE)
        self.assertTrue(rows)
        for statement, reported, instead in rows:
            lines, refused = f"{'':15}NOP\n{'':15}{statement}\n{LABELS}", f"ibm1401: line 2: {reported}\n"
            wanted = (0, "...", "") if instead.startswith("*taken*") else (1, "", refused)
            self.expect(f"{statement}: --language ibm", self.assemble(lines), *wanted)
            self.expect(f"{statement}: the plain language", program("assemble", self.source), 1, "", refused)
            for taken in OPERATION.findall(instead):
                self.source.write_text(f"{'':15}{taken}\n{LABELS}")
                self.expect(f"{statement}: {taken} in its place", program("assemble", self.source), 0, "...")

    def test_the_deck_that_it_shows(self):
        """From SIMH's graphics to paper, by the commands of the page, and once more from the deck that it makes."""
        shown = re.search(r"## From cards to paper\n.*?```autocoder\n(.*?)```" + ".*?```text\n(.*?)```" * 2,
                          self.page, re.DOTALL)
        self.source.write_text(shown[1])
        (self.folder / "old.cards").write_text(shown[2])
        commands = re.findall(r"^    \./ibm1401 (.* old\.source.*)$", self.page, re.MULTILINE)
        self.same("a command for each", len(commands), 3)
        reported = "HALT at 0554 (line 18, H *-3) after 26 steps; 3 cards read, 4 lines printed, 0 cards punched"
        for command, output, error in zip(commands, ("...", shown[3], ""), ("", f"ibm1401: {reported}\n", "")):
            self.expect(command, program(*command.split(), cwd=self.folder), 0, output, error)
        words = ["--graphics", "fortran", "--cards", "old.cards", "--switches", "A"]
        ran = program("run", "--load", "old.deck", *words, cwd=self.folder)
        self.expect("the deck", ran, 0, shown[3], "ibm1401: HALT at 0554...")
        ran = program("assemble", "--language", "ibm", self.source)
        self.expect("without the option", ran, 1, "", "ibm1401: line 19: 8 OPERAND\n")


if __name__ == "__main__":
    unittest.main()

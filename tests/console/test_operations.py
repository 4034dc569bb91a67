"""The table of operations: the page, in both languages, and the manual have a word for each of its rows."""
import re

from tests.support import TOP, ProgramTest

TABLE = TOP / "crates/machine_tables/src"


def mnemonics():
    """Each mnemonic by the name of its constant."""
    return {
        name: columns.rstrip()
        for name, columns in re.findall(
            r'^pub const (\w+): \[u8; 5\] = \*b"(.{5})";', (TABLE / "mnemonics.rt").read_text(), re.MULTILINE
        )
    }


def rows(module):
    """The names of the mnemonics in the rows of a table."""
    text = (TABLE / f"{module}.rt").read_text()
    return re.findall(r"^    \(b'.', (\w+)", text[text.index("static ROWS"):], re.MULTILINE)


def unfeatured():
    """The names of the mnemonics whose operations no feature has."""
    text = (TABLE / "unfitted.rt").read_text()
    named = dict(re.findall(r"^    \(b'(.)', (\w+)\)", text[text.index("static ROWS"):], re.MULTILINE))
    fitted = (TABLE / "fitted.rt").read_text()
    claimed = set(re.findall(r"\(\s*b'(.)',", fitted[fitted.index("static ROWS"):]))
    return {name for graphic, name in named.items() if graphic not in claimed}


def words(language):
    """The mnemonics for which the page has a word in this language, in its order."""
    text = (TOP / f"page/script/texts_{language}.js").read_text()
    return re.findall(r"(\w+): '", re.search(r"\n  operations: \{\n(.*?)\n  \},\n", text, re.DOTALL)[1])


def missing_and_extra(found, wanted):
    """What of the wanted isn't found, what is found and isn't wanted, and what is found twice."""
    twice = {each for each in found if found.count(each) > 1}
    return sorted(set(wanted) - set(found)), sorted(set(found) - set(wanted)), sorted(twice)


class Operations(ProgramTest):
    """An operation that the table has and the page hasn't, or the other way round, would be shown without a word."""

    def test_each_mnemonic_is_of_one_row_or_says_a_d_character(self):
        """29 operations, 9 that aren't fitted, and 12 mnemonics that say a d-character or its kind."""
        self.same("operations", len(rows("operation")), 29)
        self.same("operations that aren't fitted", len(rows("unfitted")), 9)
        named = rows("operation") + rows("unfitted")
        self.same("mnemonics", missing_and_extra(named, named), ([], [], []))
        self.same("others", len(set(mnemonics()) - set(named)), 12)
        self.same("mnemonics", len(set(mnemonics().values())), 50)

    def test_the_page_has_a_word_for_each_operation(self):
        """It shows what a machine carries out, so it needs no word for what no feature has: `X`."""
        without = unfeatured()
        self.same("of no feature", sorted(without), ["MOVE_AND_INSERT_ZEROS"])
        wanted = [columns for name, columns in mnemonics().items() if name not in without]
        for language in ("english", "german"):
            self.same(language, missing_and_extra(words(language), wanted), ([], [], []))

    def test_the_manual_has_a_line_for_each_operation(self):
        """MLC is the assembler's own second name of MCW."""
        unfitted = set(rows("unfitted"))
        wanted = [columns for name, columns in mnemonics().items() if name not in unfitted]
        text = (TOP / "docs/AUTOCODER.md").read_text()
        table = re.search(r"\n## Instructions\n\n(.*?)\n\n", text, re.DOTALL)[1]
        named = [each for row in table.splitlines() for each in re.findall(r"`(\w+)`", row.split("|")[1])]
        self.same("docs/AUTOCODER.md", missing_and_extra(named, [*wanted, "MLC"]), ([], [], []))

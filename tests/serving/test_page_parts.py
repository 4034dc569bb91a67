"""The files that a page of a seat is joined of."""
import importlib.machinery
import importlib.util
import re
import sys
import unittest

from tests.support import EXAMPLES, PAGE, TOP, ProgramTest, program

PARTS = TOP / "page"
# page/embed is loaded as a module, and leaves no file.
sys.dont_write_bytecode = True
MOST_LINES = 40
MOST_COLUMNS = 120


def functions(text):
    """The functions of a script with names, each with the number of its lines: from its head to the brace in the same
    column."""
    lines = text.splitlines()
    for at, line in enumerate(lines):
        head = re.match(r"( *)(?:async )?(?:function\*? (\w+)|(?:const|let) (\w+) = (?:async )?(?:\w+|\([^)]*\)) =>"
                        r"|(\w+)\([^)]*\) \{$|(\w+): (?:async )?(?:\w+|\([^)]*\)) => \{$)", line)
        if not head or not line.endswith("{") or re.match(r" *(?:if|for|while|switch|catch)\b", line):
            continue
        end = next(further for further in range(at + 1, len(lines)) if re.match(rf"{head[1]}\}}", lines[further]))
        yield next(name for name in head.groups()[1:] if name), end - at + 1


class Parts(unittest.TestCase):
    """The files in page/."""

    def scripts(self):
        """Each part of the script."""
        return sorted((PARTS / "script").glob("*.js"))

    def test_each_file_is_named_once(self):
        """The order in index.html is the order in the document."""
        named = re.findall(r'(?:href|src)="((?:styles|script)/[^"]*)"', (PARTS / "index.html").read_text())
        found = [str(path.relative_to(PARTS)) for path in sorted((PARTS / "styles").iterdir()) + self.scripts()]
        self.assertEqual(sorted(named), sorted(found))

    def test_no_function_is_long(self):
        counted = 0
        for path in self.scripts():
            for name, lines in functions(path.read_text()):
                counted += 1
                with self.subTest(f"{path.name}: {name}"):
                    self.assertLessEqual(lines, MOST_LINES)
        self.assertGreater(counted, 100)

    def test_no_line_is_long(self):
        for path in [*self.scripts(), *sorted((PARTS / "styles").iterdir()), PARTS / "index.html"]:
            with self.subTest(path.name):
                long = [line for line in path.read_text().splitlines() if len(line) > MOST_COLUMNS]
                self.assertEqual(long, [])

    def test_functions_are_found_with_their_lines(self):
        text = "function one() {\n}\nconst two = async () => {\n  if (x) {\n  }\n};\n  three: () => {\n    1;\n  },\n"
        self.assertEqual(list(functions(text)), [("one", 2), ("two", 4), ("three", 3)])

    def test_nothing_is_made_of_a_text(self):
        """A text from the machine or of a visitor becomes text alone, never HTML or a program."""
        for path in self.scripts():
            with self.subTest(path.name):
                made = r"(?:inner|outer|Adjacent)HTML|document\.write|\beval\(|new Function|setAttribute\('style'"
                self.assertEqual(re.findall(made, path.read_text()), [])

    def test_the_document_is_in_ascii(self):
        self.assertTrue(PAGE.isascii())

    def test_the_document_fits_into_two_constants(self):
        """A constant has 140,000 expressions at most, and each byte is one."""
        first, rest = self.embed().halves(PAGE.decode())
        self.assertEqual(first + rest, PAGE.decode())
        self.assertLess(max(len(first), len(rest)), 140_000)

    def embed(self):
        """What joins the page, as a module."""
        loader = importlib.machinery.SourceFileLoader("embed", str(PARTS / "embed"))
        module = importlib.util.module_from_spec(importlib.util.spec_from_loader("embed", loader))
        loader.exec_module(module)
        return module

    def test_blanks_go_from_code_alone(self):
        """Texts, templates and patterns of the script have theirs, and so have quoted texts of a style."""
        embed = self.embed()
        script = "const a = b ? 'c , d' : `e = ${f}`;\nif (/^ *(g) $/.test(h + 1)) i( 'it\\'s { j }' );"
        wanted = "const a=b?'c , d':`e = ${f}`;\nif(/^ *(g) $/.test(h + 1))i('it\\'s { j }');"
        self.assertEqual(embed.tight(script, embed.JS_LITERAL, embed.JS_SIGNS), wanted)
        lines = "/* All.\n   Of it. */\nlet k = 1;    // a number\n\n  k++;\n"
        self.assertEqual(embed.lean(lines), "let k = 1;\nk++;\n")


class Programs(ProgramTest):
    """The programs that a visitor can choose."""

    def test_each_deck_is_its_source_assembled(self):
        sources = sorted((PARTS / "programs").glob("*.source"))
        self.same("their names", [source.stem for source in sources], ["banner", "calculation", "game", "payroll"])
        for source in sources:
            deck = self.folder / f"{source.stem}.deck"
            self.expect(f"{source.stem} is assembled", program("assemble", source, "--deck", deck))
            self.same(f"the deck of {source.stem}", deck.read_bytes(), source.with_suffix(".deck").read_bytes())

    def test_each_lesson_has_its_listing(self):
        sources = sorted(deck.with_suffix(".source") for deck in (EXAMPLES / "course").glob("*/broken.deck"))
        self.same("how many", len(sources), len(list((PARTS / "programs").glob("*.listing"))))
        for number, source in enumerate(sources, 1):
            listed = program("assemble", "--language", "ibm", "--list", source).stdout
            self.same(source.parent.name, (PARTS / f"programs/lesson{number}.listing").read_bytes(), listed)


if __name__ == "__main__":
    unittest.main()

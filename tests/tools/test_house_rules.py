"""The pages are short, say what the tree has, and keep to our English; and a function has few parameters."""
import re
import tempfile
import unittest
from pathlib import Path

from tests import words
from tests.edit_texts import further_crates, further_edits

TOP = Path(__file__).resolve().parents[2]
DOCS = TOP / "docs"

# How many lines a page may have. README and ARCHITECTURE are read in ten minutes.
MOST_LINES = {
    "README.md": 110,
    "docs/ARCHITECTURE.md": 160,
    "docs/CONTRIBUTING.md": 205,
    "docs/THEOREMS.md": 600,
    "docs/DECISIONS.md": 520,
    "docs/GLOSSARY.md": 60,
    "docs/OPERATE.md": 350,
    "docs/PAGE.md": 250,
}
MOST_COLUMNS = 120
# How many words a cell of a page's tables may have, if it is to be read aloud.
MOST_WORDS = {"README.md": 25, "docs/THEOREMS.md": 30}


def tables(page):
    """The rows of a page's tables, a list of cells each, without their heads."""
    rows = [line.strip("|\n").split(" | ") for line in page.read_text().splitlines() if line.startswith("|")]
    return [[cell.strip() for cell in row] for row in rows]


def names_in(text):
    """What a text has as code."""
    return re.findall(r"`([^`]+)`", text)


class Lengths(unittest.TestCase):
    def test_each_page_is_short(self):
        for name, most in MOST_LINES.items():
            with self.subTest(name):
                self.assertLessEqual(len((TOP / name).read_text().splitlines()), most)

    def test_no_line_of_prose_is_longer_than_120_columns(self):
        for page in [TOP / "README.md", *sorted(DOCS.glob("*.md"))]:
            with self.subTest(page.name):
                prose = re.sub(r"```.*?```", "", page.read_text(), flags=re.DOTALL).splitlines()
                self.assertEqual([line for line in prose if len(line) > MOST_COLUMNS and not line.startswith("|")], [])


    def test_the_cells_of_a_table_are_short(self):
        for name, most in MOST_WORDS.items():
            for row in tables(TOP / name):
                for cell in row:
                    with self.subTest(name, cell=cell):
                        self.assertLessEqual(len(cell.split()), most)


def parameters(source):
    """The name of each function of a source in Rattle, with how many parameters it has."""
    source = source.replace("->", "")
    for found in re.finditer(r"\bfn (\w+)(?=[<(])", source):
        depth, count, is_begun, is_list = 0, 0, False, False
        for char in source[found.end():]:
            is_list |= depth == 0 and char == "("
            depth += (char in "([{<") - (char in ")]}>")
            if is_list and (depth == 0 or depth == 1 and char == ","):
                count, is_begun = count + is_begun, False
            elif is_list and not char.isspace() and not (depth == 1 and char == "("):
                is_begun = True
            if is_list and depth == 0:
                break
        yield found[1], count


class Parameters(unittest.TestCase):
    """A function has seven parameters at most, itself among them: more are fields of a struct."""

    def test_no_function_has_more_than_seven(self):
        for source in sorted((TOP / "crates").glob("*/src/**/*.rt")):
            with self.subTest(source.relative_to(TOP)):
                self.assertEqual([name for name, count in parameters(source.read_text()) if count > 7], [])

    def test_how_they_are_counted(self):
        source = """
        fn none() {}
        fn nested<'a, F: Fn(u8) -> u8>(&mut self, map: BTreeMap<u8, (u8, u8)>, f: F) {}
        fn lines<R: Source, W: Sink>(
            alloc: Global,
            all: &[(u8, u8)],
        ) -> Result<(), AllocError> {}
        """
        self.assertEqual(list(parameters(source)), [("none", 0), ("nested", 3), ("lines", 2)])


class Tree(unittest.TestCase):
    """What the pages say of the tree is there."""

    def crates(self):
        lines = (TOP / "crates.txt").read_text().splitlines()
        return {line.split(":")[0] for line in lines if line and not line.startswith("#")}

    def test_architecture_has_each_crate_once_among_the_families(self):
        text = (DOCS / "ARCHITECTURE.md").read_text()
        families = re.search(r"^## Families\n(.*?)^## ", text, re.MULTILINE | re.DOTALL)[1]
        listed = [name for name in names_in(families) if name in self.crates()]
        self.assertEqual(sorted(set(listed)), sorted(self.crates()))
        twice = {name for name in listed if len(re.findall(rf"`{name}`[:,]", families)) > 1}
        self.assertEqual(twice, set())

    def test_architecture_says_whose_lemmas_the_proofs_of_each_crate_use(self):
        shown = set()
        for row in tables(DOCS / "ARCHITECTURE.md"):
            if len(row) == 3 and set(names_in(row[0])) & self.crates():
                shown |= {(user, lower) for user in names_in(row[0]) for lower in names_in(row[1])}
        found = set()
        for crate in self.crates():
            for path in (TOP / "crates" / crate).rglob("*.antt"):
                lemmas = re.findall(r"^use Rattle\.(\w+)\.proofs\.", path.read_text(), re.MULTILINE)
                found |= {(crate, lower) for lower in lemmas if lower in self.crates() - {crate}}
        self.assertEqual(sorted(shown), sorted(found))

    def test_readme_says_how_many_crates_are_proved(self):
        below = {}
        for line in (TOP / "crates.txt").read_text().splitlines():
            if line and not line.startswith("#"):
                crate, _, lower = line.partition(":")
                below[crate] = set(lower.split())
        counts = {}
        for program in "ibm1401", "console_program":
            needed, more = set(), {program}
            while more:
                needed |= more
                more = {lower for crate in more for lower in below[crate] if lower in below} - needed
            counts[program] = len(needed)
        readme = " ".join((TOP / "README.md").read_text().split())
        self.assertIn(f"proves all {counts['ibm1401']} crates; "
                      f"`console` alone needs only {counts['console_program']} crates", readme)
        self.assertIn(f"a first `./ibm1401 console`, {counts['console_program']} crates",
                      (TOP / "benches/README.md").read_text())

    def test_pages_say_how_many_wrong_bodies_the_gate_tries(self):
        tried = sorted((TOP / "crates").glob("*/must-fail/*.edit"))
        further = sum(len(further_edits(crate)) for crate in further_crates())
        readme = " ".join((TOP / "README.md").read_text().split())
        self.assertIn(f"the prover rejects {len(tried)} deliberately wrong functions; "
                      "a release tries over a thousand more", readme)
        self.assertGreater(further, 1_000)
        self.assertIn(f"`crates/*/must-fail/`, {len(tried)} of them", (TOP / "benches/README.md").read_text())
        crates = {edit.parent.parent.name for edit in tried}
        section = (DOCS / "CONTRIBUTING.md").read_text().partition("\n## Wrong bodies\n")[2].partition("\n## ")[0]
        self.assertEqual(set(names_in(section)) & self.crates(), crates)

    def test_readme_quotes_a_step_as_the_code_has_it(self):
        """Each paragraph of what it shows of a source or of definitions is in the file that the line above names."""
        shown = re.findall(r"\]\((crates/[^)]*)\)[^\n]*\n\n```(?:rust|antt)\n(.*?)```",
                           (TOP / "README.md").read_text(), re.DOTALL)
        self.assertEqual([Path(file).name for file, _ in shown], ["stepping.rt", "Step.antt"])
        for file, block in shown:
            for part in block.strip("\n").split("\n\n"):
                with self.subTest(file=file, part=part):
                    self.assertIn(f"\n{part}\n", (TOP / file).read_text())

    def test_theorems_names_the_crates_that_the_toolchain_brings(self):
        needed = set()
        for line in (TOP / "crates.txt").read_text().splitlines():
            if line and not line.startswith("#"):
                needed |= set(line.partition(":")[2].split())
        trusted = (DOCS / "THEOREMS.md").read_text().partition("\n## What is trusted\n")[2]
        brought = re.search(r"that\s+it\s+brings:(.*?)\.\n", trusted, re.DOTALL)[1]
        self.assertEqual(sorted(names_in(brought)), sorted(needed - self.crates() - {"core"}))

    def test_readme_says_how_large_the_whole_is(self):
        """To a tenth, so a change of some lines needs no other figure."""
        readme = " ".join((TOP / "README.md").read_text().split())
        said = re.search(r"some ([\d,]+) lines of code, ([\d,]+) of definitions and ([\d,]+) of proofs", readme)
        for number, part in zip(said.groups(), ("src", "specs", "proofs")):
            files = [each for each in (TOP / "crates").glob(f"*/{part}/**/*") if each.suffix in (".rt", ".antt")]
            count = sum(len(each.read_text().splitlines()) for each in files)
            with self.subTest(part, count=count):
                self.assertLessEqual(abs(int(number.replace(",", "")) - count), count / 10)

    def test_the_crates_for_a_user_are_eight(self):
        """As ARCHITECTURE and CONTRIBUTING say."""
        page = " ".join((DOCS / "ARCHITECTURE.md").read_text().split())
        self.assertIn("The eight crates whose names end in `_1401`", page)
        self.assertEqual(len([crate for crate in self.crates() if crate.endswith("_1401")]), 8)

    def test_no_other_page_lists_the_crates(self):
        for page in [TOP / "README.md", *sorted(DOCS.glob("*.md"))]:
            if page.name in ("ARCHITECTURE.md", "THEOREMS.md"):
                continue
            with self.subTest(page.name):
                named = set(names_in(page.read_text())) & self.crates()
                self.assertLess(len(named), len(self.crates()) / 2)

    def test_readme_leads_to_each_page(self):
        linked = set(re.findall(r"\]\(docs/(\w+\.md)", (TOP / "README.md").read_text()))
        self.assertEqual({page.name for page in DOCS.glob("*.md")} - linked, set())

    def test_each_file_that_a_page_names_is_there(self):
        for page in sorted(DOCS.glob("*.md")):
            text = page.read_text()
            named = re.findall(r"\b(\w+/src/\w+\.rt)\b", text)
            named += [f"{file}.antt" for file in re.findall(r"\b(?!crate/)(\w+/specs/[A-Z]\w+)\b", text)]
            for name in named:
                with self.subTest(page=page.name, file=name):
                    self.assertTrue((TOP / "crates" / name).exists())

    def test_theorems_names_calls_clauses_and_definitions_that_exist(self):
        known = set(self.crates())
        for path in (TOP / "crates").glob("*/src/**/*.rt"):
            text = path.read_text()
            known |= set(re.findall(r"\b(?:fn|struct|enum|trait|mod) (\w+)", text))
            known |= set(re.findall(r"\bensures\*? (\w+) \{", text))
            known |= set(re.findall(r"^    (\w+)(?:,| \{|\()", text, re.MULTILINE))
        for path in (TOP / "crates").glob("*/specs/**/*.antt"):
            found = re.findall(r"^(?:pub )?(?:abbrev|unfoldable|record|data)(?: pub)? (\w+)", path.read_text(), re.M)
            known |= set(found)
        for row in tables(DOCS / "THEOREMS.md"):
            if len(row) < 4:
                continue
            for name in names_in(row[0] + " " + row[1]):
                last = re.split(r"::", name)[-1]
                if not re.fullmatch(r"\w+", last):
                    continue
                with self.subTest(call=row[0], name=name):
                    self.assertTrue(last in known, "no call, clause or definition has this name")


    def test_the_clauses_of_a_theorem_are_those_of_its_call(self):
        contracts, clauses = {}, set()
        for path in (TOP / "crates").glob("*/src/**/*.rt"):
            text = path.read_text()
            clauses |= set(re.findall(r"\bensures\*? (\w+) \{", text))
            for part in re.split(r"^ *(?:pub(?:\(crate\))? )?fn (?=\w)", text, flags=re.MULTILINE)[1:]:
                name = re.match(r"\w+", part)[0]
                contracts[name] = contracts.get(name, "") + re.split(r"^ *\{$", part, maxsplit=1, flags=re.MULTILINE)[0]
        contract = ""
        for row in tables(DOCS / "THEOREMS.md"):
            if len(row) < 4 or row[0].startswith("---"):
                continue
            if row[0]:
                contract = "".join(contracts.get(name.split("::")[-1], "") for name in names_in(row[0]))
            for name in set(names_in(row[1])) & clauses if contract else ():
                with self.subTest(call=row[0], clause=name):
                    self.assertRegex(contract, rf"\b{name}\b")


class English(unittest.TestCase):
    def test_no_file_has_more_of_our_worn_words_than_its_ceiling(self):
        most = words.ceilings()
        for place, count in words.counts().items():
            with self.subTest(place):
                self.assertLessEqual(count, most.get(place, 0))

    def test_words_are_found_in_prose_and_not_in_code(self):
        shown = "It tells so, and who stands\n```\nbeside\n```\n`told` of the\n"
        found = [found[0] for _, line in words.of_page(shown) for found in words.WORDS.finditer(line)]
        self.assertEqual(found, ["tells", "and who", "stands"])

    def test_a_phrase_is_found_across_two_lines(self):
        with tempfile.TemporaryDirectory() as folder:
            page = Path(folder) / "a page.md"
            page.write_text("What is\nkept, so\nthat it stays.\n")
            self.assertEqual([word for _, _, word in words.words_in([page])], ["is kept", "so that"])

    def test_a_ceiling_goes_down_and_never_up(self):
        now = {"README.md": 5, "docs/JOURNAL.md": 1, "docs/NEW.md": 2}
        most = {"README.md": 3, "docs/JOURNAL.md": 4, "docs/GONE.md": 7}
        self.assertEqual(words.lowered(now, most), {"README.md": 3, "docs/JOURNAL.md": 1, "docs/NEW.md": 0})

    def test_comments_and_texts_of_a_source_are_read_and_its_code_is_not(self):
        source = 'fn tell(beside: u8) { print("the line is told"); } // which stands\n'
        found = [found[0] for _, line in words.of_rattle(source) for found in words.WORDS.finditer(line)]
        self.assertEqual(found, ["stands", "told"])


if __name__ == "__main__":
    unittest.main()

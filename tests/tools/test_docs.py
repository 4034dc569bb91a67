"""The pages: their links, the sessions and the sources that they show, and the definitions that they name."""
import re
import unittest
from pathlib import Path

from tests import crate_map
from tests.support import EXAMPLES, TESTS, TOP, ProgramTest, at_a_port, program, run

PAGES = [TOP / "README.md", *sorted((TOP / "docs").glob("*.md"))]


def rows_of(page):
    """What is typed and what is answered, in the tables of a page that have these two columns first."""
    rows, inside = [], False
    for line in page.read_text().splitlines():
        cells = [cell.strip() for cell in line.split(" | ")]
        if line.startswith("| You type | It answers |"):
            inside = True
        elif not line.startswith("|"):
            inside = False
        elif inside and not line.startswith("|---"):
            typed, answered = re.fullmatch(r"\|? ?`(.*)`", cells[0]), re.fullmatch(r"`(.*)`", cells[1])
            rows.append((typed[1], answered[1] if answered else None))
    return rows


def shown_job():
    """The job that README shows: its call, what it prints on paper, and what standard error says."""
    text = (TOP / "README.md").read_text()
    call, paper = re.search(r"```sh\n(\./ibm1401 run .*?)```\n\n```text\n(.*?)```", text, re.DOTALL).groups()
    return call, paper, " ".join(re.search(r"`(ibm1401: HALT .*?)`", text, re.DOTALL)[1].split())


def ended_at_quit(rows):
    """The sessions of a page: each ends with QUIT or with the page."""
    session = []
    for row in rows:
        session.append(row)
        if row[0] == "QUIT":
            yield session
            session = []
    if session:
        yield session


def lost_links(page):
    """The links of a page that lead to no file, or to no heading of it."""
    lost = []
    for link, heading in re.findall(r"\]\(([^)#:]*)(?:#([^)]*))?\)", page.read_text()):
        target = (page.parent / link) if link else page
        text = target.read_text(errors="replace") if target.is_file() else ""
        headings = re.findall(r"^#+ (.*)$", text, re.MULTILINE)
        anchors = [re.sub(r"[^\w -]", "", each).lower().replace(" ", "-") for each in headings]
        if not target.exists() or (heading and heading not in anchors):
            lost.append(f"{link}#{heading}" if heading else link)
    return lost


def named_definitions():
    """The definitions that MACHINE names below its sections: the file of specs/ and the name of each."""
    text = (TOP / "docs/MACHINE.md").read_text()
    for block in re.findall(r"^\*(\w+/specs/.*?)\*$", text, re.MULTILINE | re.DOTALL):
        crate = ""
        for part in re.split(r";\s+", " ".join(block.split())):
            place, _, names = part.partition(": ")
            crate, _, file = place.rpartition("/specs/") if "/" in place else (crate, "", place)
            for name in re.findall(r"`(.*?)`", names):
                yield TOP / "crates" / crate / "specs" / f"{file}.antt", name


def known_tests():
    """The names of all tests: of Rattle, of Python, and those that a text's title has."""
    names = set()
    for source in (TOP / "crates").glob("tests_*/src/**/*.rt"):
        names |= set(re.findall(r"#\[test[^\n]*\n(?:#[^\n]*\n)*(?:pub )?fn (\w+)", source.read_text()))
    for module in TESTS.glob("*/test_*.py"):
        names |= {module.stem, *re.findall(r"def test_(\w+)\(", module.read_text())}
    for text in TESTS.glob("*/*.txt"):
        for title in re.findall(r"^== (.*)$", text.read_text(), re.MULTILINE):
            names.add(re.sub(r"[^a-z0-9]+", "_", title.lower()).strip("_"))
    return names | {f"test_{name}" for name in names}


def known_names():
    """The names that sources and definitions have, the examples, and what their configurations say."""
    files = [path for path in (TOP / "crates").glob("*/s*/**/*") if path.suffix in (".rt", ".antt")]
    files += [path for path in EXAMPLES.iterdir() if path.suffix == ".conf"]
    return {name for path in files for name in re.findall(r"\w+", path.read_text())} | {
        path.stem for path in EXAMPLES.iterdir()}


def named_on_paths():
    """What ARCHITECTURE names on a path through the code: the files of a row, and a name that they should have."""
    for line in (TOP / "docs/ARCHITECTURE.md").read_text().splitlines():
        cells = re.split(r" ?\| ?", line)
        if len(cells) != 4 or not cells[1].startswith("`") or "/src/" not in cells[1]:
            continue
        files, folder = [], None
        for file in re.findall(r"`([\w/]+[.]rt)`", cells[1]):
            folder = (TOP / "crates" / file).parent if "/" in file else folder
            files.append(folder / Path(file).name)
        for name in re.findall(r"`(\w+(?:::\w+)?)`", cells[2]):
            yield files, name


def has_name(source, name):
    """Whether a source has a name, or the function of a type if the name is of one."""
    holder, _, function = name.rpartition("::")
    if not holder:
        return re.search(rf"\b{name}\b", source)
    parts = re.findall(rf"^impl\b[^{{]*\b{holder}\b[^{{]*\{{\n(.*?)^\}}", source, re.MULTILINE | re.DOTALL)
    return any(re.search(rf"\bfn {function}\b", part) for part in parts)


class Pages(ProgramTest):
    """What a page shows is what the program does."""

    def test_links(self):
        for page in [*PAGES, *(TOP / folder / "README.md" for folder in ("benches", "examples", "tests"))]:
            self.same(str(page.relative_to(TOP)), lost_links(page), [])

    def test_what_architecture_names_on_a_path(self):
        named = list(named_on_paths())
        self.assertTrue(named)
        for files, name in named:
            lacks = "" if any(has_name(file.read_text(), name) for file in files) else f"{files} don't have it"
            self.check(name, lacks)

    def test_the_map_has_the_crates_and_what_each_needs(self):
        needed, text = crate_map.crates(), crate_map.MAP.read_text()
        self.same("the boxes", sorted(re.findall(r"^<text [^>]*>(\w+)</text>$", text, re.MULTILINE)), sorted(needed))
        lines = re.findall(r"^<path .*<title>(\w+) needs (\w+)</title></path>$", text, re.MULTILINE)
        drawn = {crate: [lower for other, lower in lines if other == crate] for crate in needed}
        self.same("all that each crate needs", crate_map.closure(drawn), crate_map.closure(needed))
        self.check("it is drawn from crates.txt", "" if text == crate_map.drawn(needed)
                   else "python3 -m tests.crate_map draws it again")

    def test_modules_that_the_page_of_tests_names(self):
        rows = re.findall(r"^\| `test_.*", (TESTS / "README.md").read_text(), re.MULTILINE)
        named = sorted(name for row in rows for name in re.findall(r"`(test_\w+)`", row))
        self.same("the modules", named, sorted(file.stem for file in TESTS.glob("*/test_*.py")))

    def test_definitions_that_machine_names(self):
        named = list(named_definitions())
        self.assertTrue(named)
        for specs, name in named:
            text = specs.read_text() if specs.exists() else ""
            defined = re.search(rf"^(?:abbrev|unfoldable|record)(?: pub)? {name}\b", text, re.MULTILINE)
            self.check(f"{specs.stem}: {name}", "" if defined else f"{specs.relative_to(TOP)} doesn't define it")

    def test_sessions_with_a_table(self):
        """Each table of lines and replies: its replies to the byte, and what its page has to paste is its lines."""
        found = {page: rows_of(page) for page in PAGES}
        shown = {page.name for page, rows in found.items() if rows}
        self.same("these have one at least", {"README.md", "TUTORIAL.md"} - shown, set())
        for page, rows in found.items():
            for session in ended_at_quit(rows):
                self.hold_session(page, session)

    def hold_session(self, page, rows):
        """Subtests of a session of a page."""
        lines = "".join(f"{typed}\n" for typed, _ in rows)
        replies = "".join(f"{answered}\n" for _, answered in rows if answered is not None)
        self.expect(f"{page.name}: its session", program("console", lines=lines.encode()), 0, replies)
        for block in re.findall(r"```sh\n(\./ibm1401 console .*?)```", page.read_text(), re.DOTALL):
            pasted = run(["bash", "-c", block], cwd=self.top)
            self.expect(f"{page.name}: what it has to paste", pasted, 0, replies)
            self.check(f"{page.name}: that is its session", "" if lines in block else "its lines are others")

    def test_what_readme_runs(self):
        call, paper, ending = shown_job()
        self.expect("it", run(["bash", "-c", call], cwd=self.top), 0, paper, f"{ending}\n")

    def test_what_readme_serves(self):
        """At other ports, since those of the page may be taken: the page of seat 1 is where it says."""
        text = (TOP / "README.md").read_text()
        call = re.search(r"```sh\n\./ibm1401 (serve .*)\n```", text)[1].split()
        port, seats = (call[call.index(option) + 1] for option in ("--page", "--seats"))
        shown = re.search(r"The \[page\]\S* of the first is at http://127\.0\.0\.1:(\d+)/", text)[1]
        self.same("the address that the page names", shown, port)

        def served(first):
            return program(*[str(first) if word == port else word for word in call], lines=b"QUIT\n")
        ran = at_a_port(served, int(seats))
        first = int(re.search(rb"^SEAT 1 http://127\.0\.0\.1:(\d+)/$", ran.stdout, re.MULTILINE)[1])
        pages = "".join(f"SEAT {seat} http://127.0.0.1:{first + seat - 1}/\n" for seat in range(1, int(seats) + 1))
        self.expect("it", ran, 0, f"READY\n{pages}JOURNAL 0\n")


class Names(ProgramTest):
    """Tests and replies that pages name are there, and none is left out."""

    def test_console_has_each_reply_of_a_fault(self):
        said = r"(?:REFUSED|ERROR|FAULT|GLANCE FAULT) \d [A-Z ]+"
        texts = {text for source in (TOP / "crates").glob("*/src/*.rt")
                 for text in re.findall(rf'=> "({said})"', source.read_text())}
        rows = re.findall(rf"^\| `({said})` \|", (TOP / "docs/CONSOLE.md").read_text(), re.MULTILINE)
        self.same("the replies", sorted(rows), sorted(texts))

    def test_each_test_that_a_page_names_is_there(self):
        """What is in code and begins with test_ is a module, a class or a test; so is what has three underscores or more,
        unless the sources know the name."""
        tests, others = known_tests(), known_names()
        for page in [*PAGES, *(TOP / folder / "README.md" for folder in ("benches", "examples", "tests"))]:
            text = re.sub(r"```.*?```", "", page.read_text(), flags=re.DOTALL)
            named = set(re.findall(r"`([a-z0-9]+(?:_[a-z0-9]+){3,})`", text)) - others
            for code in re.findall(r"`([^`\n]+)`", text):
                named |= set(re.findall(r"\btest_\w+\b", code))
            self.same(f"{page.relative_to(TOP)}: tests that aren't there", sorted(named - tests), [])

    def test_each_call_and_each_word_of_a_trial_that_failures_names_is_there(self):
        page = (TOP / "docs/FAILURES.md").read_text()
        rows = page.partition("\n| Call | Words |\n|---|---|\n")[2].partition("\n\n")[0].splitlines()
        self.assertTrue(rows)
        trials = (TOP / "crates/tests_library/src/tables.rt").read_text()
        words, known = set(re.findall(r'\(\s*"(\w+)",\s*Subject::', trials)), known_names()
        for row in rows:
            calls, shown = row.strip("| ").split(" | ")
            own = calls.partition(";")[0] if shown.startswith("each its own") else ""
            self.same(f"{calls}: words of no trial", set(re.findall(r"`(\w+)`", own + shown)) - words, set())
            self.same(f"{calls}: no such call", set(re.findall(r"`(?:\w+::)?(\w+)`", calls)) - known, set())


class Features(ProgramTest):
    """The program that MACHINE.md shows for its features."""

    def test_what_it_prints_with_its_features_and_without(self):
        _, features = (TOP / "docs/MACHINE.md").read_text().split("\n## Features\n")
        source, call, paper, fault = re.findall(r"```(?:text|sh)\n(.*?)```", features, re.DOTALL)[:4]
        (self.folder / "interest.source").write_text(source)
        (self.folder / "interest.cards").write_text("12500\n00380\n")
        words = call.split()[1:]
        ran = program(*words, cwd=self.folder)
        self.same("with them", (ran.returncode, ran.stdout.decode()), (0, paper))
        at = words.index("--fit")
        self.expect("without", program(*words[:at], *words[at + 2:], cwd=self.folder), 1, "", fault)


class Autocoder(ProgramTest):
    """The sources that AUTOCODER.md shows."""

    text = (TOP / "docs/AUTOCODER.md").read_text()

    def test_listings(self):
        listed = re.findall(r"```autocoder\n(.*?)```\n.*?```text\n(.*?)```", self.text, re.DOTALL)
        self.assertEqual(2, len(listed))
        source = self.folder / "a source"
        for lines, listing in listed:
            source.write_text(lines)
            self.expect(lines.splitlines()[0].strip(), program("assemble", "--list", source), 0, listing)

    def test_faults(self):
        """A source for each fault but that of memory."""
        faults = re.findall(r"```text\n(line \d+: \d+ [A-Z ]+)\n(.*?)```", self.text, re.DOTALL)
        self.assertEqual(list(range(2, 12)), sorted(int(fault.split()[2]) for fault, _ in faults))
        source = self.folder / "a source"
        for fault, lines in faults:
            source.write_text(lines)
            self.expect(fault, program("assemble", source), 1, "", f"ibm1401: {fault}\n")

    def test_warnings(self):
        warned = re.findall(r"```text\n(warned\.source:[^\n]*\n)(.*?)```", self.text, re.DOTALL)
        self.assertEqual(11, len(warned))
        for warning, lines in warned:
            (self.folder / "warned.source").write_text(lines)
            is_wider = re.search("this machine has no instruction|a card for the system", warning)
            is_plain = "the text ends at its second at sign" in warning
            for language in ["ibm"] if is_wider else ["plain"] if is_plain else ["plain", "ibm"]:
                call = ["assemble", "--language", language, "warned.source"]
                image = program(*call, cwd=self.folder)
                self.expect(f"{warning.strip()}, {language}: without --all", image, 0, "...")
                ran = program(*call, "--all", cwd=self.folder)
                self.expect(f"{warning.strip()}, {language}", ran, 0, image.stdout, warning)


if __name__ == "__main__":
    unittest.main()

"""The benches: what each says without a program, and how benches/all puts their figures into one table."""
import os
import re
import shutil
import subprocess
import sys
import tempfile
import unittest
from pathlib import Path

sys.dont_write_bytecode = True
from tests.support import TOP, ProgramTest, needs, repository, run

sys.path.append(str(TOP / "benches"))
from histories import ENDED, PERHAPS, Entry, lost_of

README = TOP / "benches/README.md"
HEAD = "| Bench | Figure | Ours | i1401 | Ratio | Date, commit |\n|---|---|---|---|---|---|\n"
BEGIN, END = "<!-- benches/all --write begins here -->\n", "<!-- benches/all --write ends here -->\n"
USAGE = """\
usage: benches/all [--write] [NAME ..], or benches/all --names
NAME is speed, cards, tapes, images, lines, operate, assembler, serve, waiting, pages, exhibit, crowd, rooms, journals, soak
"""
# A mock of a bench. Its first figure is called after the word that it is run with.
MOCK = '''\
#!/bin/sh
case "$*" in
    --names) rate=rate ;;
    *) rate="rate${1:+ $1}" ;;
esac
case "$*" in
    *--names) printf '%s, lines a second\\ncost, ms\\n' "$rate" ;;
    *) printf '%s, lines a second\\t12\\t4\\t3.00\\ncost, ms\\t1,234\\t\\t\\n' "$rate" > "$IBM1401_FIGURES" ;;
esac
'''
# The same with what the benches share: 12 lines a second are three times as good as 4, and 10 ms half as good as 5.
SHARING = '''\
#!/usr/bin/env python3
"""A mock of a bench."""
import sys

sys.dont_write_bytecode = True
from bench import prepare, report

prepare(__doc__, {"rate": "lines a second", "cost": "ms", "much": "MB", "handles": "at most"})
report("rate", 12, 4, "cores equal")
report("cost", 10.0, 5.0)
report("much", 1234.5)
report("handles", 9)
'''

# The most processor time that an answer takes: a bench takes much more.
AT_ONCE = 10


def answer(bench, *words):
    """What a bench says with nothing but its folder: its status, its text, and the processor time it took."""
    with tempfile.TemporaryFile() as text:
        process = subprocess.Popen([bench, *words], stdin=subprocess.DEVNULL, stdout=text, stderr=subprocess.STDOUT)
        _, status, used = os.wait4(process.pid, 0)
        process.returncode = os.waitstatus_to_exitcode(status)
        text.seek(0)
        return process.returncode, text.read().decode(), used.ru_utime + used.ru_stime


class Benches(unittest.TestCase):
    """The benches in a folder that has nothing else."""

    def setUp(self):
        folder = tempfile.TemporaryDirectory()
        self.addCleanup(folder.cleanup)
        copy = Path(folder.name) / "benches"
        shutil.copytree(TOP / "benches", copy)
        self.benches = sorted(each for each in copy.iterdir() if os.access(each, os.X_OK))
        self.assertLessEqual({"all", "speed", "soak"}, {each.name for each in self.benches})

    def test_each_bench_answers_help_at_once_without_a_built_program(self):
        for bench in self.benches:
            with self.subTest(bench.name):
                status, text, seconds = answer(bench, "--help")
                self.assertEqual((status, "Traceback" in text), (0, False), text)
                # Its page, which begins with the first line below its head.
                head = re.sub(r'^"""', "", bench.read_text().splitlines()[1])
                self.assertEqual(text.splitlines()[0], head)
                self.assertLess(seconds, AT_ONCE)

    def test_each_bench_refuses_a_wrong_word_without_a_built_program(self):
        for bench in self.benches:
            with self.subTest(bench.name):
                status, text, _ = answer(bench, "nothing-of-this-name")
                self.assertEqual((status, "Traceback" in text, len(text.splitlines()) < 3), (2, False, True), text)

    def test_the_script_of_the_page_answers_help(self):
        status, text, _ = answer(TOP / "page/embed", "--help")
        self.assertEqual((status, "page/embed --check" in text), (0, True), text)


class Histories(unittest.TestCase):
    """What benches/soak says of a client's history, where it isn't what the journals have."""

    ENTRIES = [Entry(1, "DEPOSIT 1000 1", "OK"), Entry(1, "EXAMINE 1000 1", "1"), Entry(2, "DEPOSIT 1000 2", "OK")]

    def test_a_history_that_the_journals_have(self):
        first, second, third = ((each.command, each.answer) for each in self.ENTRIES)
        for name, history in {
            "each reply": [first, second, third],
            "a reply that is unknown": [first, (second[0], None), third],
            "an end with its room": [first, second, (ENDED, None), third],
            "two ends": [first, second, (ENDED, None), (ENDED, None), third, (ENDED, None)],
            "what may be there, and is": [first, (second[0], PERHAPS), third],
            "what may be there, and isn't": [first, second, ("DEPOSIT 1000 7", PERHAPS), third],
            "the same at the end": [first, second, third, ("EXAMINE 1000 1", PERHAPS)],
        }.items():
            with self.subTest(name):
                self.assertEqual(lost_of("it", history, self.ENTRIES), [])

    def test_a_history_that_they_do_not_have(self):
        first, second, third = ((each.command, each.answer) for each in self.ENTRIES)
        for name, (history, why) in {
            "another reply": ([first, (second[0], "2"), third],
                              f"it: EXAMINE 1000 1, 2 is in the journals as {self.ENTRIES[1]}"),
            "a line that lacks": ([first, second, third, second], "it: EXAMINE 1000 1, 1 is in the journals as None"),
            "a line too many": ([first, second], "it: DEPOSIT 1000 2 is in the journal of room 2"),
            "a line twice": ([first, first, second, third],
                             f"it: DEPOSIT 1000 1, OK is in the journals as {self.ENTRIES[1]}"),
            "an end in the middle of a room": (
                [first, (ENDED, None), second, third],
                "it: its connection ended before EXAMINE 1000 1, in the middle of room 1"),
            "no line": ([], "it: DEPOSIT 1000 1 is in the journal of room 1"),
        }.items():
            with self.subTest(name):
                self.assertEqual(lost_of("it", history, self.ENTRIES), [why])


class Table(ProgramTest):
    """The table of benches/README.md."""

    def test_a_row_for_each_figure_and_for_no_other(self):
        named = run([TOP / "benches/all", "--names"])
        rows = README.read_text().partition(BEGIN)[2].partition(END)[0].partition(HEAD)[2].splitlines()
        cells = [row[2:-2].split(" | ") for row in rows]
        self.same("each row has six cells", [row for row in cells if len(row) != 6], [])
        by_bench = [f"{bench}: {figure}\n" for bench, figure, *_ in cells if bench != "by hand"]
        self.assertIn("speed --count: add, host instructions for each\n", by_bench)
        self.expect("--names", named, 0, "".join(by_bench))
        self.same("a figure has its date or its commit", [row for row in cells if bool(row[2]) != bool(row[5])], [])


@needs("git")
class All(ProgramTest):
    """benches/all in a repository whose benches are mocks."""

    def setUp(self):
        self.benches = self.folder / "benches"
        self.benches.mkdir()
        for name in "all", "bench.py":
            shutil.copy(TOP / "benches" / name, self.benches)
        for name in USAGE.split("is ")[1].strip().split(", "):
            self.mock(name, MOCK)
        (self.folder / "ibm1401").write_text("#!/bin/sh\n")
        (self.folder / "ibm1401").chmod(0o755)
        self.rows = {"cards: old": "| cards | old, s | 1 |  |  | 2026-01-02, abc |\n",
                     "images: rate": "| images | rate, lines a second | 5 | 2 | 2.50 | 2026-01-02, abc |\n",
                     "by hand": "| by hand | a bell, s | 7 to 8 |  |  | 2026-01-03, def |\n"}
        self.page("2026-01-03, 2 x Abacus, commit def")

    def mock(self, name, text):
        """A bench in place of another."""
        (self.benches / name).write_text(text)
        (self.benches / name).chmod(0o755)

    def page(self, line):
        """A page with a table whose last run had this heading."""
        rows = "".join(self.rows.values())
        (self.benches / "README.md").write_text(f"A page\n{BEGIN}{line}\n\n{HEAD}{rows}{END}Rest\n")

    def commit(self):
        """Makes it a repository, and returns its commit."""
        repository(self.folder)
        return run(["git", "-C", self.folder, "rev-parse", "--short", "HEAD"]).stdout.decode().strip()

    def all(self, *words, programs=(), **variables):
        """Runs benches/all where the PATH has only what it needs, and these programs."""
        path = self.folder.parent / f"{self.folder.name}.path"
        if not path.exists():
            path.mkdir()
            self.addCleanup(shutil.rmtree, path)
            for name in "git", "sh":
                (path / name).symlink_to(shutil.which(name))
            (path / "python3").symlink_to(sys.executable)
        for name in programs:
            (path / name).symlink_to("/bin/true")
        kept = {name: value for name, value in os.environ.items() if name != "IBM1401"}
        return run([self.benches / "all", *words], env={**kept, "PATH": str(path), **variables})

    def row(self, bench, commit, figure="rate"):
        """The row that a mock gives for its rate."""
        return re.escape(f"| {bench} | {figure}, lines a second | 12 | 4 | 3.00 | ") + rf"[\d-]+, {commit} \|\n"

    def has(self, text, *parts):
        """Subtests: a text has these parts."""
        for part in parts:
            self.check(part, "" if part in text else f"it isn't in {text!r}")

    def matches(self, name, found, pattern):
        """A subtest: a text is as the pattern says."""
        self.check(name, "" if re.fullmatch(pattern, found, re.DOTALL) else f"it is {found!r}, not {pattern!r}")

    def test_a_wrong_word_is_refused_with_the_usage(self):
        for words in ["nothing"], ["speed", "--write"], ["--write", "hostile.py"], ["all"], ["--names", "speed"]:
            self.expect(" ".join(words), self.all(*words), 2, "", USAGE)

    def test_each_bench_is_run_once_and_in_order(self):
        ran = self.all(programs=["i1401", "valgrind"])
        self.same("its status", ran.returncode, 0)
        rows = [line.split(" | ")[:2] for line in ran.stdout.decode().splitlines() if ", lines a second | " in line]
        self.same("the benches", [f"{bench[2:]}: {figure.partition(',')[0]}" for bench, figure in rows], [
            "speed: rate", "speed --count: rate --count", "speed --lines: rate --lines", "cards: rate", "tapes: rate",
            "images: rate", "lines: rate", "operate: rate", "assembler: rate", "serve --journal: rate --journal",
            "waiting: rate", "pages: rate", "crowd: rate", "rooms: rate", "journals: rate"])
        self.has(ran.stderr.decode(), "\nbenches/cards, 4 of 17\n",
                 "\nLEFT OUT  benches/soak: it takes ten minutes, and runs if it is named\n")

    def test_what_is_printed_of_one_bench(self):
        self.mock("cards", SHARING)
        commit = self.commit()
        ran = self.all("cards")
        rest = "".join(rf"\| cards \| {cells} \| [\d-]+, {commit} \|\n" for cells in (
            r"cost, ms \| 10.0 \| 5.000 \| 0.50", r"much, MB \| 1,234 \|  \| ", r"handles, at most \| 9 \|  \| "))
        self.same("its status", ran.returncode, 0)
        self.matches("the table", ran.stdout.decode(),
                     rf"[\d-]+, \d+ x [^\n]*, commit {commit}\n\n{re.escape(HEAD)}{self.row('cards', commit)}{rest}")
        self.matches("the progress", ran.stderr.decode(),
                     rf"benches/cards, 1 of 1\n[^\n]*, commit {commit}\nrate: 12 lines a second, i1401 4, ratio 3.00; "
                     r"cores equal\ncost: 10.0 ms, i1401 5.000, ratio 0.50\nmuch: 1,234 MB\nhandles: 9 at most\n"
                     r"done in \d+ s\n")
        self.holds("the page", self.benches / "README.md", "A page\n...")
        self.same("the tree has no changes", run(["git", "-C", self.folder, "status", "--porcelain"]).stdout, b"")

    def test_a_bench_that_lacks_a_program_is_left_out(self):
        ran = self.all("speed")
        self.same("its status", ran.returncode, 0)
        rows = re.findall(r"^\| (speed[^|]*) \| rate", ran.stdout.decode(), re.MULTILINE)
        self.same("what needs none", rows, ["speed --lines"])
        self.has(ran.stderr.decode(), "LEFT OUT  benches/speed: not on the PATH: i1401\n",
                 "LEFT OUT  benches/speed --count: not on the PATH: i1401, valgrind\n")
        ran = self.all("speed", programs=["i1401"])
        rows = re.findall(r"^\| (speed[^|]*) \| rate", ran.stdout.decode(), re.MULTILINE)
        self.same("with the peer", rows, ["speed", "speed --lines"])

    def test_a_bench_that_fails_gives_no_row(self):
        self.mock("cards", MOCK + "exit 3\n")
        self.mock("images", MOCK.replace(r"\ncost, ms\t1,234\t\t", ""))
        self.mock("lines", SHARING + "report('else', 1)\n")
        ran = self.all("cards", "images", "lines", "rooms")
        self.same("its status", ran.returncode, 1)
        rows = re.findall(r"^\| (\w+) \| rate", ran.stdout.decode(), re.MULTILINE)
        self.same("the rows", rows, ["rooms"])
        self.has(ran.stderr.decode(), "\nFAILED  benches/cards: status 3\n", "\nFAILED  benches/lines: status 1\n",
                 "\nFAILED  benches/images: its figures aren't those that --names names\n")
        ran = self.all("cards")
        self.same("no row at all", (ran.returncode, ran.stdout), (1, b"no figure\n"))
        self.commit()
        before = (self.benches / "README.md").read_bytes()
        self.same("none to be written", self.all("--write", "cards").returncode, 1)
        self.same("the page is as before", (self.benches / "README.md").read_bytes(), before)

    def test_write_puts_the_rows_among_those_that_stay(self):
        commit = self.commit()
        ran = self.all("--write", "images", "soak")
        self.same("its status", ran.returncode, 0)
        page = (self.benches / "README.md").read_text()
        self.matches("the page", page, rf"A page\n{BEGIN}[\d-]+, \d+ x [^\n]*, commit {commit}\n\n{re.escape(HEAD)}"
                     rf".*{END}Rest\n")
        rows = f".*{self.row('images', commit)}.*{self.row('soak', commit)}.*"
        self.matches("rows of the benches that were run", page, rows)
        self.check("the row before it has gone", "is there" if "| 2.50 |" in page else "")
        self.check("a row that no bench reports has gone", "is there" if "old" in page else "")
        # A bench that wasn't run, and a row by hand, which comes last and has its processors now.
        self.has(page, "\n| rooms | cost, ms |  |  |  |  |\n",
                 f"\n| by hand | a bell, s | 7 to 8 |  |  | 2026-01-03, def, 2 x Abacus |\n{END}")
        self.same("the tree has no other changes", run(["git", "-C", self.folder, "status", "--porcelain"]).stdout,
                  b" M benches/README.md\n")

    def test_write_names_the_processors_of_a_row_once(self):
        self.rows["by hand"] = "| by hand | a bell, s | 7 to 8 |  |  | 2026-01-03, def, 1 x Loom |\n"
        self.page("2026-01-03, 2 x Abacus, commit def")
        self.commit()
        self.same("its status", self.all("--write", "images").returncode, 0)
        self.has((self.benches / "README.md").read_text(), self.rows["by hand"] + END)

    def test_write_leaves_rows_on_the_same_processors_as_they_are(self):
        self.commit()
        line = self.all("cards").stdout.decode().splitlines()[0]
        self.page(re.sub("commit .*", "commit def", line))
        self.commit()
        self.same("its status", self.all("--write", "cards").returncode, 0)
        self.has((self.benches / "README.md").read_text(), self.rows["images: rate"], self.rows["by hand"] + END)

    def test_write_is_refused(self):
        self.expect("without a repository", self.all("--write", "cards"), 2, "",
                    "benches/all: no commit is checked out here\n")
        self.commit()
        before = (self.benches / "README.md").read_bytes()
        refused = self.all("--write", "cards", IBM1401="/bin/true")
        self.expect("for another program", refused, 2, "",
                    "benches/all: IBM1401 names another program than that of this commit\n")
        (self.folder / "a note").write_text("")
        self.expect("for a tree with changes", self.all("--write", "cards"), 2, "",
                    "benches/all: the tree has changes, and a figure is measured on what is committed\n")
        self.same("the page is as before", (self.benches / "README.md").read_bytes(), before)
        for name, line in [("for a page without the heading", "today"), ("for a page without marks", END)]:
            self.page(line)
            self.commit()
            self.expect(name, self.all("--write", "cards"), 2, "", "benches/all: benches/README.md has no table "
                        "between the marks, with the heading of its last run\n")

    def test_write_is_refused_at_the_end_for_what_changed_on_the_way(self):
        commit = "-c user.name=A -c user.email=a@museum.example commit -q --allow-empty -m Next"
        for bench, change, reason in [
            ("images", f"git -C '{self.folder}' {commit}", "another commit is checked out by now"),
            ("cards", f": > '{self.folder}/a note'",
             "the tree has changes, and a figure is measured on what is committed"),
        ]:
            self.mock(bench, MOCK + f"[ $# = 1 ] || {change}\n")
            self.commit()
            before = (self.benches / "README.md").read_bytes()
            ran = self.all("--write", bench)
            self.same(f"{bench}: its status", ran.returncode, 2)
            self.same(f"{bench}: the reason", ran.stderr.decode().splitlines()[-1], f"benches/all: {reason}")
            self.has(ran.stdout.decode(), f"| {bench} | rate")
            self.same(f"{bench}: the page is as before", (self.benches / "README.md").read_bytes(), before)

    def test_a_program_that_is_not_built_ends_it(self):
        (self.folder / "ibm1401").write_text("#!/bin/sh\nexit 1\n")
        self.expect("it", self.all("cards"), 1, "", "benches/all: the program isn't built\n")


if __name__ == "__main__":
    unittest.main()

"""The ruler of speed: how many host instructions one instruction takes, by the rows of benches/README.md. They are the
same on every host, so a change shows that makes the program slower, or another."""
import gzip
import os
import re
import shutil
import unittest

from releasing import released
from releasing.proved import bare, checksum, sources
from tests.support import PROGRAM, TOP, ProgramTest, needs, repository, run

WORKLOADS = sorted(file.stem for file in (TOP / "benches").glob("*.console"))
ROW = re.compile(r"^\| speed --count \| (.*), (?:host instructions for each|times as good) "
                 r"\| ([\d,.]+) \| ([\d,.]*) \| ([\d.]*) \| ([^|]*) \|$", re.MULTILINE)
# A mock of valgrind: a run of 100,000 steps takes so many host instructions for each step after the first.
MOCK = """\
#!/bin/sh
if grep -q "RUN 100000"; then echo "==1== I   refs:      $((99999 * %s))"; else echo "I refs: 0"; fi >&2
"""


def rows(page):
    """The rows of a page by workload, the mean among them: ours, the peer's, the ratio and when it was counted."""
    return {name: cells for name, *cells in ROW.findall(page)}


def left_out():
    """Why the program under test can't be compared with the rows, or nothing."""
    if shutil.which("valgrind") is None:
        return "valgrind isn't installed"
    if released.archive_in(TOP / "dist"):
        proof = gzip.decompress((TOP / "dist/PROVED.txt.gz").read_bytes()).decode()
        is_older = released.noted_in(proof.partition("SOURCES\n\n")[2]) != sources(TOP)
        if is_older and f"{checksum(bare(PROGRAM.read_bytes()))}  the program" in proof:
            return "the program is that of the release in dist/, whose sources are others than those here"
    return ""


class Rows(ProgramTest):
    """The rows that are there."""

    def test_a_ratio_is_that_of_its_two_counts(self):
        found, product, basic = rows((TOP / "benches/README.md").read_text()), 1.0, []
        mean = found.pop("geometric mean of the ratios")
        self.same("a row for each workload", sorted(found), WORKLOADS)
        for name, (ours, theirs, ratio, _) in found.items():
            if theirs:
                exact = float(theirs.replace(",", "")) / float(ours.replace(",", ""))
                self.check(name, "" if abs(float(ratio) - exact) <= 0.02 else f"{ratio} isn't {exact:.2f}")
                basic += [exact] if not name.startswith("fitted_") else []
        for exact in basic:
            product *= exact ** (1 / len(basic))
        self.check("their mean", "" if abs(float(mean[0]) - product) <= 0.02 else f"{mean[0]} isn't {product:.3f}")


class Counts(ProgramTest):
    """The program under test, by valgrind: some 22 seconds of processor time."""

    def test_each_workload_takes_what_its_row_says(self):
        if why := left_out():
            self.skipTest(why)
        for name in WORKLOADS:
            ran = run([TOP / "benches/speed", "--compare", name], env={**os.environ, "IBM1401": str(PROGRAM)})
            self.check(name, "" if ran.returncode == 0 else (ran.stdout + ran.stderr).decode())


@needs("git")
class Ruler(ProgramTest):
    """`benches/speed --compare` and `--renew` in a copy, with a mock of valgrind."""

    def setUp(self):
        shutil.copytree(TOP / "benches", self.folder / "benches", ignore=shutil.ignore_patterns("__pycache__"))
        (self.folder / "ibm1401").write_text("#!/bin/sh\n")
        (self.folder / "ibm1401").chmod(0o755)
        (self.folder / "bin").mkdir()
        (self.folder / "crates.txt").write_text("bcd_1401:\n")
        self.page = self.folder / "benches/README.md"
        self.page.write_text(re.sub(r"^(\| speed --count \| \w+, host [a-z ]*\|) [\d,.]+", r"\1 200.0",
                                    self.page.read_text(), flags=re.MULTILINE))
        self.count(200)
        self.commit = repository(self.folder)

    def count(self, each):
        """Has the mock count so many host instructions for each instruction."""
        (self.folder / "bin/valgrind").write_text(MOCK % each)
        (self.folder / "bin/valgrind").chmod(0o755)

    def speed(self, *words, **variables):
        """Runs benches/speed there."""
        kept = {name: value for name, value in os.environ.items() if name != "IBM1401"}
        path = f"{self.folder / 'bin'}:{os.environ['PATH']}"
        return run([self.folder / "benches/speed", *words], env={**kept, "PATH": path, "PYTHONPATH": str(TOP),
                                                                 "PYTHONDONTWRITEBYTECODE": "1", **variables})

    def said(self, ran):
        """What it says below its heading, and its status."""
        return ran.returncode, ran.stdout.decode().partition("\n")[2], ran.stderr.decode()

    def test_a_count_within_two_percent_is_that_of_its_row(self):
        for each in 197, 200, 203:
            self.count(each)
            self.same(f"{each}", self.said(self.speed("--compare", "add")),
                      (0, f"add: {each}.0 host instructions for each; as its row\n", ""))

    def test_a_count_that_is_further_off_is_not(self):
        for each, part in [(195, "-2.5"), (205, "+2.5"), (400, "+100.0")]:
            self.count(each)
            self.same(f"{each}", self.said(self.speed("--compare", "add")), (
                1, f"add: {each}.0 host instructions for each, and 200.0 in benches/README.md, {part} percent; if a "
                "change of the program means to do that, benches/speed --renew renews the rows\n", ""))

    def test_a_row_that_lacks(self):
        self.page.write_text(re.sub(r"^\| speed --count \| add, .*\n", "", self.page.read_text(), flags=re.MULTILINE))
        self.same("it", self.said(self.speed("--compare", "add", "move")), (
            1, "add: 200.0 host instructions for each, and benches/README.md has no row for it; benches/speed --renew "
            "writes one\nmove: 200.0 host instructions for each; as its row\n", ""))

    def test_valgrind_that_counts_nothing(self):
        (self.folder / "bin/valgrind").write_text("#!/bin/sh\n")
        self.same("it", self.said(self.speed("--compare", "add")), (1, "add: valgrind has counted nothing\n", ""))

    def test_the_rows_are_renewed(self):
        """All rows, also those that lack; the peer's counts and the rest of the page stay."""
        before = self.page.read_text()
        self.page.write_text(re.sub(r"^\| speed --count \| move, .*\n", "", before, flags=re.MULTILINE))
        self.count(100)
        self.same("its run", self.said(self.speed("--renew")), (0, "", ""))
        found, old = rows(self.page.read_text()), rows(before)
        self.same("the workloads", list(found), [*WORKLOADS, "geometric mean of the ratios"])
        self.same("ours", {found[name][0] for name in WORKLOADS}, {"100.0"})
        self.same("the peer's", {name: found[name][1] for name in WORKLOADS if name != "move"},
                  {name: old[name][1] for name in WORKLOADS if name != "move"})
        self.same("the peer's of the row that lacked", found["move"][1:3], ["", ""])
        self.same("a ratio", found["add"][2], f"{float(old['add'][1]) / 100:.2f}")
        self.check("when", "" if re.fullmatch(rf"[\d-]{{10}}, {self.commit[:7]}\w*", found["add"][3]) else found["add"])
        rest = [re.sub("(?m)^[|] speed --count [|].*\n", "", page) for page in (before, self.page.read_text())]
        self.check("the rest", "" if rest[0] == rest[1] else "it has changed")

    def test_renewal_is_refused(self):
        before = self.page.read_bytes()
        self.same("for another program", self.said(self.speed("--renew", IBM1401="/bin/true")), (
            1, "", "benches/speed: IBM1401 names another program than that of this commit\n"))
        (self.folder / "crates.txt").write_text("core_1401:\n")
        self.same("for crates with changes", self.said(self.speed("--renew")), (
            1, "", "benches/speed: the crates have changes, and a figure is measured on what is committed\n"))
        self.same("for one workload", self.said(self.speed("--renew", "add")), (
            2, "", "benches/speed: --renew is of all workloads\n"))
        self.same("the page is as before", self.page.read_bytes(), before)


if __name__ == "__main__":
    unittest.main()

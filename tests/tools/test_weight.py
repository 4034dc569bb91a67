"""What makes the proofs heavy: the ruler reads what a check leaves, and no crate is above its ceilings."""
import sys
import tempfile
import unittest
from pathlib import Path

from tests import clauses, counts
from tests.support import TOP, run

RULER = sys.executable, "-m", "tests.proof_weight"
SOURCE = """//! Is this counted? No: it is a comment.
pub fn put(text: &mut Vec<u8>) -> Result<(), AllocError>
    ensures full { OnErr result (IsFull text.old) }
    ensures { IsOk result }
{
    text.push(b'?')?;
    text.extend_from_slice(b"fn why? ensures")?;
    Ok(text.iter().map(|byte| *byte).count())
}

pub(crate) const fn one<T: ?Sized>() -> u8 {
    match 1 | 2 {
        1 | 2 => 1,
    }
}
"""
# The modules of a function `put` with two steps and a goal, of a function without steps, and of no function.
MODULES = {
    "Rattle-crate_x-proofs.text.put.Lts": b'{"name":"m1"}{"name":"m2"}{"name":"m1"}{"name":"Need-returns"}',
    "Rattle-crate_x-proofs.text.put.Proof": b"p" * 400_000,
    "Rattle-crate_x-proofs.text.put.Tie": b"t" * 1_000_000,
    "Rattle-crate_x-proofs.text.put.Tie.decls": b"not counted",
    "Rattle-crate_x-specs.contracts.text.CellDebug.fmt.Lts": b"d" * 1_000_000,
    "Rattle-crate_x-proofs.text.bare.Tie": b"without steps",
    "Rattle-crate_x-proofs.TextLemmas": b"l" * 2_000_000,
    "Rattle-other-proofs.text.put.Lts": b'{"name":"m7"}',
}


class Ruler(unittest.TestCase):
    def setUp(self):
        self.folder = Path(self.enterContext(tempfile.TemporaryDirectory()))
        for name, content in MODULES.items():
            (self.folder / f"{name}.oantt").write_bytes(content)

    def measured(self, *words):
        """What the ruler prints of these modules, its lines in words."""
        ran = run([*RULER, *words, "--in", self.folder, "crate_x"], cwd=TOP)
        self.assertEqual((ran.returncode, ran.stderr), (0, b""))
        return [line.split(maxsplit=6) for line in ran.stdout.decode().splitlines()]

    def test_a_function_weighs_what_its_modules_take(self):
        put = ["2", "0.00", "1", "0.40", "1.00", "1.50", "text.put"]
        derived = ["0", "1.00", "0", "0.00", "0.00", "0.65"]
        rows = self.measured()
        self.assertEqual(rows[2:4], [put, [*derived, "text.CellDebug.fmt"]])
        self.assertEqual(rows[4], [*derived, "1 derived impls among them"])
        self.assertEqual(rows[5][6], "0 of closures and functions passed by name")
        self.assertEqual(rows[6], ["2", "1.00", "1", "0.40", "1.00", "2.15",
                                   "all 2 functions; lemmas, types and the rest of the crate 2.0 MB"])

    def test_the_heaviest_are_shown_alone_and_a_crate_in_one_line(self):
        self.assertEqual(self.measured("--top", "1")[3][6], "the other 1")
        self.assertEqual(self.measured("--total"), [["2", "1.00", "1", "0.40", "1.00", "2.15", "crate_x, 2 functions"]])
        self.assertEqual(self.measured("--csv")[0], ["crate_x,text.put,2,62,1,400000,1000000,1.50"])

    def test_what_is_not_there_is_refused(self):
        for words, status in ((["crate_y"], 1), ([], 2), (["--top", "many", "crate_x"], 2), (["--half", "crate_x"], 2)):
            with self.subTest(words):
                ran = run([*RULER, "--in", self.folder, *words], cwd=TOP)
                self.assertEqual((ran.returncode, ran.stdout), (status, b""))
                self.assertNotEqual(ran.stderr, b"")


class Counts(unittest.TestCase):
    def test_code_is_counted_and_comments_and_texts_are_not(self):
        self.assertEqual(counts.count_in(SOURCE), {"functions": 2, "early exits": 2, "closures": 1, "clauses": 2})

    def test_no_crate_is_above_its_ceilings(self):
        most = counts.ceilings(counts.CEILINGS.read_text())
        self.assertEqual(counts.above(counts.counts(), most), [])

    def test_the_ceilings_name_each_crate_and_are_the_sum_at_most(self):
        most = counts.ceilings(counts.CEILINGS.read_text())
        self.assertEqual(list(most), list(counts.counts()))
        together = counts.total(row for name, row in most.items() if name != counts.ALL)
        for kind, number in most[counts.ALL].items():
            with self.subTest(kind):
                self.assertLessEqual(number, together[kind])

    def test_ceilings_only_go_down(self):
        row = {"functions": 5, "early exits": 4, "closures": 0, "clauses": 9}
        more, less = {**row, "functions": 6}, {**row, "functions": 3}
        together = {"crates": 2, **row, "functions": 11}
        most = {"one": row, "gone": row, "all": together}
        self.assertEqual(counts.above({"one": more, "all": together}, most),
                         ["one has 6 functions, and 5 is the ceiling"])
        self.assertEqual(counts.above({"new": row}, most)[0], "new has 5 functions, and 0 is the ceiling")
        self.assertEqual(counts.lowered({"one": less, "new": more, "all": together}, most),
                         {"one": less, "new": more, "all": together})
        over = {**together, "functions": 12}
        self.assertEqual(counts.lowered({"one": more, "new": more, "all": over}, most), {"one": row, "all": together})

    def test_the_table_is_read_as_it_is_written(self):
        now = counts.counts()
        self.assertEqual(counts.ceilings("".join(counts.line_of(*each) + "\n" for each in now.items())), now)

    def test_the_public_contracts_of_a_source(self):
        found = clauses.contracts_in(CONTRACTS)
        self.assertEqual(found, {
            "Core::size": "pub fn size(&self) -> u16 ensures { result ≡ length self.now }",
            "Core::plain": "pub const fn plain() -> Core",
            "free": "pub fn free( at: u16, ) -> Option<u16> requires { at < 16 } ensures some { IfSome result IsSmall }",
            "<'a, D: Into<Vec<u8>>> Desk<'a, D>::note": "pub fn note(&mut self) requires { self.old ≡ [] }",
        })
        weaker = {**found, "free": found["free"].partition(" ensures")[0], "added": "pub fn added()"}
        del weaker["Core::plain"]
        self.assertEqual(clauses.differences(found, weaker), [
            "gone  Core::plain", "new  added", "changed  free", "    - some { IfSome result IsSmall }"])

    def test_what_promises_safety_alone_is_found(self):
        self.assertEqual(list(clauses.without_clauses(CONTRACTS)), ["Core::plain", "Desk::note"])

    def test_the_list_of_what_promises_safety_alone_is_that_of_the_code(self):
        """python3 -m tests.clauses --renew writes it again."""
        self.assertEqual(clauses.SAFETY_ALONE.read_text().splitlines(), clauses.safety_alone())

    def test_what_asks_for_contracts(self):
        refused = ["--since"], ["no_crate"], ["--since", "HEAD", "no_crate"], ["--without", "no_crate"]
        for words, status in [*((each, 2) for each in refused), (["bcd_1401"], 0), (["--without"], 0)]:
            with self.subTest(words):
                ran = run([sys.executable, "-m", "tests.clauses", *words], cwd=TOP)
                self.assertEqual((ran.returncode, ran.stdout == b""), (status, status != 0))


CONTRACTS = """impl Core {
    /// How many places.
    pub fn size(&self) -> u16
        ensures { result ≡ length self.now }
    {
        0
    }

    pub const fn plain() -> Core {
        Core
    }

    fn hidden() {}
}

pub fn free(
    at: u16,
) -> Option<u16>
    requires { at < 16 }

    // Why.
    ensures some { IfSome result IsSmall }
{
    None
}

impl<'a, D: Into<Vec<u8>>> Desk<'a, D> {
    // It ensures nothing.
    pub fn note(&mut self)
        requires { self.old ≡ [] }
    {
    }
}
"""

if __name__ == "__main__":
    unittest.main()

"""The wrong bodies that the prover must refuse: each is still one of the code that is there."""
import re
import sys
import tempfile
from pathlib import Path

from tests.edit_texts import (
    Edit, functions_in, further_crates, further_edits, laws_in, lay_out, only_clause, read_edits)
from tests.support import TOP, ProgramTest

# Each edit that the gate tries, and each further one: how it is named, the folder of its crate, and its lines.
EDITS = [(str(edit.relative_to(TOP)), edit.parent.parent, edit.read_text().split("\n"))
         for edit in sorted(TOP.glob("crates/*/must-fail/*.edit"))]
EDITS += [(f"further-edits/{crate}.txt: {edit.title}", TOP / "crates" / crate, edit.lines)
          for crate in further_crates() for edit in further_edits(crate)]
# The crates of the tree that each needs.
LIBRARIES = {line.split(":")[0]: line.partition(":")[2].split() for line in (TOP / "crates.txt").read_text().split("\n")
             if line and not line.startswith("#")}
LIBRARIES = {crate: [each for each in libraries if each in LIBRARIES] for crate, libraries in LIBRARIES.items()}


def wrong_with(folder, lines):
    """Why an edit of a crate can't be made, or nothing. Each pair of texts applies to what the earlier ones made."""
    path, old, texts = None, None, {}
    for line in lines:
        word, _, text = line.partition(" ")
        if word == "file:":
            path = folder / text
            if path not in texts:
                texts[path] = path.read_text() if path.is_file() else ""
        elif word == "old:" and old is None:
            old = text
        elif word == "new:" and path and old and text != old:
            if texts[path].count(old) != 1:
                return f"{path.relative_to(TOP)} has this {texts[path].count(old)} times: {old}"
            texts[path], old = texts[path].replace(old, text), None
        elif line:
            return f"this doesn't belong here: {line}"
    return "" if texts and old is None else "no change, or half of one"


def known_in(crate):
    """What an edit may be said to break of a crate: a contract, a clause, or a law of a type."""
    sources = [each.read_text() for each in (TOP / "crates" / crate / "src").rglob("*.rt")]
    functions = [each for source in sources for each in functions_in(source)]
    known = {f"the contract of `{name}`" for _, _, name, clauses in functions if clauses}
    known |= {f"the clause `{clause}` of `{name}`" for _, _, name, clauses in functions for clause in clauses}
    return known.union(*map(laws_in, sources))


def below(crate):
    """A crate, and those that it needs."""
    return {crate}.union(*map(below, LIBRARIES[crate]))


class Edits(ProgramTest):
    """An edit whose text is gone, or is there twice, shows nothing."""

    def test_each_edit_changes_one_place(self):
        self.assertTrue(EDITS)
        for name, folder, lines in EDITS:
            self.check(name, wrong_with(folder, lines))

    def test_each_text_is_of_a_crate_and_names_an_edit_once(self):
        for crate in further_crates():
            names = [edit.name for edit in further_edits(crate)]
            self.check(f"{crate}: there is such a crate", "" if (TOP / "crates" / crate).is_dir() else "there is none")
            self.same(f"{crate}: its names", sorted(set(names)), sorted(names))

    def test_the_clause_that_an_edit_breaks_is_there(self):
        """It is said of each edit that changes one function with one clause: python3 -m tests.edit_texts."""
        own = {crate: known_in(crate) for crate in LIBRARIES}
        for crate in further_crates():
            known = set().union(*(own[each] for each in below(crate)))
            for edit in further_edits(crate):
                only, said = only_clause(crate, edit), edit.refused
                self.check(f"{crate}: {edit.title}", "" if said == only or (said in known and not only)
                           else f"it says {said!r}, not {only!r}" if only else f"there isn't {said}")


class Texts(ProgramTest):
    """The form of a text."""

    def test_edits_are_laid_out_as_rt_takes_them(self):
        with tempfile.TemporaryDirectory() as folder:
            for crate in further_crates():
                count = lay_out(crate, Path(folder))
                laid = {file.name: file.read_text() for file in Path(folder).iterdir()}
                wanted = {f"{edit.name}.edit": edit.text for edit in further_edits(crate)}
                self.same(f"{crate}: how many", (count, len(laid)), (len(wanted), len(wanted)))
                self.same(crate, laid, wanted)
                for file in Path(folder).iterdir():
                    file.unlink()

    def test_what_a_source_has(self):
        """Lines and clauses of its functions, also of those that a trait asks for; and the laws of its types."""
        source = """\
pub trait Door {
    ghost left: { Self → Bool };

    fn open(&self) -> bool
        ensures good { result ≡ left self.now }
        ensures { x };

    fn shut(&self);
}

pub(crate) struct Gate {
    at: u16,
    ghost ready: { at < 2 },
}

impl<J: Deep> Door
    for Gate {
    ghost left = { λ it. it.at == 0 };

    fn open(&self) -> bool {
        let at = self.at;
        at == 0
    }
}

impl<J> Model for Gates<J> {
    ghost use Rattle.std.specs.Prelude.{ℕ};

    ghost invariant = { λ it. it ≡ 1 };
}

fn free() -> u8
    ensures one { result ≡ 1 }
{
    1
}
"""
        self.same("functions", list(functions_in(source)), [
            (3, 5, "open", ["good", ""]), (7, 7, "shut", []), (19, 22, "open", []), (31, 35, "free", ["one"])])
        self.same("laws", laws_in(source), {"the law `ready` of `Gate`", "the law `left` of `Gate`",
                                            "the law `invariant` of `Gates`"})

    def test_a_text_is_read(self):
        text = ("# A remark.\n\n== No second pass\nrefused: the clause `sum` of `add`\n"
                "file: src/a.rt\nold:   x + 1\nnew:   x\n\n== It's gone\nfile: src/b.rt\nold: y\nnew: z\n")
        first, other = read_edits(text)
        self.same("the first", (first.name, first.text, first.refused),
                  ("no_second_pass", "file: src/a.rt\nold:   x + 1\nnew:   x\n", "the clause `sum` of `add`"))
        self.same("the other", (other.name, other.refused), ("it_s_gone", ""))
        self.same("nothing", Edit("A title").text, "")
        for wrong in "file: src/a.rt\n", "== A title\nold text\n":
            with self.assertRaises(ValueError):
                read_edits(wrong)


if __name__ == "__main__":
    wrong = [name for name, folder, lines in EDITS if wrong_with(folder, lines)]
    sys.exit(print(f"{len(EDITS) - len(wrong)} of {len(EDITS)} edits apply", *wrong, sep="\n"))

"""Wrong bodies as texts: further-edits/CRATE.txt has those of a crate, each below a line that says what is wrong.

    == A block that differs is passed by
    refused: the clause `kept` of `left_to_compare`
    file: src/comparison.rt
    old: while left >= BLOCK && !differ(BLOCK) {
    new: while left >= BLOCK && !differ(BLOCK - 1) {

The old text is once in the file, and the new one takes its place; further pairs apply to what the earlier ones made.
'refused' says what the body breaks, where that is known: a clause of a function or of a trait's; `the contract of` a
function, if it is several of its clauses or what it requires; or `the law .. of` a type. `./check --edits` lays each
out as a file of its own, since that is how rt takes it: a_block_that_differs_is_passed_by.edit.

    python3 -m tests.edit_texts    says 'refused' of each edit that changes one function, and that has one clause

These are written again after a change of the code. What is said of any other edit is written by hand, and stays."""
import re

from tests.support import TOP

FURTHER = TOP / "further-edits"
# The beginning of a function, and of a clause of its contract.
FUNCTION = re.compile(r"^( *)(?:(?:pub(?:\([a-z]+\))?|const|unsafe) )*fn (\w+)")
CLAUSE = re.compile(r"^ *ensures(?: (\w+))? \{", re.MULTILINE)
# The beginning of a type, or of what a trait is for a type; and of a law in it.
HOLDER = re.compile(r"(?:pub(?:\([a-z]+\))? )?struct (\w+)|(?:impl\b.*|   ) for (\w+)")
LAW = re.compile(r"    ghost (\w+)(?::| =) \{")


class Edit:
    """A wrong body: what is wrong with it, the lines of its file, and the clause that refuses it, if that is known."""

    def __init__(self, title):
        self.title, self.lines, self.refused = title, [], ""

    @property
    def name(self):
        """The name of its file."""
        return re.sub(r"[^a-z0-9]+", "_", self.title.lower()).strip("_")

    @property
    def text(self):
        """What its file has."""
        return "".join(f"{line}\n" for line in self.lines)


def read_edits(text):
    """The edits of a text, in its order."""
    edits = []
    for number, line in enumerate(text.split("\n"), 1):
        word = line.partition(" ")[0]
        if word == "==":
            edits.append(Edit(line[3:]))
        elif edits and word in ("file:", "old:", "new:"):
            edits[-1].lines.append(line)
        elif edits and word == "refused:":
            edits[-1].refused = line.partition(" ")[2]
        elif line and not line.startswith("#"):
            raise ValueError(f"line {number} says nothing there: {line!r}")
    return edits


def further_crates():
    """The crates that have such a text."""
    return sorted(text.stem for text in FURTHER.glob("*.txt"))


def further_edits(crate):
    """The edits of a crate's text."""
    return read_edits((FURTHER / f"{crate}.txt").read_text())


def functions_in(source):
    """The functions of a source: the first line and the last of each, its name, and the names of its clauses, which are
    empty texts where a clause has none."""
    lines = source.split("\n")
    for first, line in enumerate(lines):
        begun = FUNCTION.match(line)
        if begun:
            last = last_line(lines, first, f"{begun[1]}}}")
            yield first, last, begun[2], CLAUSE.findall("\n".join(lines[first:last + 1]))


def last_line(lines, first, end):
    """The last line of a function that begins here: its closing bracket, or that of a trait's, which has no body."""
    if lines[first].endswith("}") and "{" in lines[first]:
        return first
    has_body = False
    for at in range(first, len(lines)):
        if lines[at] == end or (lines[at].endswith(";") and not has_body):
            return at
        has_body = has_body or lines[at].endswith("{")
    return first


def laws_in(source):
    """The laws that a source has for types: an invariant, one of a field, and what a trait says of a type."""
    found, holder = set(), ""
    for line in source.split("\n"):
        begun = HOLDER.match(line)
        holder = begun[1] or begun[2] if begun else "" if line == "}" else holder
        law = LAW.match(line)
        if law and holder:
            found.add(f"the law `{law[1]}` of `{holder}`")
    return found


def changed_functions(crate, edit):
    """The functions that an edit changes: the file, the name and the clauses of each, or None for what is in none."""
    found, source = [], ""
    for line in edit.lines:
        word, _, text = line.partition(" ")
        if word == "file:":
            file, source = text, (TOP / "crates" / crate / text).read_text()
        elif word == "old:" and text in source:
            at = source.count("\n", 0, source.index(text))
            inside = [each[2:] for each in functions_in(source) if each[0] <= at <= each[1]]
            found.append((file, *inside[-1]) if inside else None)
    return found


def only_clause(crate, edit):
    """The clause that an edit must break, since it changes one function that has no other, or an empty text."""
    found = changed_functions(crate, edit)
    if not found or None in found or any(each != found[0] for each in found) or len(found[0][2]) != 1:
        return ""
    _, function, (clause,) = found[0]
    return f"the clause `{clause}` of `{function}`" if clause else f"the only clause of `{function}`"


def renew(crate):
    """Writes 'refused' again for each edit of a crate's text whose clause is known from the code."""
    path = FURTHER / f"{crate}.txt"
    edits, lines = iter(further_edits(crate)), []
    for line in path.read_text().split("\n"):
        if line.startswith("== "):
            edit = next(edits)
            known = only_clause(crate, edit) or ("" if edit.refused.startswith("the only clause") else edit.refused)
            lines += [line, f"refused: {known}"] if known else [line]
        elif not line.startswith("refused: "):
            lines.append(line)
    path.write_text("\n".join(lines))


def lay_out(crate, folder):
    """Writes each edit of a crate to a file in this folder, as rt takes it, and returns how many they are."""
    edits = further_edits(crate)
    for edit in edits:
        (folder / f"{edit.name}.edit").write_text(edit.text)
    return len(edits)


if __name__ == "__main__":
    for each in further_crates():
        renew(each)

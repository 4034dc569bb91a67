"""Counts the words that our English uses too often, and holds each file below its ceiling.

    python3 -m tests.words            counts them, and prints where a file has more than its ceiling
    python3 -m tests.words --renew    lowers the ceilings to what is counted; it never raises one
    python3 -m tests.words PLACE ..   prints each such word in these files and crates

The ceilings are in tests/words.txt, a line for each page, each crate and each test; what isn't there has none of these
words. A renamed file takes its line along by hand. docs/CONTRIBUTING.md says what to write instead.
"""
import io
import re
import sys
import tokenize
from pathlib import Path

TOP = Path(__file__).resolve().parent.parent
CEILINGS = TOP / "tests/words.txt"

# Words that have a better one nearly everywhere, each as it is found in a text without code.
WORDS = re.compile(
    r"\b(?:tells?|told|telling|beside|stands?(?! for\b)|stood(?! for\b)|standing|behind|anew|parted)\b"
    r"|\b(?:one\s+that|so\s+that|of\s+which|(?:is|are)\s+kept|let\s+go|ways?\s+out|(?:want|growths?)\s+of\s+memory)\b"
    r"|\b(?:and|but|by|for|of|to) who\b|(?:^|[.;:] )who\b(?![^.?]*\?)",
    re.IGNORECASE,
)


def of_page(text):
    """The lines of a page, without what it shows as code."""
    inside = False
    for number, line in enumerate(text.splitlines(), 1):
        if line.startswith("```"):
            inside = not inside
        elif not inside:
            yield number, re.sub(r"`[^`]*`", "`", line)


def of_rattle(text):
    """The comments of a source in Rattle, and its texts in quotation marks."""
    for number, line in enumerate(text.splitlines(), 1):
        code, slashes, comment = line.partition("//")
        yield number, re.sub(r"`[^`]*`", "`", comment) if slashes else ""
        for quoted in re.findall(r'"((?:[^"\\]|\\.)*)"', code):
            yield number, quoted


def of_definitions(text):
    """The comments of definitions and proofs."""
    for number, line in enumerate(text.splitlines(), 1):
        found = re.search(r"(?:^|\s)--\s(.*)", line)
        yield number, re.sub(r"`[^`]*`", "`", found[1]) if found else ""


def of_python(text):
    """The comments and the strings of a Python program."""
    for token in tokenize.generate_tokens(io.StringIO(text).readline):
        if token.type in (tokenize.COMMENT, tokenize.STRING):
            for further, line in enumerate(token.string.splitlines()):
                yield token.start[0] + further, re.sub(r"`[^`]*`", "`", line)


def of_titles(text):
    """The titles of sessions and sources that are texts."""
    for number, line in enumerate(text.splitlines(), 1):
        yield number, line if line.startswith("==") else ""


def of_script(text):
    """A program in shell or make: its comments."""
    for number, line in enumerate(text.splitlines(), 1):
        found = re.search(r"(?:^|\s)#\s(.*)", line)
        yield number, found[1] if found else ""


def of_html(text):
    """The comments of a page in HTML, and its texts: those between quotation marks that have a blank."""
    comments = {number for found in re.finditer(r"/\*.*?\*/|<!--.*?-->", text, re.DOTALL)
                for number in range(text.count("\n", 0, found.start()), text.count("\n", 0, found.end()) + 1)}
    for number, line in enumerate(text.splitlines()):
        if number in comments:
            yield number + 1, line
        else:
            for quoted in re.findall(r"'([^']* [^']*)'", line):
                yield number + 1, quoted


READERS = {
    ".md": of_page,
    ".html": of_html,
    ".js": of_html,
    ".css": of_html,
    ".rt": of_rattle,
    ".antt": of_definitions,
    ".py": of_python,
    ".txt": of_titles,
}


def reader_of(path):
    """How the English of a file is found."""
    if path.suffix in READERS:
        return READERS[path.suffix]
    return of_python if path.read_text().startswith("#!/usr/bin/env python3") else of_script


def places():
    """The files of each page, crate and test, by its name."""
    found = {}
    own = [TOP / name for name in ("README.md", "CHANGELOG.md", "examples/README.md")]
    lessons = sorted((TOP / "examples/course").glob("*/lesson.md"))
    for page in [*own, *sorted((TOP / "docs").glob("*.md")), *lessons]:
        found[str(page.relative_to(TOP))] = [page]
    for crate in sorted((TOP / "crates").iterdir()):
        files = [path for part in ("src", "specs", "proofs") for path in sorted((crate / part).rglob("*"))]
        found[f"crates/{crate.name}"] = [path for path in files if path.suffix in (".rt", ".antt")]
    texts = [(f"tests/{kind}", "*.txt") for kind in ("sessions", "sittings", "sources")]
    for folder, form in ("tests", "*.py"), ("tests", "*/*.py"), ("tests", "*.md"), *texts:
        for test in sorted((TOP / folder).glob(form)):
            if test != Path(__file__).resolve():
                found[str(test.relative_to(TOP))] = [test]
    for part in "index.html", "script/*.js", "styles/*.css":
        for path in sorted((TOP / "page").glob(part)):
            found[str(path.relative_to(TOP))] = [path]
    scripts = [TOP / name for name in ("check", "ibm1401", "Makefile", "release", "examples/course/lesson")]
    for path in [*scripts, *sorted((TOP / "benches").iterdir())]:
        if path.is_file() and path.suffix != ".console":
            found[str(path.relative_to(TOP))] = [path]
    return found


def words_in(files):
    """Each of the words in these files, with its file and line."""
    words = []
    for path in files:
        numbers, lines = [], []
        for number, line in reader_of(path)(path.read_text()):
            numbers.append(number)
            lines.append(line.strip().lstrip("/!#").strip())
        text = "\n".join(lines)
        words += [(path, numbers[text.count("\n", 0, found.start())], " ".join(found[0].split()))
                  for found in WORDS.finditer(text)]
    return words


def counts():
    """How many of the words each page, crate and test has."""
    return {place: len(words_in(files)) for place, files in places().items()}


def ceilings():
    """How many it may have; what isn't listed has none."""
    lines = CEILINGS.read_text().splitlines() if CEILINGS.exists() else []
    return {place: int(most) for place, _, most in (line.rpartition(": ") for line in lines)}


def lowered(now, most):
    """The ceilings after these counts: each is at most what it was, and nothing that had none gets one."""
    return {place: min(count, most.get(place, 0)) for place, count in now.items()}


def renew():
    """Lowers each ceiling to what is counted. The first time, without a file of ceilings, that is what is counted."""
    known = lowered(counts(), ceilings()) if CEILINGS.exists() else counts()
    CEILINGS.write_text("".join(f"{place}: {count}\n" for place, count in sorted(known.items()) if count))


def show(places_shown):
    """Prints each of the words with its file and line."""
    all_places = places()
    for place in places_shown:
        for path, number, word in words_in(all_places[place]):
            print(f"{path.relative_to(TOP)}:{number}: {word}")


def main(argv=()):
    """Does what these words ask for; the status is 0 if no file has more than its ceiling."""
    if list(argv) == ["--renew"]:
        renew()
    elif argv:
        show(place.rstrip("/") for place in argv)
        return 0
    now, most = counts(), ceilings()
    over = [place for place, count in now.items() if count > most.get(place, 0)]
    show(over)
    for place in over:
        print(f"FAILED  {place}: {now[place]} words to be replaced, and {most.get(place, 0)} is the ceiling")
    print(f"{sum(now.values())} words to be replaced in {len(now)} places")
    return 1 if over else 0


if __name__ == "__main__":
    sys.exit(main(sys.argv[1:]))

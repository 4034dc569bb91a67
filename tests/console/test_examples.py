"""The examples: sessions with their replies, sources with their images and listings, and decks with their paper."""
import re
import unittest

from tests.support import EXAMPLES, ProgramTest, program

# Examples that are tried elsewhere, by what a user does with them: systemd's units, operators who share a machine; and
# the folders of programs for tapes and of lessons.
ELSEWHERE = {".service", ".socket", ".consoles", ".conf", ".md"}
FOLDERS = EXAMPLES / "tapes", EXAMPLES / "course"


def examples(suffix):
    """The examples with this suffix."""
    return sorted(EXAMPLES.glob(f"*{suffix}"))


class Examples(ProgramTest):
    """What examples/ has is what the program does."""

    def test_each_file_belongs_to_a_session_a_source_or_a_deck(self):
        known = {each.stem for suffix in (".console", ".source", ".deck") for each in examples(suffix)}
        files = [each for each in sorted(EXAMPLES.iterdir()) if each.suffix not in ELSEWHERE and each not in FOLDERS]
        self.assertTrue(known)
        self.assertEqual([], [each for each in files if each.name.split(".")[0].removesuffix("_version_1") not in known])

    def test_the_page_has_each_example_once(self):
        """By its name without an ending, or by its whole name."""
        rows = re.findall(r"^\| (`.*?) \|", (EXAMPLES / "README.md").read_text(), re.MULTILINE)
        named = sorted(name.rstrip("/") for row in rows for name in re.findall(r"`([^`]+)`", row))
        files = [each for each in EXAMPLES.iterdir() if each.suffix != ".md" and each.name != "course"]
        wanted = {each.name if each.is_dir() or each.suffix in ELSEWHERE else each.name.split(".")[0] for each in files}
        self.same("the examples", named, sorted(wanted - {"five_and_five_version_1"}))

    def test_sessions(self):
        """Each session, on the image of its name where there is one: its replies, to the byte, whatever is fitted."""
        self.assertTrue(examples(".console"))
        for lines in examples(".console"):
            image = lines.with_suffix(".image")
            call = ["load", image] if image.exists() else ["console"]
            for fitted in [], ["--fit", "all"]:
                ran = program(call[0], *fitted, *call[1:], lines=lines.read_bytes())
                self.expect(" ".join([lines.name, *fitted]), ran, 0, lines.with_suffix(".out").read_bytes())

    def test_sources(self):
        """Each source: its image and its listing, to the byte."""
        self.assertTrue(examples(".source"))
        for source in examples(".source"):
            for words, suffix in ([], ".image"), (["--list"], ".listing"):
                wanted = source.with_suffix(suffix).read_bytes()
                self.expect(f"{source.name}: its {suffix[1:]}", program("assemble", *words, source), 0, wanted)

    def test_the_session_with_a_deck_feeds_the_deck_that_run_takes(self):
        deck = (EXAMPLES / "listing.deck").read_text().splitlines()
        lines = (EXAMPLES / "listing.console").read_text()
        fed = re.findall(r"^FEED (.*)$", lines, re.MULTILINE)
        self.assertEqual([card.rstrip() for card in deck], [card.rstrip() for card in fed])


if __name__ == "__main__":
    unittest.main()

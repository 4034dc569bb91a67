"""Decks that travel: i1401 of SIMH loads ours and prints the same, and what it punches is read here."""
import unittest

from tests.chains import BUSINESS, FORMULAS, OURS
from tests.jobs import COPY, ending
from tests.peer import peer, with_peer
from tests.support import EXAMPLES, TOP, ProgramTest, program, shell


class Graphics(ProgramTest):
    """The graphics of decks for i1401, and how OLD_DECKS brings them here."""

    def test_the_commands_of_the_page(self):
        """Each `tr` of OLD_DECKS makes our graphics of a deck with all 64."""
        page = (TOP / "docs/OLD_DECKS.md").read_text()
        commands = [line.strip() for line in page.splitlines() if line.startswith("    tr ")]
        self.same("a command for each", len(commands), 2)
        for command, graphics in zip(commands, (BUSINESS, FORMULAS)):
            self.same(f"the graphics are 64: {command}", (len(graphics), len(set(graphics))), (64, 64))
            (self.folder / "simh.cards").write_text(f"{graphics}\n")
            self.expect(command, shell(command, cwd=self.folder))
            self.holds(command, self.folder / "old.cards", f"{OURS}\n")


@with_peer
class Peer(ProgramTest):
    """Decks on i1401 itself."""

    def test_what_it_punches(self):
        for words, graphics in ([], BUSINESS), (["set cdp fortran"], FORMULAS):
            cards = self.folder / "punched.cards"
            cards.unlink(missing_ok=True)
            codes = [f"d {101 + code} {code:o}" for code in range(64)]
            peer(*words, f"attach cdp {cards}", *codes, "d 400 104", "d 401 173", "d 402 100", "go 400")
            self.holds(f"{words}", cards, f"{graphics}\n")

    def test_what_it_punches_is_read_here(self):
        """Cards with all 64 characters, of either chain, print as this machine's graphics."""
        source = self.folder / "copy.source"
        source.write_text(COPY)
        for words, chain in ([], "simh"), (["set cdp fortran"], "fortran"):
            cards = self.folder / "punched.cards"
            cards.unlink(missing_ok=True)
            codes = [f"d {101 + code} {code:o}" for code in range(64)]
            peer(*words, f"attach cdp {cards}", *codes, "d 400 104", "d 401 173", "d 402 100", "go 400")
            ran = program("run", source, "--cards", cards, "--graphics", chain)
            self.expect(chain, ran, 0, f"{OURS}\n", ending("HALT", 427, 7, 1, 1, 1, "line 8, H *-3"))

    def test_our_decks_boot_there_in_its_graphics(self):
        """The cells of a deck of either chain are the characters that the source has."""
        source, deck = self.folder / "cells.source", self.folder / "deck"
        signs = "#%&('=+\""
        source.write_text(f"               ORG  500\n               DCW  @{signs}@\n     GO        H\n"
                          "               NOP\n               END  GO\n")
        for chain in "simh", "fortran":
            self.expect(chain, program("assemble", source, "--deck", deck, "--out-graphics", chain))
            said = peer(f"attach cdr {deck}", "boot cdr", "e 500-507")
            cells = [line.split(":\t")[1] for line in said.splitlines() if line.startswith(tuple("5s")) and ":\t" in line]
            wanted = [f"{OURS.index(sign) + 64 * (at == 0):03o}" for at, sign in enumerate(signs)]
            self.same(f"{chain}: the cells", cells, wanted)

    def test_our_decks_load_there_and_print_the_same(self):
        for name, cards in ("five_and_five", None), ("sales", EXAMPLES / "sales.cards"):
            source, deck, paper = EXAMPLES / f"{name}.source", self.folder / "deck", self.folder / "paper"
            paper.unlink(missing_ok=True)
            self.expect(name, program("assemble", source, "--deck", deck))
            more = ["--cards", cards] if cards else []
            ours = program("run", "--load", deck, *more, "--switches", "A").stdout.decode()
            if cards:
                deck.write_bytes(deck.read_bytes() + cards.read_bytes())
            said = peer(f"attach cdr {deck}", f"attach lpt {paper}", "d ssa 1", "boot cdr", "e -c 418-420")
            self.check(f"{name} halts", "" if "HALT" in said else said)
            lines = [[line.rstrip() for line in text.replace("\f", "\n").splitlines() if line.strip()]
                     for text in (ours, paper.read_text())]
            self.same(f"{name}: the paper", lines[1], lines[0])


if __name__ == "__main__":
    unittest.main()

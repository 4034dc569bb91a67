"""Listings longer than the page through which they are written: no line is lost, and no part of one."""
import unittest

from tests.support import ProgramTest, program

# A page has 16,384 bytes.
PAGE = 16_384
# The graphics of the digits 0 to 9 with a plus sign.
PLUS = "?ABCDEFGHI"


def listed(number, address, characters, source):
    """A line of a listing: columns of four, five and eight, and the line itself, without blanks at its end."""
    return f"{number:4} {address:5} {characters:8} {source}".rstrip() + "\n"


class LongListings(ProgramTest):
    """Sources of many lines, and of many literals."""

    def listing(self, lines):
        """The listing of a source."""
        source = self.folder / "source"
        source.write_text("".join(line + "\n" for line in lines))
        ran = program("assemble", "--list", "--size", "16000", source)
        self.same("it is assembled", (ran.returncode, ran.stderr), (0, b""))
        return ran.stdout.decode()

    def test_comments_of_any_length(self):
        """Comments of 6 to 80 columns, and empty lines among them."""
        lines = ["" if n % 7 == 0 else "     *" + "X" * (n % 75) for n in range(1, 2_001)]
        end = "               END  400"
        wanted = [listed(f"{n:04}", "", "", line) for n, line in enumerate(lines, 1)]
        wanted.append(listed("2001", "00400", "", end))
        whole = "".join(wanted)
        self.assertGreater(len(whole), 5 * PAGE)
        self.same("each line is there", self.listing([*lines, end]), whole)

    def test_lines_that_end_at_a_page(self):
        """A listing of a page and up to 100 bytes more or less."""
        end = "               END  400"
        for more in range(-100, 101):
            lines = ["     *" + "X" * 73] * 160
            of_lines = sum(len(listed("0000", "", "", line)) for line in lines)
            left = PAGE + more - of_lines - len(listed("0000", "00400", "", end))
            while left > 0:
                lines.append("     *" + "X" * (min(left, 79) - 27))
                left -= len(listed("0000", "", "", lines[-1]))
            wanted = [listed(f"{n:04}", "", "", line) for n, line in enumerate(lines, 1)]
            wanted.append(listed(f"{len(lines) + 1:04}", "00400", "", end))
            self.same(f"{more} bytes beyond a page", self.listing([*lines, end]), "".join(wanted))

    def test_literals_of_more_than_a_page(self):
        """Literals that END places, whose lines are more than a page."""
        numbers = range(1, 901)
        uses = [f"               ZA   +{n},500" for n in numbers]
        lines = ["               ORG  400", *uses, "               END  400"]
        got = self.listing(lines).splitlines(keepends=True)
        address, wanted = 400 + 7 * len(numbers), []
        for n in numbers:
            wanted.append(listed("", f"{address:05}", f"{n}"[:-1] + PLUS[n % 10], f"+{n}"))
            address += len(f"{n}")
        self.assertGreater(len("".join(wanted)), PAGE)
        self.same("the literals", "".join(got[901:1801]), "".join(wanted))
        self.same("the statements", [line[:10] for line in got[1:901]],
                  [f"{n + 1:04} {400 + 7 * (n - 1):05}" for n in numbers])
        self.same("the last line", got[1801:], [listed("0902", "00400", "", lines[-1])])


if __name__ == "__main__":
    unittest.main()

"""Each allocation refused in turn: a call of the program runs once for each growth that it asks for."""
import re
import unittest

from tests.peer import image
from tests.preloaded import needs_compiler
from tests.refused_growth import LINES, MEMORY, NO_LINES, each_growth, session_end, written_end
from tests.support import EXAMPLES, ProgramTest, program
from tests.tape_reels import COPY, COPY_START, tape

FIVE = EXAMPLES / "five_and_five.source"
# A source with warnings, and what the wider language has besides: symbols through others, and literals that are placed.
WARNED = b"     A         BE   A\n     B         C    +5,C\n     C         DCW  0\n"
OF_WIDER = (b"     F         A    +A,T#3\n     E         EQU  F\n     D         EQU  E+1\n"
            b"               B    D\n               LTORG*\n")


@needs_compiler
class Growth(ProgramTest):
    """Calls that end by themselves."""

    def each(self, attempt, *ends):
        """A subtest: each growth that an attempt asks for is refused once, and each of these ends is met."""
        each_growth(self, "each growth refused", attempt, ends)

    def refused_or(self, ran, status, output, error):
        """How a call ended that writes nothing where memory is refused."""
        if ran.returncode == 1 and not ran.stdout and ran.stderr in (MEMORY, NO_LINES):
            return ran.stderr.decode().split(": ", 1)[1].strip(), ""
        is_whole = (ran.returncode, ran.stdout, ran.stderr) == (status, output, error)
        return "without an effect", "" if is_whole else f"{ran}"

    def test_a_session(self):
        lines = (*LINES, b"QUIT\n")

        def console(how):
            return session_end(lines, program("console", lines=b"".join(lines), **how), [MEMORY])

        self.each(console, "before the session", "at the journal", "at a reply")

    def test_a_session_with_an_image(self):
        """It deposits what the first lines of another session deposit."""
        image = self.folder / "image"
        image.write_bytes(b"IMAGE1 4000\n0400 02 ~HI\nEND 0400\n")
        loaded = (b"DEPOSIT 0400 ~HI\n", b"START 0400\n")
        after = (b"EXAMINE 0400 2\n", b"REGS\n", b"QUIT\n")

        def load(how):
            ran = program("load", image, lines=b"".join(after), **how)
            ran.stdout = b"OK\nOK\n" + ran.stdout if ran.stdout or ran.returncode == 0 else ran.stdout
            if ran.stderr == b"ibm1401: session ended: MEMORY\n" and not ran.stdout:
                ran.stdout = b"OK\nOK\n"
            return session_end((*loaded, *after), ran, [MEMORY, b"ibm1401: image refused: 1 MEMORY\n"])

        self.each(load, "before the session", "at a reply")

    def hold_assembled(self, *words):
        """A subtest: what `assemble` writes with these words, or nothing."""
        whole = program("assemble", *words, FIVE).stdout
        self.assertTrue(whole)

        def assemble(how):
            return written_end(program("assemble", *words, FIVE, **how), whole, [MEMORY, NO_LINES])

        self.each(assemble, "memory refused", "line 0: 1 MEMORY")

    def test_an_image(self):
        self.hold_assembled()

    def test_a_listing(self):
        self.hold_assembled("--list")

    def test_a_listing_and_tables(self):
        self.hold_assembled("--list", "--symbols", "--xref")

    def test_a_deck(self):
        self.hold_assembled("--deck", "/dev/stdout")

    def test_all_faults(self):
        source = self.folder / "source"
        source.write_bytes(b"               ZZZ\n               B    Q\n")
        whole = program("assemble", "--all", source)
        self.same("there are three", whole.stderr.count(b"\n"), 3)

        def assemble(how):
            return self.refused_or(program("assemble", "--all", source, **how), 1, b"", whole.stderr)

        self.each(assemble, "memory refused", "line 0: 1 MEMORY")

    def hold_warnings(self, language, lines):
        """A subtest: the warnings of a source, or that memory was refused, which leaves the image whole."""
        source = self.folder / "source"
        source.write_bytes(lines + b"               END  A\n")
        words = ["assemble", "--all", "--language", language, source]
        whole = program(*words)
        self.assertTrue(whole.stderr)

        def assemble(how):
            ran = program(*words, **how)
            if ran.returncode == 1 and ran.stdout in (b"", whole.stdout) and ran.stderr in (MEMORY, NO_LINES):
                return ran.stderr.decode().split(": ", 1)[1].strip(), ""
            return self.refused_or(ran, 0, whole.stdout, whole.stderr)

        self.each(assemble, "memory refused", "line 0: 1 MEMORY")

    def test_warnings(self):
        self.hold_warnings("plain", WARNED)

    def test_warnings_in_the_wider_language(self):
        self.hold_warnings("ibm", WARNED + OF_WIDER)

    def test_a_disassembly(self):
        image = EXAMPLES / "five_and_five.image"
        whole = image.with_suffix(".disassembly").read_bytes()

        def disassemble(how):
            return written_end(program("disassemble", image, **how), whole, [MEMORY])

        self.each(disassemble, "memory refused")

    def test_a_listing_of_a_reel(self):
        reel, deck = self.folder / "reel", EXAMPLES / "sales.cards"
        self.expect("the reel", program("reel", "--from-deck", deck, "-o", reel))
        whole = program("reel", reel).stdout

        def lists(how):
            return written_end(program("reel", reel, **how), whole, [MEMORY])

        self.each(lists, "memory refused")

    def test_a_deck_of_a_reel_and_a_reel_of_a_deck(self):
        reel, deck = self.folder / "reel", EXAMPLES / "sales.cards"
        self.expect("the reel", program("reel", "--from-deck", deck, "-o", reel))
        for words in ["--deck", "/dev/stdout", reel], ["--from-deck", "-o", "/dev/stdout", deck]:
            whole = program("reel", *words).stdout

            def makes(how, words=words, whole=whole):
                return written_end(program("reel", *words, **how), whole, [MEMORY])

            self.each(makes, "memory refused")

    def hold_run(self, language):
        """A subtest: what went out of a run is a beginning of the paper, and the end is reported in any case."""
        sales = EXAMPLES / "sales.source"
        words = ["run", sales, "--cards", sales.with_suffix(".cards"), "--switches", "A", "--language", language]
        whole = program(*words)
        plain = re.sub(rb" \(line [^)]*\)", b"", whole.stderr)

        def job(how):
            ran = program(*words, **how)
            if ran.returncode == 1 and ran.stderr in (MEMORY, NO_LINES):
                is_part = whole.stdout.startswith(ran.stdout)
                return ran.stderr.decode().split(": ", 1)[1].strip(), "" if is_part else f"{ran}"
            if (ran.returncode, ran.stdout, ran.stderr) == (0, whole.stdout, plain):
                return "without the instruction", ""
            return self.refused_or(ran, 0, whole.stdout, whole.stderr)

        self.each(job, "memory refused", "line 0: 1 MEMORY", "without the instruction")

    def test_a_run(self):
        self.hold_run("plain")

    def test_a_run_in_the_wider_language(self):
        self.hold_run("ibm")

    def test_a_run_with_reels(self):
        """A reel is written whole or not at all: a new file isn't there, and another is as it was."""
        names = "image", "reel", "new", "old"
        program_file, reel, new, old = (self.folder / each for each in names)
        records = [f"{text:80}" for text in ("FIRST RECORD", "SECOND")]
        program_file.write_text(image(COPY_START, COPY))
        reel.write_bytes(tape(records))
        for out, mounted in (new, f"2={new}:new"), (old, f"2={old}:ring"):
            words = ["run", program_file, "--tape", f"1={reel}", "--tape", mounted]

            def job(how, out=out, words=words):
                before = tape(["OLD"]) if out == old else b""
                out.unlink(missing_ok=True)
                if before:
                    out.write_bytes(before)
                ran = program(*words, **how)
                found = out.read_bytes() if out.exists() else b""
                if ran.returncode == 1 and ran.stderr.endswith(MEMORY):
                    return "memory refused", "" if found in (before, tape(records)) else f"{found}"
                is_whole = ran.returncode == 0 and ran.stderr.startswith(b"ibm1401: HALT at 0630")
                return "without an effect", "" if is_whole and found == tape(records) else f"{ran} {found}"

            self.each(job, "memory refused")
            self.same("nothing is left", sorted(each.name for each in self.folder.iterdir() if "part" in each.name), [])

    def test_a_run_that_writes_files(self):
        """Memory that is refused is reported as that, and as no fault of a file, whichever file is looked at or made."""
        sales = EXAMPLES / "sales.source"
        names = {word: self.folder / word for word in ("paper", "punch", "trace")}
        options = [each for word, name in names.items() for each in (f"--{word}", name)]
        words = ["run", sales, "--cards", sales.with_suffix(".cards"), "--switches", "A", *options]
        whole = program(*words)
        plain = re.sub(rb" \(line [^)]*\)", b"", whole.stderr)
        texts = [name.read_bytes() for name in names.values()]
        self.same("files that are written", [bool(text) for text in texts], [True, False, True])

        def job(how):
            for name in names.values():
                name.unlink(missing_ok=True)
            ran = program(*words, **how)
            if ran.returncode == 1 and not ran.stdout and ran.stderr in (MEMORY, NO_LINES):
                return ran.stderr.decode().split(": ", 1)[1].strip(), ""
            if (ran.returncode, ran.stdout, ran.stderr) == (0, b"", plain):
                return "without the instruction", ""
            is_whole = (ran.returncode, ran.stdout, ran.stderr) == (0, b"", whole.stderr)
            is_written = [name.read_bytes() for name in names.values()] == texts
            return "without an effect", "" if is_whole and is_written else f"{ran}"

        self.each(job, "memory refused", "line 0: 1 MEMORY", "without the instruction")

    def test_a_persons_console(self):
        """What is shown is a beginning of what is shown with ample memory, up to a fault of a line, or to the end."""
        sales = EXAMPLES / "sales.source"
        words = ["operate", sales, "--cards", sales.with_suffix(".cards"), "--switches", "A"]
        lines = b"until NEXT\nset TOTAL = -5\nbreak 427\nstep 2\nback 1\ndeposit 600 = MLC HEAD,237\nlist\nundo\nprint TOTAL\n"
        whole = program(*words, lines=lines).stdout

        def operate(how):
            ran = program(*words, lines=lines, **how)
            before, fault, _ = ran.stdout.partition(b"? ")
            if not whole.startswith(before if fault else ran.stdout):
                return "", f"{ran}"
            if ran.returncode == 1 and ran.stderr in (MEMORY, NO_LINES, b"ibm1401: session ended: MEMORY\n"):
                return ran.stderr.decode().split(": ", 1)[1].strip(), ""
            if (ran.returncode, ran.stderr) == (1, b"") and fault:
                return "a fault", ""
            return "without an effect", "" if (ran.returncode, ran.stdout, ran.stderr) == (0, whole, b"") else f"{ran}"

        self.each(operate, "memory refused", "line 0: 1 MEMORY", "session ended: MEMORY", "a fault")


if __name__ == "__main__":
    unittest.main()

"""The course: what its lessons show, what their checks find, and the script that hands them out."""
import json
import os
import re
import shutil
import unittest

from tests.peer import peer, with_peer
from tests.support import EXAMPLES, LAUNCHER, PAGE, PROGRAM, TOP, ProgramTest, program, run, status
from tests.tape_reels import MARK, MARK_RECORD, records_of
from tests.serving.test_holds import HELD
from tests.operate.test_operate import typed_in

COURSE = EXAMPLES / "course"
LESSONS = sorted(path.parent for path in COURSE.glob("*/lesson.md"))
TAPED = "09-master-file"
CHANNELS = "(3)0\n1\n(55)0\n9\n(2)0\n12\n(3)0\n"    # the holes of our carriage tape, as i1401 loads them
FORM = 66
WORDS = range(300, 501)

# What the check says of each broken program: the trace that its mistake leaves.
SYMPTOMS = {
    "01-three-fields": "Line 2 doesn't have the town of the card in print positions 24 to 35",
    "02-last-card": "The total isn't the sum of all three cards",
    "03-edited-amounts": "The total of these cards isn't printed with all of its eight digits",
    "04-price-table": "Article 10 comes earlier in the table than the article before it, and its price isn't printed",
    "05-subroutine": "HILL of department 12 isn't listed: the list breaks off",
    "06-headings": "Form 2 doesn't begin after line 60 of the form before it",
    "07-sorting": "Line 1 isn't the card of GREENOUGH HARDWARE",
    "08-payroll": "The total of the net pay isn't right",
    "09-master-file": "Record 5 of the new master isn't item 2015: a record is lost",
}

# Another solution of each than that of answers/: a text of the broken program, and what is put in its place.
OTHERWISE = {
    "01-three-fields": ("SW   1,19\n", "SW   1,19\n               SW   241\n"),
    "02-last-card": ("DONE      CS   332\n", "DONE      A    24,TOTAL\n               CS   332\n"),
    "03-edited-amounts": ("WORD      DCW  @ ,", "WORD      DCW  @   ,"),
    "04-price-table": ("BLC  DONE\n", "BLC  DONE\n               S    INDEX\n               MZ   @0@,INDEX\n"),
    "05-subroutine": ("TOTAL     CS   332\n               CS\n               SBR", "TOTAL     SBR"),
    "06-headings": ("FULL      B    HEADER\n", "FULL      CC   1\n               B    HEADER\n"),
    "07-sorting": ("ZA   INDEX,LAST          SO FAR THIS IS THE LAST CARD\n",
                   "ZA   INDEX,LAST\n               MZ   @0@,LAST\n"),
    "08-payroll": ("     SUMNET    DCW  00000000\n     TAX       DCW  000000000\n",
                   "     TAX       DCW  000000000000\n     SUMNET    DCW  00000000\n"),
    "09-master-file": ("BEF  DONE\n", "BEF  REST\n"),
}
# The rest of the master, copied by a loop of its own.
REST = ("     DONE      WTM  3\n", "     REST      C    ITEM,HIGH\n               BE   DONE\n               WT   3,IN\n"
        "               A    +1,COUNT\n               B    GETOLD\n               B    REST\n     DONE      WTM  3\n")

# Repairs that help with the cards of the lesson, and no further; and what the check says of them.
HALF_DONE = [
    ("01-three-fields", "               MLC  30,235\n               MLC  34,244\n",
     "               MLC  34,244\n               MLC  30,235\n", "Line 2 has something between the town and the year"),
    ("02-last-card", "MCS  TOTAL,230\n", "A    @680@,TOTAL\n               MCS  TOTAL,230\n",
     "The total isn't the sum of all three cards"),
    ("03-edited-amounts", "WORD      DCW  @ ,", "WORD      DCW  @  ,",
     "The total of these cards isn't printed with all"),
    ("04-price-table", "MLC  @NO PRICE@,230\n", "MLC  @NO PRICE@,230\n               MLC  @000@,INDEX\n",
     "Article 10 comes earlier in the table"),
    ("06-headings", "A    +1,PAGE\n", "CC   1\n               MLC  @001@,PAGE\n", "The heading of form 2 doesn't have"),
    ("07-sorting", "ZA   INDEX,LAST ", "MLC  @120@,LAST ", "Line 2 isn't the card of HILL"),
    ("08-payroll", "LCA  @18@,TAX-8 ", "LCA  @18@,TAX-7 ", "The tax of GREEN isn't 18 percent"),
    ("09-master-file", "     DONE      WTM  3\n",
     "     DONE      WT   3,IN\n               A    +1,COUNT\n               WTM  3\n",
     "Record 6 of the new master isn't item 2020"),
]

# What a pupil types into operate, by each page: a program, the lines, and what must be in the replies, in this order.
LOOKS = [
    ("01-three-fields", "program", ["step 8", "examine read", "step 2", "examine print", "step"],
     ["reads ADAMS AND SON", "        ~                 ~", "00224-00229        -> BOSTON", "00200   ADAMS AND SON  ",
      "   1/02 |ADAMS AND SON          BOSTON"]),
    ("01-three-fields", "broken", ["until :11", *["step", "examine 221/30"] * 3],
     ["line 11, MLC 18,218", "00200\n00250\n", " BOSTON\n00250", "00229-00244 N ", " BOSTOBOSTON      1931\n00250"]),
    ("02-last-card", "program", ["watch COUNT", *["continue"] * 4, "step"],
     ["COUNT: ~000 -> ~001", "COUNT: ~003 -> ~004", "BLC  DONE                goes to 0444 DONE"]),
    ("02-last-card", "broken", ["watch TOTAL", *["continue"] * 4], ["-> ~00013745", "line 12, B NEXT", "HALT"]),
    ("03-edited-amounts", "program",
     ["until :9", "examine 219/15", "step", "examine 219/15", "print 24", *["until :9"] * 3, "print 24"],
     [" ,  0.  &CR\n", "00223 loses its word mark", " 4,250.00\n", "425000  = 425000", "00125N  = -1255"]),
    ("03-edited-amounts", "broken", ["until DONE", "print TOTAL WORD"], ["0133390?  = 1333900", " ,  0.  &CR\n"]),
    ("04-price-table", "program", ["watch paper", *["continue", "print X1", "print CODE+X1 PRICE+X1"] * 2],
     ["000  = 0", "10  = 10", "0125  = 125", "006  = 6", "20  = 20", "0250  = 250"]),
    ("04-price-table", "broken", ["watch paper", *["continue", "print X1"] * 3, "continue 20", "print X1", "continue"],
     ["006  = 6", "024  = 24", "030  = 30", "048  = 48", "ADDRESS"]),
    ("05-subroutine", "program", ["break PRINT", *["continue", "registers", "step"] * 3, "list EXIT"],
     ["B  0427", "00509-00511 000 -> 427", "B  0460", "27 -> 60", "B  0460", "list EXIT\n 00508 B460 "]),
    ("05-subroutine", "broken", ["until TOTAL", "registers", "step 3", "back 3", "registers", "step", "registers"],
     ["B  0485", "000 -> 199", "next is 0497 ", "B  0485", "00497 TOTAL", "B  0299"]),
    ("06-headings", "program", ["watch paper @1055@", "continue", "registers"], ["   1/60 |1055", "line 63 of form 1"]),
    ("06-headings", "broken", ["break HEADER", "continue", "registers", "continue", "registers"],
     ["line 4 of form 1", "line 63 of form 1"]),
    ("07-sorting", "program", ["break PASS", "continue", "examine CARD-23/144", *["continue"] * 4],
     ["YTH             000495BAKER", *["break 1 after"] * 3, "   1/06 |SMYTH", "HALT"]),
    ("07-sorting", "broken", ["until PASS", "print X1 LAST", "break OTHER if X1 = 120", "continue"],
     ["120  = 120", "12?  = 120", "break 1, X1 = 120, after"]),
    ("08-payroll", "program", ["until :12", "print GROSS", "step", "step", "print GROSS-1"],
     ["40000000", "-> 0010000?", "0010000  = 10000"]),
    ("08-payroll", "broken", ["watch SUMNET", *["continue"] * 5, "source"], ["-> ~0000000~6", ">  26 "]),
]


def elsewhere(source):
    """The same program 300 places further on, with an instruction before it and other labels."""
    names = {name: f"Q{at}" for at, name in enumerate(re.findall(r"^     ([A-Z]\w*)", source, re.MULTILINE))}

    def renamed(operands):
        return re.sub(r"@[^@]*@|\b[A-Z]\w*\b", lambda found: names.get(found[0], found[0]), operands)

    def changed(line):
        label = names.get(line[5:15].strip(), "")
        return line if line.startswith("     *") else f"     {label:10}{line[15:20]}{renamed(line[20:])}"

    lines = [changed(line) for line in source.splitlines()]
    begin = lines.index("               ORG  400")
    lines[begin:begin + 1] = ["               ORG  700", "     GO        NOP"]
    return "\n".join([*lines[:-1], "               END  GO", ""])


def pages(text):
    """The lines that are printed on each form, with their places."""
    return [{at: line.rstrip() for at, line in enumerate(form.splitlines(), 1) if line.strip()}
            for form in text.split("\f")]


class CourseTest(ProgramTest):
    """The course and the program as a package has them, and a folder for a pupil."""

    def setUp(self):
        self.course = self.folder / "share/ibm1401/course"
        shutil.copytree(COURSE, self.course)
        (self.folder / "bin").mkdir()
        (self.folder / "bin/ibm1401").symlink_to(PROGRAM)
        self.script = self.folder / "bin/ibm1401-lesson"
        self.script.symlink_to("../share/ibm1401/course/lesson")
        self.desk = self.folder / "desk"
        self.desk.mkdir()

    def lesson(self, *words, **how):
        """A run of the script at the pupil's desk."""
        return run([self.script, *words], **{"cwd": self.desk, **how})

    def begin(self, name):
        """The folder of a lesson that a pupil has begun."""
        ran = self.lesson(name[1])
        self.same(f"{name}: it begins", (ran.returncode, ran.stderr), (0, b""))
        return self.desk / name

    def checked(self, name, what, source):
        """What the check says of a program."""
        (self.desk / name / "broken.source").write_text(source)
        ran = self.lesson(name[1], "--check")
        self.same(f"{name}, {what}: standard error", ran.stderr, b"")
        return ran

    def passes(self, name, what, source):
        """A subtest: the check passes a program."""
        ran, answer = self.checked(name, what, source), self.course / f"answers/{name}.source"
        said = f"lesson {name[1]}: the mistake is mended. One solution is {answer}\n"
        self.expect(f"{name}, {what}", ran, 0, said)

    def fails(self, name, what, source, symptom):
        """A subtest: the check says what isn't so yet."""
        self.expect(f"{name}, {what}", self.checked(name, what, source), 1, f"lesson {name[1]}: not yet. {symptom}...")


class Lessons(CourseTest):
    """Each lesson, as its page has it."""

    def test_the_commands_of_each_page(self):
        """The program prints its paper, the broken one another than wanted, and a solution the wanted one."""
        for lesson in LESSONS:
            name, place = lesson.name, self.begin(lesson.name)
            commands = re.findall(r"^    (\./ibm1401 .*)$", (lesson / "lesson.md").read_text(), re.MULTILINE)
            papers = {each: (lesson / f"{each}.paper").read_text() for each in ("program", "wanted")}
            first = next(each for each in commands if " run program.source" in each)
            second = next((each for each in commands if " run broken.source" in each),
                          first.replace("program.source", "broken.source"))
            for command in commands:
                if " run broken.source" not in command and "new.tap" not in command:
                    ran = run(["bash", "-c", command], cwd=place)
                    self.same(f"{name}: {command}", ran.returncode, 0)
                    if command == first:
                        self.same(f"{name}: its paper", ran.stdout, papers["program"])
            broken = run(["bash", "-c", second], cwd=place)
            self.check(f"{name}: broken", broken.stdout.decode() == papers["wanted"] and "it prints what is wanted")
            (place / "new.tap").unlink(missing_ok=True)
            shutil.copy(COURSE / f"answers/{name}.source", place / "broken.source")
            ran = run(["bash", "-c", second], cwd=place)
            self.expect(f"{name}: the solution", ran, 0, papers["wanted"], "ibm1401: HALT at ...")

    def test_what_a_pupil_sees_in_operate(self):
        """Each page names the lines, and each reply has what the page says of it."""
        for name, source, lines, wanted in LOOKS:
            place, page = self.desk / name, (COURSE / name / "lesson.md").read_text()
            if not place.exists():
                self.begin(name)
            self.same(f"{name}: lines that aren't on its page", [each for each in lines if f"`{each}`" not in page], [])
            call = re.findall(r"^    (\./ibm1401 run .*)$", page, re.MULTILINE)[-1 if source == "broken" else 0]
            call = re.sub(r"run \w+\.source", f"operate --echo {source}.source", call)
            typed = "".join(f"{line}\n" for line in lines)
            shown, at = run(["bash", "-c", call], typed.encode(), cwd=place).stdout.decode(), 0
            for part in wanted:
                at = shown.find(part, at)
                self.check(f"{name}, {source}: {part!r}", "" if at >= 0 else shown)
                at += len(part)

    def test_the_texts_that_a_page_cites(self):
        """Each is in a source or on a card of its lesson, blank for blank."""
        for lesson in LESSONS:
            cited = re.findall(r"@[^@`]+@", (lesson / "lesson.md").read_text())
            there = "".join(each.read_text() for each in [*lesson.glob("*.source"), lesson / "program.cards"])
            self.same(f"{lesson.name}: others", [text for text in cited if text.strip("@") not in there], [])

    def test_each_source_assembles_without_a_warning(self):
        for source in COURSE.rglob("*.source"):
            ran = program("assemble", "--all", "--language", "ibm", "--fit", "all", source)
            self.expect(str(source.relative_to(COURSE)), ran, 0, "...")

    def test_the_check_of_each(self):
        """It fails on the broken program for its mistake, and passes on several solutions of it."""
        self.same("the lessons", [each.name for each in LESSONS], list(SYMPTOMS))
        for name, symptom in SYMPTOMS.items():
            broken = (self.begin(name) / "broken.source").read_text()
            answer = (COURSE / f"answers/{name}.source").read_text()
            old, new = OTHERWISE[name]
            self.same(f"{name}: the other solution changes one place", broken.count(old), 1)
            other = broken.replace(old, new).replace(*(REST if name == TAPED else ("", "")))
            self.fails(name, "as it is", broken, symptom)
            self.fails(name, "as it is, elsewhere", elsewhere(broken), symptom)
            self.passes(name, "the answer", answer)
            self.passes(name, "the answer elsewhere", elsewhere(answer))
            self.passes(name, "another solution", other)

    def test_what_helps_only_with_the_cards_of_the_lesson(self):
        for name, old, new, symptom in HALF_DONE:
            source = (self.begin(name) / "broken.source").read_text()
            self.same(f"{name}: it changes one place", source.count(old), 1)
            self.fails(name, "half done", source.replace(old, new), symptom)

    def test_the_length_of_each_page(self):
        for lesson in LESSONS:
            text = (lesson / "lesson.md").read_text()
            self.check(f"{lesson.name}: its words", "" if len(text.split()) in WORDS else f"{len(text.split())} words")
            self.same(f"{lesson.name}: long lines", [line for line in text.splitlines() if len(line) > 120], [])


class Script(CourseTest):
    """The script, by each of its ends."""

    def test_it_lists_the_lessons(self):
        titles = [(each / "lesson.md").read_text().splitlines()[0].removeprefix("# Lesson ") for each in LESSONS]
        listed = "".join(f"{title}\n" for title in titles)
        for name, called, words, how in self.calls():
            shown = f"{listed}{called} N copies one into a new folder, and {called} N --check says ..."
            self.expect(name, run(words, **how), 0, shown)

    def calls(self):
        """How the script can be called, and the name that it then gives itself."""
        by_name = {**os.environ, "PATH": f"{self.script.parent}:{os.environ['PATH']}"}
        place = self.begin("02-last-card")
        return [("a path", str(self.script), [self.script], {"cwd": self.desk}),
                ("a name", "ibm1401-lesson", ["ibm1401-lesson"], {"cwd": self.desk, "env": by_name}),
                ("in the folder of a lesson", "./lesson", ["./lesson"], {"cwd": place}),
                ("the launcher here", "./ibm1401 lesson", ["./ibm1401", "lesson"], {"cwd": TOP}),
                ("the launcher elsewhere", f"{LAUNCHER} lesson", [LAUNCHER, "lesson"], {"cwd": self.desk})]

    def test_it_copies_a_lesson(self):
        said = ("02-last-card has all that lesson 2 needs. Read lesson.md there, and begin with\n    cd 02-last-card\n"
                "    ./ibm1401 run program.source --cards program.cards --switches A\n")
        self.expect("it", self.lesson("2"), 0, said)
        copied = {each.name for each in (self.desk / "02-last-card").iterdir()}
        wanted = {each.name for each in (COURSE / "02-last-card").iterdir()} | {"ibm1401", "lesson"}
        self.same("the files", copied, wanted)
        again = run(["./lesson", "2", "--check"], cwd=self.desk / "02-last-card")
        self.expect("the check from within", again, 1, "lesson 2: not yet. ...")

    def test_a_copy_by_the_launcher(self):
        self.same("its status", run([LAUNCHER, "lesson", "1"], cwd=self.desk).returncode, 0)
        self.same("its program", (self.desk / "01-three-fields/ibm1401").resolve(), LAUNCHER)

    def test_a_folder_that_is_there_is_left_alone(self):
        (self.desk / "03-edited-amounts").mkdir()
        (self.desk / "04-price-table").symlink_to("nowhere")
        for number, name in ("3", "03-edited-amounts"), ("4", "04-price-table"):
            self.expect(name, self.lesson(number), 1, "", self.is_there(name, f"{self.script} {number}"))
        inside = run(["./lesson", "5"], cwd=self.begin("05-subroutine"))
        self.expect("within its folder", inside, 1, "", self.is_there("../05-subroutine", "./lesson 5"))
        shutil.rmtree(self.desk / "05-subroutine")
        there = sorted(each.name for each in self.desk.rglob("*"))
        self.same("what is there", there, ["03-edited-amounts", "04-price-table"])

    def is_there(self, folder, call):
        """What is said of a folder that is there."""
        return f"lesson: {folder} is there already; to begin afresh, rename it and say {call} again\n"

    def test_from_the_folder_of_a_lesson(self):
        """The next one comes next to it; and a folder has another name than its lesson's, if somebody renames it."""
        place = self.begin("02-last-card")
        self.expect("the next", run(["./lesson", "3"], cwd=place), 0, "../03-edited-amounts has all that ...")
        self.expect("its check", run(["./lesson", "3", "--check"], cwd=place), 1, "lesson 3: not yet. The total of ...")
        renamed = place.rename(self.desk / "old")
        shutil.copy(COURSE / "answers/02-last-card.source", renamed / "broken.source")
        self.expect("renamed", run(["./lesson", "2", "--check"], cwd=renamed), 0, "lesson 2: the mistake is mended...")
        self.expect("afresh", run(["./lesson", "2"], cwd=renamed), 0, "../02-last-card has all that ...")
        self.expect("that one", run(["./lesson", "2", "--check"], cwd=place), 1, "lesson 2: not yet. The total...")
        there = sorted(each.name for each in self.desk.iterdir())
        self.same("what is there", there, ["02-last-card", "03-edited-amounts", "old"])

    def test_numbers_that_no_lesson_has(self):
        for number in "0", "10", "03", "x", "", "1*", "../1":
            said = f"lesson: there is no lesson '{number}'; {self.script} lists them\n"
            self.expect(f"{number!r}", self.lesson(number), 2, "", said)
            self.expect(f"{number!r}, to check", self.lesson(number, "--check"), 2, "", said)

    def test_other_words(self):
        usage = f"Usage: {self.script} [N [--check]]\n\n"
        order = f"--check follows the number of a lesson: {self.script} N --check"
        for words, why in [(["1", "--chek"], "unexpected argument '--chek' found"), (["--check", "1"], order),
                           (["--check"], order), (["1", "--check", "2"], "unexpected argument '2' found"),
                           (["1", ""], "unexpected argument '' found"), (["-x"], "unexpected argument '-x' found"),
                           (["-x", "--check"], "unexpected argument '-x' found")]:
            self.expect(" ".join(words), self.lesson(*words), 2, "", f"error: {why}\n\n{usage}")
        for word in "-h", "--help":
            said = f"Lists the lessons of the course, copies one, and checks it\n\n{usage}Arguments:..."
            self.expect(word, self.lesson(word), 0, said)
        self.same("nothing is copied", list(self.desk.iterdir()), [])

    def test_a_lesson_that_is_not_here(self):
        said = f"lesson: there is no folder 05-subroutine; go to the folder in which you said {self.script} 5\n"
        self.expect("not begun", self.lesson("5", "--check"), 1, "", said)
        (self.begin("05-subroutine") / "broken.source").unlink()
        missing = "lesson: broken.source is missing; to begin afresh, rename the folder and say"
        self.expect("no program", self.lesson("5", "--check"), 1, "", f"{missing} {self.script} 5 again\n")
        ran = run(["./lesson", "5", "--check"], cwd=self.desk / "05-subroutine")
        self.expect("no program, within", ran, 1, "", f"{missing} ./lesson 5 again\n")

    def test_output_that_is_closed_or_full(self):
        place = self.begin("02-last-card")
        shutil.copy(COURSE / "answers/02-last-card.source", place / "broken.source")
        for words in "", "1", "2 --check", "--help":
            for to in ">&-", "> /dev/full":
                ran = run(["bash", "-c", f'"$0" {words} {to}', self.script], cwd=self.desk)
                self.expect(f"lesson {words} {to}", ran, 1, "", "lesson: cannot write\n")
                shutil.rmtree(self.desk / "01-three-fields", ignore_errors=True)

    def test_through_links_and_from_other_folders(self):
        place = self.begin("02-last-card")
        link = self.folder / "a link"
        link.symlink_to(self.script)
        for name, words, cwd in [("a link", [link], self.desk), ("by bash", ["bash", link], self.desk),
                                 ("another folder", ["../bin/ibm1401-lesson"], self.desk),
                                 ("within", ["../../bin/ibm1401-lesson"], place)]:
            self.expect(name, run([*words, "2", "--check"], cwd=cwd), 1, "lesson 2: not yet. The total isn't ...")

    def test_the_launcher_builds_before_a_check(self):
        """In a repository the program is the launcher, which says on standard error how far it has come."""
        place = self.folder / "repository"
        shutil.copytree(COURSE, place / "examples/course")
        launcher = place / "ibm1401"
        begun = f'[ -e {place}/built ] || {{ echo building >&2 && touch {place}/built; }}'
        launcher.write_text(f'#!/bin/sh\n{begun}\nexec {PROGRAM} "$@"\n')
        launcher.chmod(0o755)
        words = [place / "examples/course/lesson", "2"]
        self.same("its copy", run(words, cwd=self.desk).stderr, b"")
        ran = run([*words, "--check"], cwd=self.desk)
        self.expect("its check", ran, 1, "lesson 2: not yet. The total...", "building\n")
        launcher.write_text("#!/bin/sh\necho 'no command rt' >&2\nexit 1\n")
        self.expect("no toolchain", run([*words, "--check"], cwd=self.desk), 1, "", "no command rt\n")

    def test_a_source_that_does_not_assemble(self):
        source = self.begin("02-last-card") / "broken.source"
        said = "lesson 2: not yet. broken.source can't be assembled:\nbroken.source:10:21: UNDEFINED: DOEN isn't ..."
        source.write_text(source.read_text().replace("BLC  DONE", "BLC  DOEN"))
        self.expect("a label", self.lesson("2", "--check"), 1, said)
        source.unlink()
        source.mkdir()
        said = "lesson: broken.source is missing; ..."
        self.expect("a folder", self.lesson("2", "--check"), 1, "", said)

    def test_a_program_that_the_page_refuses(self):
        """The check takes the options of the page: small letters, or an operation that isn't fitted, aren't mended."""
        for name, old, new, fault in [("01-three-fields", "SW   31", "sw   31", "10:16: GRAPHIC"),
                                      ("02-last-card", "A    24,TOTAL", "M    24,TOTAL", "10:16: OPERATION")]:
            answer = (COURSE / f"answers/{name}.source").read_text()
            self.same(f"{name}: it changes one place", answer.count(old), 1)
            ran = self.checked(self.begin(name).name, "refused", answer.replace(old, new))
            shown = run(["./ibm1401", "run", "broken.source", "--cards", "program.cards"], cwd=self.desk / name)
            self.expect(f"{name}: the page", shown, 1, "", f"broken.source:{fault}: ...")
            self.expect(f"{name}: the check", ran, 1, f"lesson {name[1]}: not yet. broken.source can't be assembled:\n"
                        f"broken.source:{fault}: ...")

    def test_what_is_wanted_and_found(self):
        """What the check shows of a text, and of a number."""
        self.begin("02-last-card")
        shown = ("lesson 2: not yet. The total isn't the sum of all three cards, 7 + 999990 + 100010.\n"
                 "wanted  @     1100007@\nfound   @      999997@ up to position 30\n")
        self.expect("a text", self.lesson("2", "--check"), 1, shown)
        source = (self.begin(TAPED) / "broken.source").read_text()
        shown = (f"lesson 9: not yet. {SYMPTOMS[TAPED]}, or one too many is written.\n"
                 "wanted  @2015@\nfound   @2000@ up to position 4\n")
        self.expect("a text of digits", self.lesson("9", "--check"), 1, shown)
        ran = self.checked(TAPED, "a number", source.replace("A    CHSTCK,STOCK", "S    CHSTCK,STOCK"))
        self.expect("a number", ran, 1, "lesson 9: not yet. Item 2004 doesn't have the stock that its changes give "
                    "it.\nwanted  20\nfound   -6 up to position 30\n...")

    def test_a_program_that_prints_all_and_does_not_halt(self):
        answer = (COURSE / "answers/02-last-card.source").read_text()
        source = self.begin("02-last-card") / "broken.source"
        for name, end, why in ("another card", "R    *-3", "READER at 0464"), ("no end", "B    *-3", "LIMIT at 0464"):
            source.write_text(answer.replace("H    *-3", end))
            said = f"lesson 2: not yet. All is printed, but the program doesn't halt.\nibm1401: {why}..."
            self.expect(name, self.lesson("2", "--check"), 1, said)

    def test_a_program_that_prints_nothing_or_wide_lines(self):
        source = self.begin("02-last-card") / "broken.source"
        text = source.read_text()
        for name, old, new in ("nothing", "               W\n", "               NOP\n"), ("wide", "18,218", "18,300"):
            source.write_text(text.replace(old, new))
            ran = self.lesson("2", "--check")
            self.expect(name, ran, 1, "lesson 2: not yet. Card 1 isn't listed with its name.\n...")

    def test_nothing_is_left_of_a_check(self):
        self.begin(TAPED)
        before = {path: path.lstat().st_mtime_ns for path in self.folder.rglob("*")}
        room = self.folder / "room"
        room.mkdir()
        ran = self.lesson("9", "--check", env={**os.environ, "TMPDIR": str(room)})
        self.same("its status", ran.returncode, 1)
        self.same("files in between", list(room.iterdir()), [])
        room.rmdir()
        after = {path: path.lstat().st_mtime_ns for path in self.folder.rglob("*")}
        self.same("the others", {path for path in before if before[path] != after.get(path)} - {self.folder}, set())


class Teaching(CourseTest):
    """What COURSE.md shows."""

    page = (TOP / "docs/COURSE.md").read_text()

    def test_each_command(self):
        """In order: the first block where a pupil begins, the others in the folder of lesson 2."""
        first, *others = re.findall(r"```(?:console|sh)\n(.*?)```", self.page, re.DOTALL)
        self.assertEqual(4, len(others))
        for folder, block in [(self.desk, first), *((self.desk / "02-last-card", other) for other in others)]:
            if not block.startswith("$ "):
                ran = run(["bash", "-ec", block], cwd=folder)
                self.same(block, (ran.returncode, ran.stdout[:13]), (0, b"ADAMS AND SON"))
                continue
            for part in re.split(r"^\$ ", block, flags=re.MULTILINE)[1:]:
                command, shown = part.split("\n", 1)
                call = command.replace("./ibm1401 lesson", str(self.script)) + " --echo" * (" operate " in command)
                ran = run(["bash", "-c", call], typed_in(shown).encode(), cwd=folder)
                shown = shown.replace("./ibm1401 lesson", str(self.script))
                self.expect(command, ran, int("not yet" in shown), shown)

    def test_decks_for_a_page(self):
        """Each is its program assembled, with its cards; and the repair in storage prints what is wanted."""
        rows = re.findall(r"^\| (\d) \| `(RUN \d+)` \| (.*) \|$", self.page, re.MULTILINE)
        self.same("the lessons with a deck", [number for number, _, _ in rows], list("12345678"))
        for lesson, (number, loaded, repair) in zip(LESSONS, rows):
            name, deck, repairs = lesson.name, self.folder / f"{number}.deck", re.findall(r"`(.*?)`", repair)
            self.expect(name, program("assemble", "--language", "ibm", lesson / "broken.source", "--deck", deck))
            cards = (deck.read_text() + (lesson / "program.cards").read_text())
            self.same(f"{name}: its deck", (lesson / "broken.deck").read_text(), cards)
            wanted = [line for form in pages((lesson / "wanted.paper").read_text()) for line in form.values()]
            lines = [*(f"FEED {card}" for card in cards.splitlines()), "SWITCH A ON", "LOAD", loaded, *repairs,
                     "RUN 100000", *["LINE"] * FORM]
            ran = program("console", "--fit", "multiply", lines="".join(f"{line}\n" for line in lines).encode())
            replies = ran.stdout.decode().splitlines()
            at = lines.index(loaded)
            self.same(f"{name}: loaded", replies[at], f"STOP 01 LIMIT STEPS {loaded[4:]} I 00400")
            self.same(f"{name}: repaired", replies[at + 1:at + 1 + len(repairs)], ["OK"] * len(repairs))
            printed = [line[13:] for line in replies if line.startswith("LINE ") and line[13:]]
            self.same(f"{name}: printed", printed, wanted)

    def test_the_lessons_of_the_page(self):
        """It has the decks and the listings, the lines that load them, and their steps in each language."""
        script = (TOP / "page/script/lessons.js").read_text()
        loaded = re.findall(r"^\| \d \| `RUN (\d+)` \|", self.page, re.MULTILINE)
        self.same("the lines", re.search(r"LESSON_STEPS = \[(.*)\]", script)[1].split(", "), loaded)
        for language in re.split(r"^  \w\w: \{$", script, flags=re.MULTILINE)[1:]:
            parts = [len(re.findall(rf"\b{part}: '", language)) for part in ("title", "look", "mend", "right")]
            self.same(f"{language[:20]!r}: the lessons", parts, [len(loaded)] * 4)
        programs = json.loads(re.search(rb"const PROGRAM_FILES = (\{.*\});\n", PAGE)[1])
        for number, lesson in enumerate(LESSONS[:len(loaded)], 1):
            found = [[re.sub(r"~([D-Z])", lambda blanks: " " * (ord(blanks[1]) - 65), text) for text in texts]
                     for texts in ([programs[f"lesson{number}"]["source"]], programs[f"lesson{number}"]["cards"])]
            cards = [card.rstrip() for card in (lesson / "broken.deck").read_text().splitlines()]
            listed = program("assemble", "--language", "ibm", "--list", lesson / "broken.source").stdout.decode()
            self.same(lesson.name, found, [["".join(f"{line[5:]}\n" for line in listed.splitlines())], cards])

    def test_a_class_takes_turns(self):
        """Each seat holds the machine for its deck, and takes the paper; the journal says who did what."""
        decks = {1: "01-three-fields", 2: "03-edited-amounts", 3: "06-headings"}
        for seat, name in decks.items():
            call = ["assemble", COURSE / f"answers/{name}.source", "--deck", self.folder / f"{seat}.deck"]
            self.expect(name, program(*call))
        room = self.room("serve", "--journal", self.folder / "friday.journal", seats=len(decks), pages=True)
        for seat, name in decks.items():
            cards = (self.folder / f"{seat}.deck").read_text() + (COURSE / name / "program.cards").read_text()
            lines = [*(f"FEED {card}" for card in cards.splitlines()), "SWITCH A ON", "LOAD", "RUN 100000"]
            wanted = [line for form in pages((COURSE / name / "wanted.paper").read_text()) for line in form.values()]
            self.trial(lambda: self.take_a_turn(room, seat, lines, wanted), HELD)
        self.ended(room, "the room", room.after())
        shown = program("journal", "--seat", "3", self.folder / "friday.journal").stdout.decode().splitlines()
        self.same("what seat 3 did is its own", {line.split()[1:3] == ["seat", "3"] for line in shown}, {True})

    def take_a_turn(self, room, seat, lines, wanted):
        """Subtests: a seat holds the machine, runs its deck and takes its paper, and no other seat gives a line."""
        own = {"Origin": room.address(seat)}
        self.same(f"seat {seat} holds it", room.ask(seat, "POST", "/hold", "", own)[0], 200)
        other = seat % room.seats + 1
        answers = self.give_all(room, seat, lines)
        self.check(f"seat {seat}: its run", "" if answers[-1].startswith("STOP 02 HALT ") else answers[-1])
        self.same(f"seat {other} gives no line meanwhile", status(room.post(other, "START 1", room.made(other))), 423)
        paper = self.give_all(room, seat, ["LINE"] * len(wanted))
        self.same(f"seat {seat}: its paper", [line[13:] for line in paper], wanted)
        self.same(f"seat {seat} ends it", room.ask(seat, "POST", "/release", "", own)[0], 200)

    def give_all(self, room, seat, lines):
        """The replies to lines of a seat."""
        return [room.give(seat, room.made(seat), line)[1].decode().rstrip() for line in lines]


@with_peer
class Peer(ProgramTest):
    """The solutions on i1401, with our carriage tape: the same lines at the same places."""

    def hold(self, name, wanted, cards=(), reels=()):
        """Subtests: a solution halts there with this paper."""
        source, deck, paper = COURSE / f"answers/{name}.source", self.folder / "deck", self.folder / "paper"
        paper.unlink(missing_ok=True)
        call = ["assemble", "--language", "ibm", source, "--deck", deck, "--out-graphics", "simh"]
        self.expect(f"{name}: the deck", program(*call))
        for each in cards:
            deck.write_bytes(deck.read_bytes() + each.read_bytes())
        (self.folder / "channels").write_text(CHANNELS)
        said = peer(f"load {self.folder / 'channels'}", f"attach cdr {deck}", f"attach lpt {paper}", *reels, "d ssa 1",
                    "boot cdr")
        self.check(f"{name} halts", "" if "HALT" in said else said)
        found = pages(paper.read_text().replace("\f", ""))[0]
        numbered = {form * FORM + at: line for form, lines in enumerate(pages(wanted)) for at, line in lines.items()}
        self.same(f"{name}: the paper", found, numbered)

    def test_each_with_cards(self):
        for lesson in LESSONS:
            if lesson.name != TAPED:
                self.hold(lesson.name, (lesson / "wanted.paper").read_text(), [lesson / "program.cards"])

    def test_the_one_with_reels(self):
        """The reels end with the record of a tape mark, as i1401 wants them."""
        place, units = COURSE / TAPED, [self.folder / f"{unit}.tap" for unit in (1, 2, 3)]
        for unit, cards in zip(units, ("program.cards", "changes.cards")):
            self.expect(cards, program("reel", "--even-parity", "--from-deck", place / cards, "-o", unit))
        ours = self.folder / "ours.tap"
        call = ["--language", "ibm", "--tape", f"1={units[0]}", "--tape", f"2={units[1]}", "--tape", f"3={ours}:new"]
        ran = program("run", COURSE / f"answers/{TAPED}.source", *call)
        self.same("ours", ran.returncode, 0)
        for unit in units[:2]:
            unit.write_bytes(unit.read_bytes().removesuffix(MARK) + MARK_RECORD)
        reels = [f"attach mt{at} {unit}" for at, unit in enumerate(units, 1)]
        self.hold(TAPED, (place / "wanted.paper").read_text(), reels=reels)
        self.same("the new master", records_of(units[2].read_bytes()), records_of(ours.read_bytes()))


if __name__ == "__main__":
    unittest.main()

"""What the gate has proved: `./check` notes it next to the program, and `./release` compares.

The note is crates/ibm1401/out/ibm1401.proved, which no commit has: what the gate printed, the toolchain, and the
checksums of each source and of the program. Once all that ./check runs has passed, its last line is added."""
import hashlib
import json
import os
import re
import subprocess
from pathlib import Path

# What the gate reads besides the files of crates/.
ALONE = "crates.txt", "HANDLES"
# What a record begins with, as crates/ibm1401/src/version.rt has it.
RECORD = b"commit "
# The last line of a gate, and of ./check, if nothing failed.
PASSED = re.compile(r"\d+ passed, 0 failed")
# The lines that each run of the gate prints of the same sources, but for what follows in them.
EACH_RUN = re.compile(r"rt: \w+ (?:proved|is kept|ran, and|ran \(built).*|rt: must-fail .*|rt: ok; .*")


class Refused(Exception):
    """Why there is no release."""


def program_of(top):
    """Where the gate builds the program."""
    return top / "crates/ibm1401/out/ibm1401"


def note_of(top):
    """Where the gate's note is."""
    return top / "crates/ibm1401/out/ibm1401.proved"


def checksum(content):
    """The checksum of some bytes, as sha256sum prints it."""
    return hashlib.sha256(content).hexdigest()


def files_read(top):
    """The files that the gate reads."""
    found = [top / name for name in ALONE]
    for place, folders, files in os.walk(top / "crates"):
        folders[:] = [each for each in folders if each != "out"]
        found += [Path(place, each) for each in files]
    return [each for each in sorted(found) if each.is_file()]


def sources(top):
    """The checksum of each file that the gate reads, by its path."""
    return {str(each.relative_to(top)): checksum(each.read_bytes()) for each in files_read(top)}


def bare(program):
    """A program without the record after its last zero byte."""
    before, zero, after = program.rpartition(b"\0")
    return before if zero and after.startswith(RECORD) else program


def git(top, *words):
    """What git answers of this folder, or None where it is no repository of its own."""
    try:
        ran = subprocess.run(["git", "-C", top, *words], stdin=subprocess.DEVNULL, capture_output=True, check=False)
    except OSError:
        return None
    return ran.stdout.decode().strip() if ran.returncode == 0 else None


def commit_of(top):
    """The commit of the sources, as a record names it."""
    commit = git(top, "rev-parse", "--verify", "HEAD") if git(top, "rev-parse", "--show-cdup") == "" else None
    if commit is None:
        return "unknown"
    return commit + (", with changes" if git(top, "status", "--porcelain", "--", *ALONE, "crates") else "")


def with_record(program, commit, toolchain):
    """A program with the record that its --version prints."""
    return bare(program) + f"\0commit {commit}\nproved by {toolchain}\n".encode()


def of_each_run(printed):
    """What each run of the gate prints of the same sources, on any host, as sorted lines with the last one at the end.
    Which proofs a run takes from an earlier one, what it then says of each function, and the order of the crates are
    its own."""
    lines = []
    for line in filter(EACH_RUN.fullmatch, printed.splitlines()):
        line = re.sub(r" is kept: .*", " proved", line)
        line = re.sub(r"(: refused, as it must be)\b.*", r"\1", line)
        lines.append(re.sub(r"; (done in this run: .*|every proof .*)", "", line))
    return "".join(f"{line}\n" for line in [*sorted(lines), *printed.splitlines()[-1:]])


def write_note(top, before, printed, toolchain):
    """Notes what the gate printed of these sources, if they are still the same, and writes the record after the
    program."""
    note_of(top).unlink(missing_ok=True)
    program = program_of(top).read_bytes()
    if before == sources(top):
        noted = {"toolchain": toolchain, "printed": printed, "program": checksum(bare(program)), "sources": before}
        note_of(top).write_text(json.dumps(noted, indent=1))
    program_of(top).write_bytes(with_record(program, commit_of(top), toolchain))


def complete_note(top, counts):
    """Adds the last line of a ./check in which nothing failed, tests of the program included, to the gate's note."""
    if note_of(top).exists():
        noted = json.loads(note_of(top).read_text())
        note_of(top).write_text(json.dumps({**noted, "checked": counts}, indent=1))


def read_note(top):
    """The gate's note, if the whole ./check has passed, and the sources and the program are those that it is about,
    and are committed."""
    if not note_of(top).exists():
        raise Refused("the gate has proved no program here; ./check does")
    noted = json.loads(note_of(top).read_text())
    last = "".join(noted["printed"].splitlines()[-1:]) or "it printed nothing"
    if not PASSED.fullmatch(last):
        raise Refused(f"the gate has failed: {last}")
    if not PASSED.fullmatch(noted.get("checked", "")):
        raise Refused("the tests of the program haven't all passed here; ./check runs them")
    now = sources(top)
    changed = [name for name in sorted({*now, *noted["sources"]}) if now.get(name) != noted["sources"].get(name)]
    if changed:
        raise Refused(f"{changed[0]} isn't as the gate proved it")
    if not program_of(top).exists() or checksum(bare(program_of(top).read_bytes())) != noted["program"]:
        raise Refused("crates/ibm1401/out/ibm1401 isn't the program that the gate built")
    if git(top, "rev-parse", "--show-cdup") != "" or git(top, "status", "--porcelain", "--", ".", ":!dist"):
        raise Refused("there are files that no commit has")
    return noted

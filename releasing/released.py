#!/usr/bin/env python3
"""Names the program of the release in dist/ for the launcher: it is unpacked once, into crates/ibm1401/out or, if that
can't be written to, into the user's cache. Each start checks all bytes of the release, and those of the program.

    releasing/released.py [WORDS]   prints the folder of the program that is to be run for these words

Without the toolchain that is the release's in any case. With the toolchain it is, unless it is to be built, while
nothing is built here and the sources are those of the release. The status is 2 if there is no such program, and 1 if
the release is refused."""
import gzip
import os
import shutil
import sys
import tarfile
import tempfile
from pathlib import Path

sys.dont_write_bytecode = True
sys.path.insert(0, str(Path(__file__).resolve().parent.parent))
from releasing.proved import Refused, checksum, files_read, program_of, sources

TOP = Path(__file__).resolve().parent.parent
NO_PROGRAM = 2
PROGRAM = "bin/ibm1401"


def archive_in(dist):
    """The archive of the release in this folder, or None without one."""
    return next(iter(sorted(dist.glob("ibm1401-*-x86_64-linux.tar.gz"))), None)


def noted_in(text):
    """The checksums of a text as sha256sum prints it, by the name of each file."""
    rows = (line.partition("  ") for line in text.splitlines())
    return {name: each for each, blanks, name in rows if blanks}


def whole(dist, archive):
    """The checksums of the release, if each of its files has the one that SHA256SUMS says, and that has no other byte
    than ./release writes."""
    text = (dist / "SHA256SUMS").read_bytes().decode()
    sums = noted_in(text)
    for name in archive.name, "PROVED.txt.gz":
        if name not in sums:
            raise Refused(f"dist/{name} isn't of the release that dist/SHA256SUMS names")
    for name, known in sums.items():
        if not (dist / name).is_file():
            raise Refused(f"dist/ is damaged: it has no {name}, which dist/SHA256SUMS names")
        if checksum((dist / name).read_bytes()) != known:
            raise Refused(f"dist/{name} is damaged: its checksum is another")
    if text != "".join(f"{sums[name]}  {name}\n" for name in sorted(sums)):
        raise Refused("dist/SHA256SUMS is damaged: it has other lines than those of the release")
    return sums


def is_program(content, proof):
    """Whether these bytes are the program of the release."""
    return f"{checksum(content)}  usr/{PROGRAM}" in proof


def program_in(archive, proof):
    """The program of an archive, if it is that of the release."""
    with tarfile.open(archive) as files:
        member = next((each for each in files if each.isfile() and each.name.partition("/")[2] == PROGRAM), None)
        program = files.extractfile(member).read() if member else b""
    if not is_program(program, proof):
        raise Refused(f"dist/{archive.name} has another program than dist/PROVED.txt.gz")
    return program


def place_of(top, name):
    """Where a release is unpacked."""
    cache = Path(os.environ.get("XDG_CACHE_HOME") or Path.home() / ".cache")
    for folder in top / "crates/ibm1401/out/released", cache / "ibm1401":
        try:
            (folder / name).mkdir(parents=True, exist_ok=True)
        except OSError:
            continue
        if os.access(folder / name, os.W_OK):
            return folder / name
    raise Refused("it can't be unpacked: neither crates/ibm1401/out nor the user's cache can be written to")


def is_as_released(top, place, proof):
    """Whether the files that the gate reads are those of the release. It is noted in that place which ones were compared
    last, by their times, so that they are read once."""
    note, files = place / "same", files_read(top)
    now = f"{len(files)} {max(each.stat().st_mtime_ns for each in files)}"
    if note.exists() and note.read_text() == now:
        return True
    if noted_in(proof.partition("SOURCES\n\n")[2]) != sources(top):
        return False
    note.write_text(now)
    return True


def unpack(program, place):
    """Puts the program there; whoever comes second finds it."""
    (place / PROGRAM).parent.mkdir(exist_ok=True)
    with tempfile.NamedTemporaryFile(dir=place, delete=False) as part:
        part.write(program)
    os.chmod(part.name, 0o755)
    os.replace(part.name, place / PROGRAM)


def released(top, words):
    """The folder of the program that is to be run, or None."""
    archive, has_toolchain = archive_in(top / "dist"), shutil.which("rt") is not None
    if archive is None or words == ["--build"] or (has_toolchain and program_of(top).exists()):
        return None
    try:
        sums = whole(top / "dist", archive)
        proof = gzip.decompress((top / "dist/PROVED.txt.gz").read_bytes()).decode()
    except (OSError, EOFError, ValueError) as why:
        raise Refused(f"dist/ is damaged: {why}") from why
    place = place_of(top, sums[archive.name])
    is_same = is_as_released(top, place, proof) if has_toolchain or not (place / PROGRAM).exists() else True
    if has_toolchain and not is_same:
        return None
    if (place / PROGRAM).exists():
        if not is_program((place / PROGRAM).read_bytes(), proof):
            raise Refused(f"{place / PROGRAM} is damaged: it isn't the program of the release; remove it")
    else:
        unpack(program_in(archive, proof), place)
        first, proved_by = proof.splitlines()[:2]
        changed = "" if is_same else ", from other sources than those here"
        print(f"ibm1401: this is {first}, of dist/{archive.name}, {proved_by}{changed}; to prove it here, install that "
              "toolchain (README.md, Get it)", file=sys.stderr)
    return place / "bin"


def main(words):
    """Prints the folder, and returns the status."""
    try:
        found = released(TOP, words)
    except Refused as why:
        print(f"ibm1401: release refused: {why}", file=sys.stderr)
        return 1
    if found is None:
        return NO_PROGRAM
    print(found)
    return 0


if __name__ == "__main__":
    sys.exit(main(sys.argv[1:]))

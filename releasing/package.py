"""The files of a release, and the archives that hold them. The same files give the same bytes."""
import hashlib
import io
import os
import re
import subprocess
import tarfile
import zlib
from email.utils import formatdate
from pathlib import Path
from time import gmtime, strftime

from releasing.completion import for_bash, for_fish, for_zsh
from releasing.helps import lesson_page, pages_of
from releasing.manual import file_name, manual_page
from releasing.proved import git

DOCUMENTS = "usr/share/doc/ibm1401"
# What of the repository goes with the program, next to its documentation; and the lessons, which a script reads.
SHIPPED = "README.md", "CHANGELOG.md", "docs", "examples", "benches/README.md"
LESSONS, COURSE = "examples/course/", "usr/share/ibm1401/course"
# The links, each with what it leads to.
LINKS = {"usr/bin/ibm1401-lesson": "../share/ibm1401/course/lesson",
         f"{DOCUMENTS}/examples/course": "../../../ibm1401/course"}
COPYRIGHT = """ibm1401, an IBM 1401 card system, each operation of it proved.

Copyright 2026 the authors whom the repository's history names.

License: none is chosen yet.
 Until one is, all rights are reserved. This copy may be installed and run.
"""
# What lintian says, and why it is so.
ANSWERED = """\
# The program is what the prover's linker wrote, byte for byte, and the record of its commit after it: so anybody can
# compare it with a program of his own.
ibm1401: unstripped-binary-or-object [usr/bin/ibm1401]
# The package isn't made for Debian's archive, so no request for it is closed there.
ibm1401: initial-upload-closes-no-bugs *
"""
DESCRIPTION = """simulator of the IBM 1401 card system, each operation proved
 The IBM 1401 of 1959 reads cards, prints lists, and does decimal arithmetic on
 fields of any length. This is a simulator of it with its assembler: for
 museums, teachers and keepers of old programs. A checker has proved that the
 code does exactly what its definitions say.
 .
 It serves one machine to up to eight operators, at consoles or at pages in a
 browser, and keeps a journal of each command. The units for systemd open a
 room at each start of the computer.
"""


def compressed(content):
    """Bytes as gzip has them, without a name or a time. The head is the same by each version of Python."""
    made = zlib.compressobj(9, zlib.DEFLATED, -zlib.MAX_WBITS)
    ends = zlib.crc32(content).to_bytes(4, "little") + (len(content) % 2**32).to_bytes(4, "little")
    return bytes.fromhex("1f8b0800000000000203") + made.compress(content) + made.flush() + ends


def libc_of(program):
    """The oldest C library that has all that the program needs of it."""
    said = subprocess.run(["objdump", "-p", program], stdout=subprocess.PIPE, check=True).stdout.decode()
    if set(re.findall(r"NEEDED +(\S+)", said)) != {"libc.so.6"}:
        raise ValueError(f"{program} needs more than the C library")
    return max(re.findall(r"GLIBC_([\d.]+)", said), key=lambda each: [int(part) for part in each.split(".")])


def made_from_help(top, program, version, epoch):
    """Manual pages and completions."""
    pages, date = pages_of(program), strftime("%Y-%m-%d", gmtime(epoch))
    manual = [*pages, lesson_page(top)]
    files = {f"usr/share/man/man1/{file_name(each)}.gz": compressed(manual_page(each, manual, version, date).encode())
             for each in manual}
    files["usr/share/bash-completion/completions/ibm1401"] = for_bash(pages).encode()
    files["usr/share/zsh/vendor-completions/_ibm1401"] = for_zsh(pages).encode()
    files["usr/share/fish/vendor_completions.d/ibm1401.fish"] = for_fish(pages).encode()
    return files


def shipped(top):
    """The documentation, the examples and the lessons, of the files that a commit has."""
    names = git(top, "ls-files", "--", *SHIPPED).splitlines()
    places = {name: f"{COURSE}/{name.removeprefix(LESSONS)}" for name in names if name.startswith(LESSONS)}
    return {places.get(name, f"{DOCUMENTS}/{name}"): (top / name).read_bytes() for name in names}


def units(top, program):
    """The units for systemd, with the program there."""
    return {f"usr/lib/systemd/system/{each.name}":
            each.read_bytes().replace(b"/usr/local/bin/ibm1401", program.encode())
            for each in sorted((top / "examples").glob("ibm1401@*"))}


def debian_files(top, version, maintainer, epoch):
    """What a Debian package has besides."""
    entry = (f"ibm1401 ({version}-1) unstable; urgency=medium\n\n  * {version}; changelog.gz says what is new.\n\n"
             f" -- {maintainer}  {formatdate(epoch)}\n")
    return {f"{DOCUMENTS}/copyright": COPYRIGHT.encode(),
            f"{DOCUMENTS}/changelog.Debian.gz": compressed(entry.encode()),
            f"{DOCUMENTS}/changelog.gz": compressed((top / "CHANGELOG.md").read_bytes()),
            "usr/share/lintian/overrides/ibm1401": ANSWERED.encode()}


def mode_of(name):
    """The permissions of a file."""
    return 0o755 if name.endswith(("bin/ibm1401", "course/lesson")) else 0o644


def folders_of(files):
    """The folders of some files, each after the one that it is in."""
    return sorted({str(folder) for name in files for folder in Path(name).parents} - {"."})


def write_deb(path, files, version, maintainer, libc, epoch, room):
    """A Debian package of these files and the links, made in this folder."""
    size = sum(-(-len(each) // 1024) for each in files.values()) + len(LINKS) + len(folders_of([*files, *LINKS]))
    control = (f"Package: ibm1401\nVersion: {version}-1\nSection: otherosfs\nPriority: optional\nArchitecture: amd64\n"
               f"Maintainer: {maintainer}\nDepends: libc6 (>= {libc})\n"
               f"Installed-Size: {size}\n"
               f"Description: {DESCRIPTION}")
    sums = "".join(f"{hashlib.md5(files[name]).hexdigest()}  {name}\n" for name in sorted(files))
    everything = {**files, "DEBIAN/control": control.encode(), "DEBIAN/md5sums": sums.encode()}
    for name in folders_of([*everything, *LINKS]):
        (room / name).mkdir(mode=0o755)
    for name, content in everything.items():
        (room / name).write_bytes(content)
        (room / name).chmod(mode_of(name))
    for each in [*room.rglob("*"), room]:
        each.chmod(0o755) if each.is_dir() else None
        os.utime(each, (epoch, epoch))
    for name, target in LINKS.items():
        (room / name).symlink_to(target)
        os.utime(room / name, (epoch, epoch), follow_symlinks=False)
    environment = {**os.environ, "SOURCE_DATE_EPOCH": str(epoch), "DPKG_DEB_THREADS_MAX": "1"}
    call = ["dpkg-deb", "--root-owner-group", "-Zxz", "-z6", "--build", room, path]
    subprocess.run(call, check=True, env=environment, stdout=subprocess.DEVNULL)


def write_tar(path, files, folder, epoch):
    """A .tar.gz of these files and the links, in one folder, without the usr/ of each."""
    text = io.BytesIO()
    with tarfile.open(fileobj=text, mode="w", format=tarfile.GNU_FORMAT) as archive:
        for name in sorted([*files, *LINKS]):
            entry, content = tarfile.TarInfo(f"{folder}/{name.removeprefix('usr/')}"), files.get(name, b"")
            if name in LINKS:
                entry.type, entry.linkname = tarfile.SYMTYPE, LINKS[name]
            entry.size, entry.mode, entry.mtime = len(content), mode_of(name), epoch
            entry.uname = entry.gname = "root"
            archive.addfile(entry, io.BytesIO(content))
    path.write_bytes(compressed(text.getvalue()))

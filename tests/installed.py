"""The package of a release, tried as a new user would: a root of its own, in which nothing is but a small Debian.

    ./check --release

The root is made by debootstrap. The package is installed there, README's session and its job are run, a room is served
by the unit's own command line, a lesson is begun, a manual page is read, a word is completed in bash, and the package
is removed again. Then a clone of the repository runs README's job there, with Python and without the toolchain."""
import os
import pty
import re
import select
import shutil
import subprocess
import tempfile
import time
from pathlib import Path

from releasing.proved import checksum
from releasing.released import noted_in
from tests.support import REPLY_SECONDS, TOP, Console, a_port, run
from tests.tools.test_docs import rows_of, shown_job
from tests.serving.test_unit import words_of

# What a root needs besides.
BESIDES = "man-db,bash-completion"
# How soon a fresh clone has printed README's list, in seconds.
MOST_SECONDS = 5
# What the system writes of its own accord.
KEPT = "/var/lib/dpkg/", "/var/log/", "/var/cache/", "/etc/ld.so.cache", "/root/.bash_history", "/proc/", "/dev/"


def lacking():
    """Why nothing can be tried here, or an empty text."""
    if os.geteuid() != 0:
        return "only root can make a root of its own"
    return "" if shutil.which("debootstrap", path=f"{os.environ['PATH']}:/usr/sbin") else "there is no debootstrap"


class Root:
    """A small Debian in a folder, with what was tried there."""

    def __init__(self, folder):
        self.folder, self.passed, self.failed = folder, 0, 0

    def run(self, *words, lines=b"", **how):
        """Runs a command there, with a /proc of its own for as long."""
        script = 'mount -t proc proc "$0/proc" && exec chroot "$0" "$@"'
        return run(["unshare", "-m", "sh", "-c", script, self.folder, *words], lines, **how)

    def check(self, name, wrong):
        """Counts what was tried, and prints what is wrong."""
        self.passed, self.failed = self.passed + (not wrong), self.failed + bool(wrong)
        if wrong:
            print(f"FAILED  the package: {name}: {wrong}")

    def same(self, name, found, wanted):
        """The same of two values."""
        self.check(name, "" if found == wanted else f"it is {found!r}, not {wanted!r}")

    def files(self):
        """What is there, but for what the system writes."""
        found = run(["find", self.folder, "-xdev", "-printf", "/%P\\n"]).stdout.decode().splitlines()
        return {each for each in found if not each.startswith(KEPT)}


def try_readme(root):
    """The session that README has in a table, and its job, where the package has the examples."""
    rows = rows_of(TOP / "README.md")
    ran = root.run("ibm1401", "console", lines="".join(f"{line}\n" for line, _ in rows).encode())
    answered = "".join(f"{answered}\n" for _, answered in rows if answered is not None)
    root.same("README's session", (ran.returncode, ran.stdout.decode(), ran.stderr), (0, answered, b""))
    call, paper, ending = shown_job()
    ran = root.run("bash", "-c", f"cd /usr/share/doc/ibm1401 && {call.replace('./ibm1401', 'ibm1401')}")
    said = ran.returncode, ran.stdout.decode(), ran.stderr.decode()
    root.same("README's job", said, (0, paper, f"{ending}\n"))


def try_room(root):
    """A room by the unit's own command line, served and closed."""
    port, state = a_port(), root.folder / "var/lib/ibm1401"
    state.mkdir()
    words = words_of("ExecStart", port, "/var/lib", root.folder / "usr/lib/systemd/system/ibm1401@.service")
    room = subprocess.Popen(["chroot", root.folder, *words], stdin=subprocess.PIPE, stdout=subprocess.PIPE)
    try:
        root.same("the room is ready", room.stdout.readline(), b"READY\n")
        with Console(int(port)) as console:
            root.same("it answers", console.say(b"DEPOSIT 0500 ~K\nEXAMINE 0500\n"), b"OK\n~K\n")
        root.same("it ends", (room.communicate(b"QUIT\n", REPLY_SECONDS)[0], room.returncode), (b"JOURNAL 2\n", 0))
    finally:
        room.kill()
        room.wait()
    root.check("it has a journal", "" if (state / f"{port}.journal").exists() else "there is none")
    shutil.rmtree(state)


def try_lesson(root):
    """A lesson, begun and checked."""
    ran = root.run("bash", "-c", "cd /tmp && ibm1401-lesson 2 && 02-last-card/lesson 2 --check; rm -r 02-last-card")
    said = ran.stdout.decode()
    root.check("a lesson", "" if "\nlesson 2: not yet. The total isn't" in said and not ran.stderr else said)


def typed(root, keys, wanted):
    """What a terminal shows of bash when this is typed into it, until it shows what is wanted or is late."""
    terminal, other = pty.openpty()
    words = ["chroot", root.folder, "env", "TERM=dumb", "bash", "--norc", "-i"]
    bash = subprocess.Popen(words, stdin=other, stdout=other, stderr=other, start_new_session=True)
    os.close(other)
    shown, late = b"", time.monotonic() + REPLY_SECONDS
    try:
        os.write(terminal, keys)
        while wanted not in shown and time.monotonic() < late:
            if select.select([terminal], [], [], 0.1)[0]:
                shown += os.read(terminal, 4096)
    finally:
        bash.kill()
        bash.wait()
        os.close(terminal)
    return shown


def try_completion(root):
    """A call and an option, each completed from its beginning."""
    load = b". /usr/share/bash-completion/bash_completion\n"
    for keys, wanted in (b"ibm1401 disa\t", b"ibm1401 disassemble"), (b"ibm1401 run --pu\t", b"run --punch"):
        shown = typed(root, load + keys, wanted)
        root.check(f"bash completes {keys.decode().strip()}", "" if wanted in shown else repr(shown[-200:]))


def try_installed(root, package):
    """Installs a package, tries it, and removes it again; one whose checksum is another isn't installed."""
    sums = noted_in((Path(package).parent / "SHA256SUMS").read_text())
    is_whole = checksum(Path(package).read_bytes()) == sums.get(Path(package).name)
    root.check("its checksum", "" if is_whole else "SHA256SUMS has another")
    if not is_whole:
        return
    shutil.copy(package, root.folder / "tmp/ibm1401.deb")
    before = root.files()
    installed = root.run("dpkg", "-i", "/tmp/ibm1401.deb")
    root.check("it is installed", installed.stderr.decode() if installed.returncode != 0 else "")
    if installed.returncode != 0:
        return
    said = root.run("ibm1401", "--version").stdout.decode()
    known = re.fullmatch(r"ibm1401 [\d.]+\ncommit [0-9a-f]{40}\nproved by .*\n", said)
    root.check("its version", "" if known else said)
    try_readme(root)
    try_room(root)
    try_lesson(root)
    page = root.run("man", "ibm1401-run", env={**os.environ, "MANWIDTH": "200", "LC_ALL": "C", "PAGER": "cat"})
    shown = re.sub(r".\x08", "", page.stdout.decode(errors="replace"))
    root.check("the manual", "" if "--switches LETTERS" in shown else shown + page.stderr.decode())
    try_completion(root)
    removed = root.run("dpkg", "--purge", "ibm1401")
    root.check("it is removed", removed.stderr.decode() if removed.returncode != 0 else "")
    root.same("what is left", sorted(root.files() ^ before), [])


def try_clone(root):
    """README's job in a clone, twice: it runs the release in dist/, and says so the first time."""
    fetched = root.run("bash", "-c", "apt-get update -qq && apt-get install -qq --no-install-recommends python3")
    root.check("Python is there", fetched.stderr.decode() if fetched.returncode != 0 else "")
    clone = root.folder / "root/clone"
    clone.mkdir()
    run(["tar", "-x", "-C", clone], run(["git", "-C", TOP, "archive", "HEAD"]).stdout)
    shutil.copytree(TOP / "dist", clone / "dist", dirs_exist_ok=True)
    call, paper, ending = shown_job()
    for name, first in ("first", r"ibm1401: this is ibm1401 [\d.]+, commit .*\n"), ("second", ""):
        began = time.monotonic()
        ran = root.run("bash", "-c", f"cd /root/clone && {call}")
        took = time.monotonic() - began
        root.same(f"a clone's {name} job", (ran.returncode, ran.stdout.decode()), (0, paper))
        said = re.fullmatch(first + re.escape(f"{ending}\n"), ran.stderr.decode())
        root.check(f"what it says at its {name} job", "" if said else ran.stderr.decode())
        root.check(f"how soon its {name} job ends", "" if took <= MOST_SECONDS else f"{took:.1f} seconds")


def try_package(package, made=None):
    """Tries a package in a root that is made, or was made before: how much passed and failed."""
    why = lacking()
    if why:
        print(f"LEFT OUT  the package: {why}")
        return 0, 0
    with tempfile.TemporaryDirectory() as folder:
        root = Root(Path(made or f"{folder}/root"))
        if not made:
            code = re.search(r"^VERSION_CODENAME=(.*)$", Path("/etc/os-release").read_text(), re.MULTILINE)[1]
            call = ["debootstrap", "--variant=minbase", f"--include={BESIDES}", code, root.folder]
            bootstrapped = subprocess.run(call, stdin=subprocess.DEVNULL, stdout=subprocess.DEVNULL, check=False)
            root.check("a root", f"debootstrap: {bootstrapped.returncode}" if bootstrapped.returncode != 0 else "")
        if root.failed == 0:
            try_installed(root, package)
            try_clone(root)
        return root.passed, root.failed

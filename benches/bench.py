"""What the benches share: the program, the ends that need none, the line above the figures, and how one is reported."""
import os
import re
import socket
import subprocess
import sys
import time
from pathlib import Path

TOP = Path(__file__).resolve().parent.parent
# The built program, or else what the environment variable IBM1401 names.
PROGRAM = Path(os.environ.get("IBM1401", TOP / "crates/ibm1401/out/ibm1401")).absolute()
NAME = Path(sys.argv[0]).name
# This variable names the file to which each figure is added too, as a line of cells with tabs between them: what it
# is, ours, the peer's, and the ratio.
FIGURES = "IBM1401_FIGURES"
TICK = os.sysconf("SC_CLK_TCK")
# The unit of each figure that is reported, by its name.
UNITS = {}

# The tests have rooms, consoles and graphics for the benches. A bench imports them when it has been prepared.
sys.path.insert(0, str(TOP))


def prepare(page, figures):
    """Gets everything ready for a bench that reports figures of these names, each with its unit. They depend on the
    words of the command line if `figures` is a function: it raises ValueError for wrong ones. Returns the words.

    Help, a wrong word and --names, which prints what the figures are called, end the bench before anything is built.
    """
    words = sys.argv[1:]
    help_if_asked(page)
    only_names = words[-1:] == ["--names"]
    words = words[:-1] if only_names else words
    try:
        if words and not callable(figures):
            raise ValueError(f"no word belongs here: {words[0]}")
        UNITS.update(figures(words) if callable(figures) else figures)
    except ValueError as why:
        print(f"benches/{NAME}: {why}", file=sys.stderr)
        sys.exit(2)
    if only_names:
        print("".join(f"{what(name)}\n" for name in UNITS), end="")
        sys.exit()
    build()
    print(heading(), flush=True)
    return words


def help_if_asked(page):
    """Ends with this page if the command line asks for help."""
    if sys.argv[1:] in (["--help"], ["-h"]):
        print(page.strip())
        sys.exit()


def build():
    """Proves and builds the program where it isn't built, unless the environment names another."""
    if "IBM1401" not in os.environ and subprocess.run([TOP / "ibm1401", "--build"], check=False).returncode != 0:
        fail("the program isn't built")


def fail(why):
    """Ends the bench, since this went wrong."""
    sys.exit(f"benches/{NAME}: {why}")


def git(*words):
    """What git prints."""
    return subprocess.run(["git", "-C", TOP, *words], capture_output=True, text=True, check=False).stdout.strip()


def changes():
    """What differs from the commit that is checked out."""
    return git("status", "--porcelain")


def commit():
    """The commit that is checked out, and whether anything differs from it."""
    return git("rev-parse", "--short", "HEAD") + (" with changes" if changes() else "")


def heading():
    """The date, the processors and the commit."""
    names = re.findall(r"^model name\s*: (.*)$", Path("/proc/cpuinfo").read_text(), re.MULTILINE)
    processors = f"{len(names)} x {names[0]}" if names else "unknown processors"
    return f"{time.strftime('%Y-%m-%d')}, {processors}, commit {commit()}"


def what(name):
    """What a figure is called in a table."""
    return f"{name}, {UNITS[name]}"


def digits(value):
    """The digits of a figure, as many as matter."""
    if isinstance(value, int):
        return f"{value:,}"
    return f"{value:,.{0 if value >= 1000 else 1 if value >= 10 else 3}f}"


def report(name, ours, theirs=None, remark=""):
    """Reports a figure, next to the peer's if there is one, and returns the ratio then. It is above 1 where ours is
    better: more where it counts something a second, and less where it doesn't."""
    cells, ratio = [digits(ours), "", ""], None
    text = f"{name}: {cells[0]} {UNITS[name]}"
    if theirs is not None:
        ratio = ours / theirs if UNITS[name].endswith("a second") else theirs / ours
        cells[1:] = digits(theirs), f"{ratio:.2f}"
        text += f", i1401 {cells[1]}, ratio {cells[2]}"
    print(f"{text}; {remark}" if remark else text, flush=True)
    if FIGURES in os.environ:
        with open(os.environ[FIGURES], "a", encoding="ascii") as file:
            print(what(name), *cells, sep="\t", file=file)
    return ratio


def seconds(run, *arguments):
    """How long a call takes."""
    begin = time.perf_counter()
    run(*arguments)
    return time.perf_counter() - begin


def best(runs, run, *arguments):
    """The least time of so many calls, in seconds."""
    return min(seconds(run, *arguments) for _ in range(runs))


def listening(server):
    """A server that listens; the bench ends if it doesn't."""
    if server.first != server.ready.encode():
        server.kill()
        fail("the program doesn't listen")
    return server


def eager(console):
    """A console that sends each line at once, and waits for a reply as long as it takes."""
    console.settimeout(None)
    console.setsockopt(socket.IPPROTO_TCP, socket.TCP_NODELAY, 1)
    return console


def processor_time(server):
    """The seconds of processor time that a server has taken."""
    fields = Path(f"/proc/{server.process.pid}/stat").read_text().rpartition(")")[2].split()
    return (int(fields[11]) + int(fields[12])) / TICK


def threads(server):
    """How many threads a server has."""
    return len(os.listdir(f"/proc/{server.process.pid}/task"))

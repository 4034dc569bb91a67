"""What the tests share: paths, runs of the program, served rooms with their consoles and pages, and assertions.

The program is the built one, or the one that the environment variable IBM1401 names."""
import http.client
import inspect
import itertools
import os
import random
import re
import resource
import select
import shutil
import signal
import socket
import subprocess
import tempfile
import time
import unittest
from pathlib import Path

# unittest leaves the lines of this module out of a traceback.
__unittest = True

TOP = Path(__file__).resolve().parent.parent
TESTS = TOP / "tests"
EXAMPLES = TOP / "examples"
LAUNCHER = TOP / "ibm1401"
PROGRAM = Path(os.environ.get("IBM1401", TOP / "crates/ibm1401/out/ibm1401")).absolute()
# The two other programs that are tested. The environment can name them too.
LONE = Path(os.environ.get("LONE_CONSOLE", TOP / "crates/console_program/out/console_program")).absolute()
TRIALS = Path(os.environ.get("TRIALS", TOP / "crates/tests_library/out/tests_library")).absolute()

# The page that is served: what page/embed joins of the files in page/.
PAGE = subprocess.run([TOP / "page/embed", "--show"], stdout=subprocess.PIPE, check=True).stdout
MOST_BYTES = 16_777_216
# The most bytes that the file of a reel may have, and the most cards that become a reel, each a record of 88 bytes.
MOST_REEL_BYTES = 268_435_456
MOST_CARDS = (MOST_REEL_BYTES - 4) // 88
MOST_ENTRIES = 100_000
# How long a test waits for a run to end, and for one reply. Each says only that the program hangs: a host with much to
# do may take a hundred times as long as a quiet one.
SECONDS = 300
REPLY_SECONDS = 150
# How long a wait pauses before it looks again.
PAUSE = 0.02
# How many ports are tried, where somebody else has just taken one.
PORTS_TRIED = 20
# How often steps are taken that have to be done within some seconds, where the host was too slow for them.
MOST_TRIALS = 10
# A page closes a connection whose request doesn't come within a second. A request that takes no longer is heard.
IN_TIME = 0.5
# The ports that are handed out: those of the module, which the runner sets, beginning by chance.
FIRST_PORT, LAST_PORT = map(int, os.environ.get("IBM1401_PORTS", "20000 31999").split())
BEGIN_AT = random.randint(FIRST_PORT, LAST_PORT)
PORTS = itertools.cycle([*range(BEGIN_AT, LAST_PORT + 1), *range(FIRST_PORT, BEGIN_AT)])
# What a call says that lacks its file.
NO_FILE = "the following required arguments were not provided:\n  <FILE>"


def run(words, lines=b"", **how):
    """Runs a command with these bytes as its input and returns how it ended and what it wrote. A run that takes too
    long is ended with all that it has started."""
    how = {"stdout": subprocess.PIPE, "stderr": subprocess.PIPE, "stdin": subprocess.PIPE, **how}
    seconds = how.pop("timeout", SECONDS)
    given = lines if how["stdin"] == subprocess.PIPE else None
    words = [str(word) if isinstance(word, Path) else word for word in words]
    with subprocess.Popen(words, start_new_session=True, **how) as process:
        try:
            output, error = process.communicate(given, timeout=seconds)
            return subprocess.CompletedProcess(words, process.returncode, output, error)
        except subprocess.TimeoutExpired:
            output, error = end_late(process)
        return subprocess.CompletedProcess(words, f"none after {seconds} seconds", output, error)


def end_late(process):
    """Ends a process and all that it has started, and returns what it wrote."""
    for by in signal.SIGTERM, signal.SIGKILL:
        os.killpg(process.pid, by)
        try:
            return process.communicate(timeout=REPLY_SECONDS)
        except subprocess.TimeoutExpired:
            continue
    return None, None


def lacks(*commands):
    """Which of these commands this host hasn't, as a text."""
    return ", ".join(each for each in commands if shutil.which(each, path=f"{os.environ['PATH']}:/usr/sbin") is None)


def needs(*commands):
    """Leaves a test out, which says so, where this host lacks one of these commands."""
    return unittest.skipIf(lacks(*commands), f"{lacks(*commands)} isn't installed")


def program(*words, lines=b"", **how):
    """Runs the program with these words."""
    return run([PROGRAM, *words], lines, **how)


def shell(text, *words, **how):
    """Runs a line of bash in which $0 is the program and $1, $2, .. are the words."""
    return run(["bash", "-c", text, PROGRAM, *words], **how)


def at_a_port(call, many=1):
    """The run that a call of a port returns, which is the first of so many free ones in a row. Another port is tried if
    somebody else has taken this one meanwhile."""
    for _ in range(PORTS_TRIED):
        ran = call(free_ports(many))
        if ran.stderr != b"ibm1401: port refused\n":
            break
    return ran


def repository(folder):
    """Makes a repository of a folder, with one commit of all that is there but what is built, and returns the
    commit."""
    (folder / ".gitignore").write_text("out/\n__pycache__/\ndist/\n")
    git = ["git", "-C", folder, "-c", "user.name=A Museum", "-c", "user.email=desk@museum.example"]
    date = {"GIT_AUTHOR_DATE": "1700000000 +0000", "GIT_COMMITTER_DATE": "1700000000 +0000"}
    for words in ["init", "-q"], ["add", "-A"], ["commit", "-q", "-m", "All"]:
        run([*git, *words], env={**os.environ, **date})
    return run([*git, "rev-parse", "HEAD"]).stdout.decode().strip()


def wait_until(condition, seconds=SECONDS):
    """Waits until a condition holds, and returns its last value."""
    late = time.monotonic() + seconds
    while not (found := condition()) and time.monotonic() < late:
        time.sleep(PAUSE)
    return found


def difference(what, found, wanted):
    """A list that says how a text differs from the wanted one; empty if it doesn't. A wanted text that ends in '...'
    is the beginning of the text."""
    wanted = wanted.encode() if isinstance(wanted, str) else wanted
    if found is None or found == wanted or (wanted.endswith(b"...") and found.startswith(wanted[:-3])):
        return []
    return [f"{what} is {found[-300:]!r}, not {wanted[-300:]!r}"]


# What a served room reports at once if an entry of its journal isn't kept.
UNWRITTEN = "ibm1401: the journal cannot be written; no command is carried out any more\n"


def misuse(error, usage=""):
    """What the program says of a command line that it can't read, with the usage that it shows, if there is one."""
    shown = f"Usage: ibm1401 {usage}\n\n" if usage else ""
    return f"error: {error}\n\n{shown}For more information, try '--help'.\n"


def caller():
    """The file and the line of the test that called what is here."""
    frame = inspect.currentframe()
    while frame.f_code.co_filename == __file__:
        frame = frame.f_back
    return f"{Path(frame.f_code.co_filename).name}:{frame.f_lineno}"


class ProgramTest(unittest.TestCase):
    """A test of the program. Each assertion here is a subtest with a name, so that one failure doesn't hide another."""

    @property
    def folder(self):
        """A folder of the test's own, which is removed after it."""
        if not hasattr(self, "own_folder"):
            made = tempfile.TemporaryDirectory(ignore_cleanup_errors=True)
            self.addCleanup(made.cleanup)
            self.own_folder = Path(made.name).resolve()
        return self.own_folder

    @property
    def top(self):
        """A folder like the top of the repository, in which ./ibm1401 is the program, and not what builds it."""
        made = self.folder / "top"
        if not made.exists():
            made.mkdir()
            for each in TOP.iterdir():
                (made / each.name).symlink_to(PROGRAM if each == LAUNCHER else each)
        return made

    # What the subtests of a trial have found, while one is made.
    found = None

    def check(self, name, wrong):
        """A subtest that fails with what is wrong, a text or a list of texts, if anything is."""
        text = wrong and f"{caller()}: {wrong if isinstance(wrong, str) else '; '.join(map(str, wrong))}"
        if self.found is not None:
            self.found.append((name, text))
        else:
            self.report(name, text)

    def report(self, name, text):
        """A subtest that fails with this text, if there is one."""
        with self.subTest(name):
            if text:
                self.fail(text)

    def trial(self, steps, seconds):
        """The subtests of steps that are right only if they take no longer than this, or the part of them whose time
        they return: if something is wrong, and it took longer, the host was too slow, and they are taken again."""
        for _ in range(MOST_TRIALS):
            begun, self.found = time.monotonic(), []
            try:
                took = steps()
            finally:
                found, self.found = self.found, None
            if (took or time.monotonic() - begun) <= seconds or not any(text for _, text in found):
                break
        for name, text in found:
            self.report(name, text)

    def same(self, name, found, wanted):
        """A subtest: a value is the wanted one. A wanted text that ends in '...' is its beginning."""
        if isinstance(found, bytes) and isinstance(wanted, (bytes, str)):
            self.check(name, difference("it", found, wanted))
        else:
            self.check(name, "" if found == wanted else f"it is {str(found)[-300:]!r}, not {str(wanted)[-300:]!r}")

    def holds(self, name, path, wanted):
        """A subtest: a file has this text."""
        self.check(name, difference("the file", path.read_bytes() if path.exists() else b"(no file)", wanted))

    def expect(self, name, ran, status=0, output="", error=""):
        """A subtest: a run ended with this status and wrote these texts to standard output and standard error."""
        wrong = [] if ran.returncode == status else [f"status {ran.returncode}, not {status}"]
        wrong += difference("standard output", ran.stdout, output)
        wrong += difference("standard error", ran.stderr, error)
        self.check(name, wrong)

    def room(self, *call, **how):
        """A served room, as Server makes it, that ends with the test at the latest."""
        server = Server(*call, **how)
        self.addCleanup(server.kill)
        return server

    def plain_room(self, seats, *words, **how):
        """A served room that ends with its last console, and reads nothing from standard input."""
        return self.room("serve", *words, seats=seats, stdin=subprocess.DEVNULL, **how)

    def ended(self, server, name, journal, typed=b"QUIT\n", status=0, error=""):
        """A subtest: once this is typed, a served room ends with this status, this number of commands and this text."""
        self.expect(name, server.end(typed), status, f"{server.ready}JOURNAL {journal}\n", error)

    def unchanged(self, name, server, before):
        """A subtest: the machine of a room with pages is still after this many commands."""
        self.same(name, server.after(), before)

    def within(self, name, response, first, last):
        """A subtest: a response begins and ends with these bytes."""
        first, last = (part.encode() if isinstance(part, str) else part for part in (first, last))
        wrong = [] if response.startswith(first) else apart("the response", response, first)
        if not response.endswith(last):
            found = b"\r\n\r\n" + body(response) if last.startswith(b"\r\n\r\n") else response[-len(last):]
            wrong += apart("its end", found, last)
        self.check(name, wrong)

    def refused(self, name, response, wanted, text=""):
        """A subtest: a response has this version of HTTP and this status, and no other body than this text."""
        self.within(name, response, f"HTTP/{wanted} ", f"\r\n\r\n{text}")


def apart(what, found, wanted):
    """A list that says from which byte on a text differs from the wanted one."""
    same = len(os.path.commonprefix([found, wanted]))
    return [f"{what} has from byte {same} on {found[same:][:100]!r}, not {wanted[same:][:100]!r}"]


class Console(socket.socket):
    """A connection of a console to a served room."""

    def __init__(self, port, unread=None):
        super().__init__(socket.AF_INET, socket.SOCK_STREAM)
        self.settimeout(REPLY_SECONDS)
        try:
            if unread is not None:
                self.setsockopt(socket.SOL_SOCKET, socket.SO_RCVBUF, unread)
                # With short segments the other side holds less too.
                self.setsockopt(socket.IPPROTO_TCP, socket.TCP_MAXSEG, unread // 4)
            self.connect(("127.0.0.1", port))
        except OSError:
            self.close()
            raise

    def say(self, lines):
        """Sends lines, and returns as many replies as lines, or all until the connection ends."""
        wanted, replies = lines.count(b"\n"), b""
        try:
            self.sendall(lines)
            while replies.count(b"\n") < wanted:
                more = self.recv(1 << 16)
                if not more:
                    break
                replies += more
        except OSError as late:
            return replies + str(late).encode()
        return replies

    def hear(self):
        """All that is sent to the console until its connection ends."""
        replies = b""
        try:
            while more := self.recv(1 << 16):
                replies += more
        except OSError as late:
            return replies + str(late).encode()
        return replies

    def visit(self, lines):
        """Sends lines and nothing more, and returns all replies until the connection ends."""
        with self:
            try:
                self.sendall(lines)
                self.shutdown(socket.SHUT_WR)
            except OSError as late:
                return str(late).encode()
            return self.hear()


def at_most(handles):
    """How a process is started that may have this many handles of the system."""
    return {"preexec_fn": lambda: resource.setrlimit(resource.RLIMIT_NOFILE, (handles, handles))}


def a_port():
    """A free port, as a word."""
    return str(free_ports(1))


def free_ports(many):
    """The first of this many ports in a row that are free, below those that the system gives to connections. Each
    has its turn, so a client of a room that has ended doesn't find the next one."""
    while True:
        first = next(PORTS)
        ports = [first, *itertools.islice(PORTS, many - 1)]
        taken = []
        try:
            for port in range(first, first + many):
                taken.append(socket.socket())
                taken[-1].bind(("127.0.0.1", port))
            if ports[-1] == first + many - 1:
                return first
        except OSError:
            continue
        finally:
            for each in taken:
                each.close()


class Server:
    """The program serving a room: Server("serve", "--keep-seats", seats=2) or Server("resume", file, seats=2). The
    ports are free ones; `consoles=False` leaves out --port, `pages=True` adds --page, and `origin` --origin, whose
    addresses are those of `outside`, one for each seat. Standard input stays open until something is typed. What else
    is named goes to the process."""

    def __init__(self, *call, seats, consoles=True, pages=False, origin=None, outside=(), stdin=subprocess.PIPE, **how):
        self.seats, self.outside = seats, outside
        for _ in range(PORTS_TRIED):
            first = free_ports(consoles + pages * seats)
            self.port = first + pages * seats if consoles else None
            self.page = first if pages else None
            words = ["--port", self.port] * consoles + ["--page", self.page] * pages + ["--seats", seats]
            words += ["--origin", origin] if origin else []
            pipes = {"stdin": stdin, "stdout": subprocess.PIPE, "stderr": subprocess.PIPE}
            self.process = subprocess.Popen([PROGRAM, *map(str, [*call, *words])], **pipes, **how)
            self.wait_for_ready()
            if self.refusal != b"ibm1401: port refused\n":
                break

    def wait_for_ready(self):
        """Waits until the room listens, or until its output ends: then the program has, and said why."""
        seats = range(1, self.seats + 1) if self.page else ()
        also = [f" {address}/" for address in self.outside] or [""] * self.seats
        self.ready = "READY\n" + "".join(f"SEAT {seat} {self.address(seat)}/{also[seat - 1]}\n" for seat in seats)
        self.first, self.refusal = b"", b""
        while len(self.first) < len(self.ready) and select.select([self.process.stdout], [], [], SECONDS)[0]:
            more = os.read(self.process.stdout.fileno(), 4096)
            if not more:
                self.refusal = self.process.stderr.read()
                self.process.wait(SECONDS)
                break
            self.first += more

    def console(self, unread=None):
        """A connection of a console, which has the lowest free seat; it holds about so many bytes that it hasn't read."""
        return Console(self.port, unread)

    def seated(self, line):
        """A console that has a seat, with the reply to its first line: it comes again while no seat is free."""
        late = time.monotonic() + SECONDS
        while True:
            console = self.console()
            reply = console.say(line)
            if reply != b"FULL\n" or time.monotonic() > late:
                return console, reply
            console.close()
            time.sleep(PAUSE)

    def connect(self, seat=1):
        """A connection to the page of a seat, which sends nothing."""
        return Console(self.page + seat - 1)

    def type(self, lines):
        """Types lines on standard input."""
        self.process.stdin.write(lines)
        self.process.stdin.flush()

    def close_input(self):
        """Ends standard input."""
        self.process.stdin.close()
        self.process.stdin = None

    def end(self, typed=b"QUIT\n"):
        """Types this, if standard input is open, and returns how the program ended and what it wrote."""
        try:
            output, error = self.process.communicate(typed if self.process.stdin else None, timeout=SECONDS)
        except subprocess.TimeoutExpired:
            self.process.kill()
            output, error = self.process.communicate()
        words, status = self.process.args, self.process.returncode
        return subprocess.CompletedProcess(words, status, self.first + output, self.refusal + error)

    def kill(self):
        """Ends the program, if it hasn't ended, and closes what it was read from."""
        self.process.kill()
        self.process.wait()
        for pipe in self.process.stdin, self.process.stdout, self.process.stderr:
            if pipe:
                try:
                    pipe.close()
                except OSError:
                    pass

    def handles(self):
        """How many handles of the system the program has open."""
        return len(os.listdir(f"/proc/{self.process.pid}/fd"))

    def settle(self, handles):
        """Waits until the program has this many handles open and each of its threads waits for something."""
        def has_settled():
            try:
                tasks = Path(f"/proc/{self.process.pid}/task").iterdir()
                states = [(task / "stat").read_text().rpartition(")")[2].split()[0] for task in tasks]
            except OSError:
                # A thread has ended meanwhile.
                return False
            return self.handles() == handles and set(states) == {"S"}

        if not wait_until(has_settled):
            raise TimeoutError(f"the program has {self.handles()} handles, not {handles}")

    def memory(self):
        """How many kilobytes the program has in memory."""
        status_file = Path(f"/proc/{self.process.pid}/status").read_text()
        return int(re.search(r"VmRSS:\s+(\d+) kB", status_file)[1])

    def address(self, seat=1):
        """Where the page of a seat is."""
        return f"http://127.0.0.1:{self.page + seat - 1}"

    def elsewhere(self, seat=1):
        """What a request hears that is for another host than the page of a seat."""
        also = f" or {self.outside[seat - 1]}/" if self.outside else ""
        return f"this page is at {self.address(seat)}/{also}\n"

    def ask(self, seat, method="GET", path="/", text=None, fields=()):
        """A request at the page of a seat, as a library sends it: its status and its body. It is made again while
        nothing comes back: the page closes a connection whose request doesn't come within a second."""
        late = time.monotonic() + REPLY_SECONDS
        while True:
            page = http.client.HTTPConnection("127.0.0.1", self.page + seat - 1, timeout=REPLY_SECONDS)
            try:
                page.request(method, path, text, dict(fields))
                response = page.getresponse()
                return response.status, response.read()
            except (http.client.RemoteDisconnected, ConnectionResetError) as silent:
                if time.monotonic() > late:
                    return 0, repr(silent).encode()
                time.sleep(PAUSE)
            except (OSError, http.client.HTTPException) as failed:
                return 0, repr(failed).encode()
            finally:
                page.close()

    def give(self, seat, made, line):
        """A line at the page of a seat that has made this many commands: the status and the reply."""
        fields = {"Origin": self.address(seat), "X-1401-Line": str(made)}
        return self.ask(seat, "POST", "/line", line, fields)

    def get(self, seat, target, **fields):
        """The bytes of the response to a GET request of the page's own host, or of another that the fields name."""
        port = self.page + seat - 1
        return ask(port, head(f"GET {target}", {"Host": f"127.0.0.1:{port}", **fields}).encode())

    def post(self, seat, line, count, path="/line", **fields):
        """The bytes of the response to a line, sent as the page does but for these fields; None leaves one out."""
        own = {"Host": f"127.0.0.1:{self.page + seat - 1}", "Origin": self.address(seat), "X_1401_Line": count}
        own |= {**fields, "Content_Length": len(line)}
        return ask(self.page + seat - 1, f"{head(f'POST {path}', own)}{line}".encode())

    def after(self, seat=1):
        """After how many commands the machine is, as a picture says; or what came in its place."""
        response = self.get(seat, "/picture?core=0&paper=0")
        found = re.search(rb"^AFTER (\d+)$", body(response), re.M)
        return int(found[1]) if found else response[:80]

    def made(self, seat=1):
        """How many commands a seat has made, as a picture says; or what came in its place."""
        response = self.get(seat, "/picture?core=0&paper=0")
        found = re.search(rb"^SEAT \d+ OF \d+ MADE (\d+)$", body(response), re.M)
        return int(found[1]) if found else response[:80]


class Requests:
    """How many requests were made, and how many of them a page has closed without a response though they came in
    time."""

    made = 0
    silent = 0
    # Whether the last one was sent in time.
    in_time = False


def exchange(port, request):
    """All that comes back for these bytes, which are the last that are sent."""
    response, begun = b"", time.monotonic()
    Requests.in_time = False
    try:
        with socket.create_connection(("127.0.0.1", port), timeout=REPLY_SECONDS) as connection:
            try:
                connection.sendall(request)
                connection.shutdown(socket.SHUT_WR)
            except OSError:
                pass
            Requests.in_time = time.monotonic() - begun < IN_TIME
            while more := connection.recv(1 << 16):
                response += more
    except OSError as late:
        return response + f" ({late})".encode() if isinstance(late, TimeoutError) else response
    return response


def ask(port, request):
    """The response to a request. It is made again while nothing comes back: a line that was carried out all the same is
    refused then."""
    late = time.monotonic() + REPLY_SECONDS
    while True:
        Requests.made += 1
        response = exchange(port, request)
        if response or time.monotonic() > late:
            return response
        Requests.silent += Requests.in_time
        time.sleep(PAUSE)


def head(first, fields):
    """The head of a request with this first line; a field that is None isn't in it."""
    lines = [f"{name.replace('_', '-')}: {value}\r\n" for name, value in fields.items() if value is not None]
    return f"{first} HTTP/1.1\r\n{''.join(lines)}\r\n"


def status(response):
    """The status of a response, or what came in its place."""
    found = re.match(rb"HTTP/1\.[01] (\d{3}) ", response)
    return int(found[1]) if found else response[:80]


def body(response):
    """What follows a response's head."""
    return response.partition(b"\r\n\r\n")[2]


def field(response, name):
    """The value of a field of a response's head."""
    found = re.search(rf"^{name}: (.*)\r$".encode(), response.partition(b"\r\n\r\n")[0] + b"\r\n", re.I | re.M)
    return found[1].decode() if found else None

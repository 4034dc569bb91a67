"""What connections to a page can't do: keep others waiting, take its seat from the consoles, or get by on doubt."""
import multiprocessing
import select
import signal
import socket
import struct
import time
import unittest

from tests.support import MOST_TRIALS, Server, body, status, wait_until

# How long, in seconds, an answer may take at most before a test gives up; and a good one among hostile clients. On a
# quiet host it takes a hundredth of that; one client after the other would hold it up for much longer.
PATIENCE = 300
SOON = 60
# A page waits a second for each part of a request, and fifty milliseconds if others wait for its place. A request that
# takes no longer is heard, and a request that was sent at once is answered.
IN_TIME = 0.7
AT_ONCE = 0.04
# How many clients do harm at a time.
HOSTILE = 200
# When they are at work, the room has more handles open than this.
SEVERAL = 32


class Room(Server):
    """A served room with a page for each seat, and consoles, for requests of any bytes."""

    def __init__(self, seats=1):
        super().__init__("serve", seats=seats, pages=True)

    def __enter__(self):
        return self

    def __exit__(self, *_):
        self.kill()

    def request(self, first, seat=1, body="", fields=()):
        """The bytes of a request to the page of a seat; the fields come after its Host."""
        lines = [f"{first} HTTP/1.1", f"Host: 127.0.0.1:{self.page + seat - 1}", *fields]
        lines += [f"Content-Length: {len(body)}"] if body else []
        return ("\r\n".join(lines) + "\r\n\r\n" + body).encode()

    def own(self, seat=1):
        """The field that says that a request comes from the page of a seat."""
        return f"Origin: http://127.0.0.1:{self.page + seat - 1}"

    def status_of(self, target="/picture?core=0&paper=0", seat=1, fields=()):
        """The status of the answer to a GET request."""
        return status(self.answer(self.request(f"GET {target}", seat, fields=fields), seat))

    def line(self, text, made, seat=1, fields=()):
        """The answer to a console line from the page of a seat that has made this many commands."""
        fields = [self.own(seat), f"X-1401-Line: {made}", *fields]
        return self.answer(self.request("POST /line", seat, text, fields), seat)

    def answer(self, request, seat=1):
        """All that comes back for these bytes. They are sent again if they may have been late: then nothing does, or that
        too many wait."""
        while True:
            begun, found = time.monotonic(), b""
            with self.connect(seat) as connection:
                try:
                    connection.sendall(request)
                    sent = time.monotonic()
                    found = rest_of(connection)
                except BrokenPipeError:
                    sent = time.monotonic()
            if sent - begun < AT_ONCE or status(found) not in (b"", 503):
                return found

    def first_of_console(self):
        """What a new console is answered to EXAMINE 1, or b"FULL\\n" where there is no seat; then it leaves."""
        with self.console() as console:
            try:
                console.sendall(b"EXAMINE 1\nQUIT\n")
            except OSError:
                pass
            return rest_of(console)

    def quit(self):
        """Types QUIT; the status, and what was printed last."""
        output, _ = self.process.communicate(b"QUIT\n", timeout=PATIENCE)
        return self.process.returncode, output


def rest_of(connection):
    """All that comes until the connection ends."""
    found = b""
    try:
        while more := connection.recv(1 << 16):
            found += more
    except ConnectionResetError:
        pass
    return found


class Doubtful(unittest.TestCase):
    """Requests that say something twice, and heads with much in them."""

    def test_two_origins_or_two_counts_are_refused_with_400(self):
        with Room() as room:
            own, foreign = room.own(), "Origin: http://museum.example"
            for name, fields in [("our origin twice", [own, own]), ("ours first", [own, foreign]),
                                 ("ours last", [foreign, own])]:
                with self.subTest(name):
                    asked = room.request("POST /line", 1, "START 1", [*fields, "X-1401-Line: 0"])
                    self.assertEqual(status(room.answer(asked)), 400)
                    self.assertEqual(room.status_of(fields=fields), 400)
            for name, counts in [("twice the same", (0, 0)), ("ours first", (0, 1)), ("ours last", (1, 0))]:
                with self.subTest(name):
                    fields = [own, *(f"X-1401-Line: {count}" for count in counts)]
                    self.assertEqual(status(room.answer(room.request("POST /line", 1, "START 1", fields))), 400)
            self.assertEqual(body(room.line("REGS", 0))[:8], b"I=00000 ", "none of them was carried out")

    def test_cookies_of_other_servers_leave_a_page_reachable(self):
        cookies = "Cookie: " + "; ".join(f"shop{n}={'x' * 300}" for n in range(40))
        with Room() as room:
            self.assertGreater(len(cookies), 12_000)
            self.assertEqual(room.status_of("/", fields=[cookies]), 200)
            self.assertEqual(room.status_of(fields=[cookies]), 200)
            self.assertEqual(status(room.line("START 1", 0, fields=[cookies])), 200)
            self.assertEqual(room.status_of(fields=[f"Cookie: {'x' * 17_000}"]), 431)

    def test_each_response_sends_no_referrer(self):
        with Room() as room:
            asked = [room.request("GET /"), room.request("GET /picture?core=0&paper=0"), room.request("GET /none"),
                     room.request("POST /line", body="START 1"), room.request("GET /picture?core=9")]
            for request in asked:
                with self.subTest(request.split(b"\r\n")[0]):
                    self.assertIn(b"\r\nreferrer-policy: no-referrer\r\n", room.answer(request))


class Seats(unittest.TestCase):
    """What takes a page's seat from the consoles, and what doesn't."""

    def test_what_is_refused_or_only_reads_the_page_takes_no_seat(self):
        with Room() as room:
            port = room.page
            own = f"Host: 127.0.0.1:{port}\r\n"
            for name, request in [
                ("a byte", b"G"), ("no HTTP", b"EXAMINE 1\n"), ("the document", room.request("GET /")),
                ("a foreign host", b"GET / HTTP/1.1\r\nHost: museum.example\r\n\r\n"),
                ("an image of a foreign page", room.request("GET /", fields=["Sec-Fetch-Site: cross-site"])),
                ("a picture for a foreign page", room.request("GET /picture?core=0&paper=0",
                                                              fields=["Sec-Fetch-Site: same-site"])),
                ("a picture that is none", room.request("GET /picture?core=x", fields=["Sec-Fetch-Site: same-origin"])),
                ("an unknown path", room.request("GET /favicon.ico", fields=["Sec-Fetch-Site: same-origin"])),
                ("a line of nobody", f"POST /line HTTP/1.1\r\n{own}Content-Length: 7\r\n\r\nSTART 1".encode()),
                ("a line that doesn't go on",
                 room.request("POST /line", 1, "START 1", [room.own(), "X-1401-Line: 99"])),
            ]:
                with self.subTest(name):
                    with room.connect() as connection:
                        connection.sendall(request)
                        connection.shutdown(socket.SHUT_WR)
                        rest_of(connection)
                    self.assertEqual(room.first_of_console(), b" \nBYE\n", "a console has the seat")

    def test_the_first_picture_or_line_of_the_page_takes_its_seat(self):
        for name, ask in [
            ("a picture that is the page's by its browser",
             lambda room: room.status_of(fields=["Sec-Fetch-Site: same-origin"])),
            ("a picture with the page's origin", lambda room: room.status_of(fields=[room.own()])),
            ("a line", lambda room: status(room.line("START 1", 0))),
        ]:
            with self.subTest(name), Room() as room:
                self.assertEqual(ask(room), 200)
                self.assertEqual(room.first_of_console(), b"FULL\n")
                self.assertEqual(room.status_of(), 200)

    def test_a_page_that_nobody_looks_at_for_a_minute_leaves_its_seat_when_all_others_are_taken(self):
        with Room(2) as room:
            looked = time.monotonic()
            self.assertEqual(room.status_of(fields=[room.own()]), 200)
            with room.console() as second:
                second.sendall(b"EXAMINE 1\n")
                self.assertEqual(second.recv(100), b" \n")
                self.assertEqual(room.first_of_console(), b"FULL\n", "the page has its seat")
                heard = []
                while time.monotonic() < looked + 50:
                    room.status_of(fields=["Sec-Fetch-Site: cross-site"])
                    said = room.first_of_console()
                    heard += [said] if time.monotonic() < looked + 58 else []
                    time.sleep(0.5)
                self.assertEqual({*heard}, {b"FULL\n"}, "and still has for nearly a minute")
                given = wait_until(lambda: room.first_of_console() == b" \nBYE\n", PATIENCE)
                self.assertTrue(given, "a console has it after a minute")
                again = room.status_of(fields=[room.own()])
                self.assertEqual(again, 200, "and the page again when the console has left")


def harm(port, requests):
    """Connections that send one of these each, and that come again once they are answered or closed; to the end."""
    clients = []
    while True:
        while len(clients) < HOSTILE:
            try:
                client = socket.create_connection(("127.0.0.1", port), timeout=PATIENCE)
                client.sendall(requests[len(clients) % len(requests)])
                clients.append(client)
            except OSError:
                pass
        for client in select.select(clients, [], [], 1)[0]:
            try:
                client.recv(1 << 16)
            except OSError:
                pass
            client.close()
            clients.remove(client)


class Hostile(unittest.TestCase):
    """Clients that keep a page from answering others."""

    def open(self):
        """A room with a page."""
        room, self.made = Room(), 0
        self.addCleanup(room.kill)
        return room

    def good_request_is_soon_answered(self, room, name):
        """A picture, and a line, are answered soon among all others."""
        for ask in (room.status_of, lambda: status(room.line("EXAMINE 1", self.made))):
            begun = time.monotonic()
            with self.subTest(name):
                self.assertEqual(ask(), 200)
                self.assertLess(time.monotonic() - begun, SOON)
        self.made += 1

    def test_clients_that_send_nothing_or_little_or_dont_close_delay_nobody(self):
        for name in "silent", "of a byte", "of half a head", "of half a body", "that don't close":
            room = self.open()
            sent = {"silent": b"", "of a byte": b"G", "of half a head": room.request("GET /")[:20],
                    "of half a body": room.request("POST /line", 1, "START 1")[:-1],
                    "that don't close": room.request("GET /picture?core=0&paper=0")}[name]
            clients = [room.connect() for _ in range(HOSTILE)]
            for client in clients:
                try:
                    client.sendall(sent)
                except OSError:
                    pass
            self.good_request_is_soon_answered(room, name)
            for client in clients:
                client.close()
            with self.subTest(f"{name}: the end"):
                self.assertEqual(room.quit(), (0, b"JOURNAL 1\n"))

    def test_clients_that_come_again_and_again_delay_nobody(self):
        room = self.open()
        requests = [b"G", room.request("GET /"), b"\r\n", room.request("GET /picture?core=0&paper=0")]
        harmful = multiprocessing.Process(target=harm, args=(room.page, requests), daemon=True)
        harmful.start()
        try:
            wait_until(lambda: room.handles() > SEVERAL)
            for _ in range(5):
                self.good_request_is_soon_answered(room, "again and again")
        finally:
            harmful.kill()
            harmful.join()
        self.assertEqual(room.quit(), (0, b"JOURNAL 5\n"))

    def test_clients_that_take_nothing_delay_nobody(self):
        room = self.open()
        clients = []
        for _ in range(HOSTILE):
            client = socket.socket()
            client.setsockopt(socket.SOL_SOCKET, socket.SO_RCVBUF, 1)
            client.settimeout(PATIENCE)
            client.connect(("127.0.0.1", room.page))
            client.sendall(room.request("GET /"))
            clients.append(client)
        self.good_request_is_soon_answered(room, "who take nothing")
        for client in clients:
            client.close()
        self.assertEqual(room.quit(), (0, b"JOURNAL 1\n"))

    def test_each_of_many_requests_at_once_hears_an_answer(self):
        with Room() as room:
            room.line("DEPOSIT 0400 ~B400", 0)
            room.line("START 0400", 1)
            slow = room.request("POST /line", 1, "RUN 1000000", [room.own(), "X-1401-Line: 2"])
            picture = room.request("GET /picture?core=0&paper=0")
            room.process.send_signal(signal.SIGSTOP)
            clients = []
            for request in [slow, *[picture] * 100]:
                clients.append(room.connect())
                clients[-1].sendall(request)
            room.process.send_signal(signal.SIGCONT)
            answers = [status(rest_of(client)) for client in clients]
            self.assertEqual(answers[0], 200)
            wrong = [each for each in answers if each not in (200, 503)]
            self.assertEqual(wrong, [], f"{len(wrong)} of {len(answers)} were closed without a word")
            for client in clients:
                client.close()


def sent_again(connection):
    """How many packets a connection has sent again, that which opens it too: the last number of the first 104 bytes of
    what the system says of it."""
    return struct.unpack("100xI", connection.getsockopt(socket.IPPROTO_TCP, socket.TCP_INFO, 104))[0]


class Queue(unittest.TestCase):
    """Connections that the room hasn't accepted yet."""

    def test_three_hundred_connections_at_once_wait_and_none_comes_again_after_a_second(self):
        with Room() as room:
            room.process.send_signal(signal.SIGSTOP)
            waiting = [room.connect() for _ in range(300)] + [room.console() for _ in range(300)]
            again = [sent_again(connection) for connection in waiting]
            room.process.send_signal(signal.SIGCONT)
            self.assertEqual({*again}, {0}, "a connection that finds no place asks again")
            for connection in waiting:
                connection.close()
            self.assertEqual(room.status_of(), 200)
            self.assertEqual(room.quit(), (0, b"JOURNAL 0\n"))


class Stopped(unittest.TestCase):
    """A process that is stopped and goes on."""

    def test_requests_that_are_waited_for_outlive_a_stop(self):
        with Room() as room:
            for length in (0.1, 1.5):
                with self.subTest(length):
                    for _ in range(MOST_TRIALS):
                        answers, took = self.after_a_stop(room, length)
                        if took < IN_TIME or answers == [200, 200]:
                            break
                    self.assertEqual(answers, [200, 200])

    def after_a_stop(self, room, length):
        """What two requests are answered during which the room is stopped for so long, and how long they took without
        that."""
        begun = time.monotonic()
        with room.connect() as nothing, room.connect() as half:
            request = room.request("GET /picture?core=0&paper=0")
            half.sendall(request[:20])
            time.sleep(0.2)
            room.process.send_signal(signal.SIGSTOP)
            stopped = time.monotonic()
            time.sleep(length)
            stopped = time.monotonic() - stopped
            room.process.send_signal(signal.SIGCONT)
            time.sleep(0.1)
            try:
                nothing.sendall(request)
                half.sendall(request[20:])
            except OSError:
                pass
            took = time.monotonic() - begun - stopped
            return [status(rest_of(each)) for each in (nothing, half)], took

    def test_a_page_waits_a_second_for_each_part_and_no_longer(self):
        for name, sent in [("for the first byte", b""), ("for the rest", b"G")]:
            with self.subTest(name), Room() as room:
                begun = time.monotonic()
                with room.connect() as client:
                    client.sendall(sent)
                    self.assertTrue(select.select([client], [], [], PATIENCE)[0])
                took = time.monotonic() - begun
                self.assertGreater(took, 0.8)
                self.assertLess(took, SOON)


if __name__ == "__main__":
    unittest.main()

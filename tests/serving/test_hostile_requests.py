"""Requests that nobody's page sends, and requests that are damaged, at each place or by chance: no command comes of
them."""
import contextlib
import random
import re
import unittest

from tests.support import PAGE, ProgramTest, ask, exchange, status

# What a damaged request has in place of a byte.
DAMAGES = b"\0\t\n\r %&/09:;=a\xff"
# How many requests are damaged by chance, and from which seed they are made.
DAMAGED = 4_000
# How many connections have a thread at once, at most.
MOST_INSIDE = 64
SEED = 1401
# How much more memory the program may have after these requests, in kilobytes.
MORE_KILOBYTES = 4_096


def hostile_heads(port):
    """Requests that nobody's page sends: a name, the bytes, and the version and status of the answer."""
    host = f"Host: 127.0.0.1:{port}\r\n"
    return [
        ("a word", "GET", "1.1 400"),
        ("a head without its end", f"GET / HTTP/1.1\r\n{host}", "1.1 400"),
        ("no host", "GET / HTTP/1.1\r\n\r\n", "1.1 400"),
        ("two hosts", f"GET / HTTP/1.1\r\n{host}{host}\r\n", "1.1 400"),
        ("a host with a blank", "GET / HTTP/1.1\r\nHost: a b\r\n\r\n", "1.1 400"),
        ("a blank after the name of the host", f"GET / HTTP/1.1\r\nHost : 127.0.0.1:{port}\r\n\r\n", "1.1 400"),
        ("localhost", f"GET / HTTP/1.1\r\nHost: localhost:{port}\r\n\r\n", "1.1 403"),
        ("a foreign host", f"GET / HTTP/1.1\r\nHost: museum.example:{port}\r\n\r\n", "1.1 403"),
        ("a host without a port", "GET / HTTP/1.1\r\nHost: 127.0.0.1\r\n\r\n", "1.1 403"),
        ("a host with a longer port", f"GET / HTTP/1.1\r\nHost: 127.0.0.1:{port}1\r\n\r\n", "1.1 403"),
        ("HTTP/1.0 without a host", "GET / HTTP/1.0\r\n\r\n", "1.0 403"),
        ("HTTP/0.9", "GET /\r\n\r\n", "1.1 400"),
        ("HTTP/2's preface", "PRI * HTTP/2.0\r\n\r\nSM\r\n\r\n", "1.1 400"),
        ("a hello of TLS", "\x16\x03\x01\x02\x00\x01\x00\x01\xfc\x03\x03", "1.1 400"),
        ("the beginning of one", "\x16\x03\x01\x02\x00\x01\x00\x01", "1.1 400"),
        ("a target with a host", f"GET http://127.0.0.1:{port}/ HTTP/1.1\r\n{host}\r\n", "1.1 403"),
        ("a target with a foreign host", f"GET http://museum.example/ HTTP/1.1\r\n{host}\r\n", "1.1 403"),
        ("CONNECT", f"CONNECT 127.0.0.1:1401 HTTP/1.1\r\n{host}\r\n", "1.1 403"),
        ("TRACE", f"TRACE / HTTP/1.1\r\n{host}\r\n", "1.1 405"),
        ("OPTIONS of a line, without an origin", f"OPTIONS /line HTTP/1.1\r\n{host}\r\n", "1.1 405"),
        ("OPTIONS of all", f"OPTIONS * HTTP/1.1\r\n{host}\r\n", "1.1 404"),
        ("GET of a line, without an origin", f"GET /line HTTP/1.1\r\n{host}\r\n", "1.1 405"),
        ("POST of a picture", f"POST /picture HTTP/1.1\r\n{host}Content-Length: 0\r\n\r\n", "1.1 405"),
        ("HEAD of the page", f"HEAD / HTTP/1.1\r\n{host}\r\n", "1.1 405"),
        ("a method in small letters", f"get / HTTP/1.1\r\n{host}\r\n", "1.1 405"),
        ("an unknown path", f"GET /favicon.ico HTTP/1.1\r\n{host}\r\n", "1.1 404"),
        ("a path upwards", f"GET /../line HTTP/1.1\r\n{host}\r\n", "1.1 404"),
        ("a path of two slashes", f"GET //line HTTP/1.1\r\n{host}\r\n", "1.1 404"),
        ("a path with a NUL", f"GET /\x00 HTTP/1.1\r\n{host}\r\n", "1.1 400"),
        ("a bare line feed", f"GET / HTTP/1.1\n{host}\n", "1.1 400"),
        ("bare line feeds alone", f"GET / HTTP/1.1\nHost: 127.0.0.1:{port}\n\n", "1.1 400"),
        ("a folded field", f"GET / HTTP/1.1\r\n{host}X-A: 1\r\n 2\r\n\r\n", "1.1 400"),
    ]


def hostile_lines(port):
    """The same of lines by another method, or whose length or body is wrong. Each would be the seat's first command."""
    own = f"Host: 127.0.0.1:{port}\r\nOrigin: http://127.0.0.1:{port}\r\nX-1401-Line: 0\r\n"
    line, chunks = f"POST /line HTTP/1.1\r\n{own}", "4\r\nREGS\r\n0\r\n\r\n"
    return [
        ("POST of the page", f"POST / HTTP/1.1\r\n{own}Content-Length: 0\r\n\r\n", "1.1 405"),
        ("PUT of a line", f"PUT /line HTTP/1.1\r\n{own}Content-Length: 7\r\n\r\nSTART 1", "1.1 405"),
        ("GET of a line", f"GET /line HTTP/1.1\r\n{own}\r\n", "1.1 405"),
        ("OPTIONS of a line", f"OPTIONS /line HTTP/1.1\r\n{own}\r\n", "1.1 405"),
        ("a blank before the colon", f"{line}Content-Length : 7\r\n\r\nSTART 1", "1.1 400"),
        ("a body that is cut short", f"{line}Content-Length: 8\r\n\r\nREGS", "1.1 400"),
        ("two framings", f"{line}Content-Length: 4\r\nTransfer-Encoding: chunked\r\n\r\n{chunks}", "1.1 400"),
        ("two origins", f"{line}Origin: http://127.0.0.1:{port}\r\nContent-Length: 4\r\n\r\nREGS", "1.1 400"),
        ("two counts", f"{line}X-1401-Line: 0\r\nContent-Length: 4\r\n\r\nREGS", "1.1 400"),
        ("two lengths", f"{line}Content-Length: 4\r\nContent-Length: 5\r\n\r\nREGS", "1.1 400"),
        ("a length with a sign", f"{line}Content-Length: +4\r\n\r\nREGS", "1.1 400"),
        ("a length of 10 to the 30", f"{line}Content-Length: 1{'0' * 30}\r\n\r\nREGS", "1.1 400"),
        ("a length of 10 to the 18", f"{line}Content-Length: 1{'0' * 18}\r\n\r\nREGS", "1.1 413"),
        ("a length of 16,385", f"{line}Content-Length: 16385\r\n\r\nREGS", "1.1 413"),
        ("a chunk without a length", f"{line}Transfer-Encoding: chunked\r\n\r\nx{chunks[1:]}", "1.1 400"),
        ("another coding", f"{line}Transfer-Encoding: gzip, chunked\r\n\r\n{chunks}", "1.1 501"),
    ]


def large_heads(port):
    """The same of heads with too many fields, or too long ones."""
    host = f"Host: 127.0.0.1:{port}\r\n"
    many, alike = "".join(f"X-{n}: 1\r\n" for n in range(70)), 70 * "X-Field: 1\r\n"
    return [
        ("70 fields", f"GET / HTTP/1.1\r\n{host}{many}\r\n", "1.1 431"),
        ("70 fields of one name", f"GET / HTTP/1.1\r\n{host}{alike}\r\n", "1.1 431"),
        ("a field of 17,000 bytes", f"GET / HTTP/1.1\r\n{host}X-A: {17_000 * 'a'}\r\n\r\n", "1.1 431"),
        ("a target of 17,000 bytes", f"GET /{17_000 * 'a'} HTTP/1.1\r\n{host}\r\n", "1.1 414"),
    ]


def damaged_at(request):
    """A request that is cut off, or has another byte, at each of its places."""
    for place in range(len(request)):
        yield request[:place]
        for damage in DAMAGES:
            yield request[:place] + bytes([damage]) + request[place + 1:]


def is_answered(request, response):
    """Whether a request is answered as HTTP; or not at all, if it has no byte."""
    return response.startswith(b"HTTP/1.") if request else not response


def damaged(chance, request):
    """A request with one to four bytes changed, left out, doubled or put in, or cut short."""
    octets = bytearray(request)
    for _ in range(chance.randint(1, 4)):
        at = chance.randrange(len(octets)) if octets else 0
        kind = chance.randrange(5)
        if kind == 0 and octets:
            octets[at] = chance.randrange(256)
        elif kind == 1 and octets:
            del octets[at]
        elif kind == 2:
            octets.insert(at, chance.randrange(256))
        elif kind == 3:
            octets[at:at] = octets[at:at + chance.randint(1, 40)]
        else:
            del octets[at:]
    return bytes(octets)


class Hostile(ProgramTest):
    """Each request is refused as it should be at a new machine's page, and none is a command."""

    def pages(self, seats):
        """A room with a page for each seat."""
        return self.room("serve", seats=seats, pages=True, consoles=False)

    def test_hostile_requests(self):
        room = self.pages(3)
        port = room.page + 1
        self.same("a request of no byte", exchange(port, b""), b"")
        for name, request, refused in [*hostile_heads(port), *hostile_lines(port), *large_heads(port)]:
            text = room.elsewhere(2) if refused.endswith("403") else ""
            self.refused(name, ask(port, request.encode("latin-1")), refused, text)
        self.same("none of them is a command", room.made(2), 0)
        self.ended(room, "the room", 0)

    def test_a_picture_damaged_at_each_place(self):
        self.hold_damaged("GET /picture?core=0400&paper=0&after=187 HTTP/1.1", "Accept: text/plain", "", "")

    def test_a_line_damaged_at_each_place(self):
        """Its number isn't the seat's, and no damage of one byte makes it so."""
        self.hold_damaged("POST /line HTTP/1.1", "X-1401-Line: 187", "Content-Length: 10", "", "START 0500")

    def hold_damaged(self, first, *rest):
        """Subtests: a request with these lines, damaged at each place, is answered as HTTP; no command comes of it, and
        the page is served after that."""
        room = self.pages(3)
        port = room.page + 1
        lines = [first, f"Host: 127.0.0.1:{port}", f"Origin: http://127.0.0.1:{port}", *rest]
        requests = list(damaged_at("\r\n".join(lines).encode()))
        answers = [ask(port, each) if each else exchange(port, each) for each in requests]
        wrong = [f"{each!r}: {found[:80]!r}" for each, found in zip(requests, answers) if not is_answered(each, found)]
        self.check(f"each of {len(requests)} is answered", wrong[:5])
        self.within("the page after them", room.get(2, "/"), "HTTP/1.1 200 ", PAGE)
        self.same("and no command of theirs", room.made(2), 0)
        self.ended(room, "the room", 0)

    def test_damaged_by_chance(self):
        """The machine, the server and its memory stay. A request that names the seat's count is left out: the port's
        last digits can come to be there, and then it is as good as the page's own."""
        room, chance, found = self.pages(2), random.Random(SEED), {}
        room.post(1, "START 2", 0)
        before, whole = room.after(), requests_to(room.page)
        # As many threads as there may be have their memory before it is measured: on a host with much to do several
        # requests are under way at once.
        for request in whole:
            connections = [room.connect() for _ in range(MOST_INSIDE)]
            for connection in connections:
                with contextlib.suppress(OSError):
                    connection.sendall(request.encode())
            for connection in connections:
                connection.hear()
                connection.close()
        memory = room.memory()
        good = re.compile(rb"\r\nX-1401-Line:[ \t]*0*%d[ \t]*\r\n" % room.made(), re.IGNORECASE)
        for turn in range(DAMAGED):
            request = damaged(chance, whole[turn % len(whole)].encode())
            if not good.search(request):
                reply = exchange(room.page, request)
                kind = status(reply) if reply else 0
                found[kind] = found.get(kind, 0) + 1
        known = {0, 200, 204, 400, 403, 404, 405, 409, 413, 414, 431, 501, 505}
        self.same("answers of other kinds", [kind for kind in found if kind not in known], [])
        self.unchanged("they leave the machine as it was", room, before)
        more = room.memory() - memory
        self.check("and the program's memory", "" if more <= MORE_KILOBYTES else f"{more} kilobytes more")
        self.ended(room, "the room", before)


def requests_to(port):
    """A request of each route, with a number that isn't the seat's, the last one in chunks."""
    own = f"Host: 127.0.0.1:{port}\r\nOrigin: http://127.0.0.1:{port}\r\nX-1401-Line: 777777\r\n"
    return [f"GET / HTTP/1.1\r\n{own}\r\n", f"GET /picture?core=0400&paper=0&after=7 HTTP/1.1\r\n{own}\r\n",
            f"POST /line HTTP/1.1\r\n{own}Content-Length: 10\r\n\r\nSTART 0400",
            f"POST /line HTTP/1.1\r\n{own}Transfer-Encoding: chunked\r\n\r\n5\r\nSTART\r\n5\r\n 0400\r\n0\r\n\r\n"]


if __name__ == "__main__":
    unittest.main()

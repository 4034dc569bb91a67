"""Pages that a proxy brings to others: which hosts and origins a room takes for its own, and which options it refuses."""
import unittest

from tests.support import PAGE, ProgramTest, body, misuse, program, status

NAME = "1401.museum.example"
OUTSIDE = f"https://{NAME}:8443"
PICTURE = "/picture?core=0&paper=0"
USAGE = "serve [OPTIONS] --seats <K> <--port <P>|--page <PORT>>"
RESUME_USAGE = "resume [OPTIONS] <FILE>"
SCHEME = "it has to begin with http:// or https://"
MORE = "nothing may come after the host and the port, not even a /"
HOST = "its host has to be a name, an IPv4 address, or an IPv6 address in brackets, as browsers write it"
PORT = "its port has to be 1 to 65535"

# An origin that is named, and where the pages of two seats then are: the Host and the Origin of each.
NAMED = (
    (OUTSIDE, (f"{NAME}:8443", OUTSIDE), (f"{NAME}:8444", f"https://{NAME}:8444")),
    (f"https://{NAME}", (NAME, f"https://{NAME}"), (f"{NAME}:444", f"https://{NAME}:444")),
    (f"https://{NAME}:443", (NAME, f"https://{NAME}"), (f"{NAME}:444", f"https://{NAME}:444")),
    (f"http://{NAME}", (NAME, f"http://{NAME}"), (f"{NAME}:81", f"http://{NAME}:81")),
    (f"http://{NAME}:79", (f"{NAME}:79", f"http://{NAME}:79"), (NAME, f"http://{NAME}")),
    (f"https://{NAME}:442", (f"{NAME}:442", f"https://{NAME}:442"), (NAME, f"https://{NAME}")),
    ("https://the-museum:8443", ("the-museum:8443", "https://the-museum:8443"),
     ("the-museum:8444", "https://the-museum:8444")),
    ("HTTPS://1401.Museum.EXAMPLE:8443", (f"{NAME}:8443", OUTSIDE), (f"{NAME}:8444", f"https://{NAME}:8444")),
    ("http://192.0.2.14:65534", ("192.0.2.14:65534", "http://192.0.2.14:65534"),
     ("192.0.2.14:65535", "http://192.0.2.14:65535")),
    ("https://[2001:DB8::14]:8443", ("[2001:db8::14]:8443", "https://[2001:db8::14]:8443"),
     ("[2001:db8::14]:8444", "https://[2001:db8::14]:8444")),
    ("https://[::1]", ("[::1]", "https://[::1]"), ("[::1]:444", "https://[::1]:444")),
    ("http://127.0.0.1:1", ("127.0.0.1:1", "http://127.0.0.1:1"), ("127.0.0.1:2", "http://127.0.0.1:2")),
)

# A word after --origin, and why it is refused.
REFUSED = (
    ("", SCHEME), (NAME, SCHEME), (f"//{NAME}", SCHEME), (f"ftp://{NAME}", SCHEME), ("https:", SCHEME),
    (f"https:/{NAME}", SCHEME), (f" https://{NAME}", SCHEME), (f"wss://{NAME}", SCHEME),
    (f"{OUTSIDE}/", MORE), (f"{OUTSIDE}/seat", MORE), (f"{OUTSIDE}?seat=1", MORE), (f"{OUTSIDE}#seat", MORE),
    (f"https://desk@{NAME}", MORE), ("https:///", MORE),
    ("https://", HOST), ("https://:8443", HOST), (f"https://{NAME}.", HOST), ("https://.example", HOST),
    ("https://museum..example", HOST), ("https://museum_1401.example", HOST), ("https://museum example", HOST),
    ("https://m\u00fcseum.example", HOST), ("https://*.museum.example", HOST), ("https://1401", HOST),
    ("https://museum.1401", HOST), ("https://192.0.2", HOST), ("https://192.0.2.256", HOST),
    ("https://192.0.2.014", HOST), ("https://2001:db8::14", HOST), ("https://[2001:db8::14", HOST),
    ("https://2001:db8::14]", HOST), ("https://[2001:db8:0:0::14]", HOST), ("https://[2001:0db8::14]", HOST),
    ("https://[::192.0.2.14]", HOST), ("https://[]", HOST), ("https://[::1%25eth0]", HOST), ("https://[::1]8443", HOST),
    ("https://[museum]", HOST), (f"https://{'m' * 64}.example", HOST), (f"https://{'m.' * 126}mm", HOST),
    (f"https://{NAME}:", PORT), (f"https://{NAME}:0", PORT), (f"https://{NAME}:65536", PORT),
    (f"https://{NAME}:08443", PORT), (f"https://{NAME}:+8443", PORT), (f"https://{NAME}:-1", PORT),
    (f"https://{NAME}:x", PORT), (f"https://{NAME}:84 43", PORT), (f"https://{NAME}:8443:8443", PORT),
    (f"https://{NAME}:99999999999999999999", PORT), ("https://[::1]:", PORT),
)


class Outside(ProgramTest):
    """A room of two pages that a proxy brings to others."""

    def pages(self, *names, origin=OUTSIDE, **how):
        """The room: its outside origins are these, if they aren't those of OUTSIDE."""
        outside = names or (OUTSIDE, f"https://{NAME}:8444")
        return self.room("serve", seats=2, pages=True, origin=origin, outside=outside, **{"consoles": False, **how})

    def test_each_way_to_name_an_origin(self):
        for origin, *seats in NAMED:
            room = self.pages(*(own for _, own in seats), origin=origin)
            for seat, (host, own) in enumerate(seats, 1):
                name = f"{origin}, seat {seat}"
                self.same(f"{name}: the page", body(room.get(seat, "/", Host=host)), PAGE)
                line = room.post(seat, "START 1", 0, Host=host, Origin=own)
                self.within(f"{name}: a line", line, "HTTP/1.1 200 ", "\r\n\r\nOK\n")
                (other_host, other), = seats[:seat - 1] + seats[seat:]
                for what, fields in [("the other seat's host", {"Host": other_host, "Origin": own}),
                                     ("the other seat's origin", {"Host": host, "Origin": other}),
                                     ("the other seat's", {"Host": other_host, "Origin": other})]:
                    text = "" if fields["Host"] == host else room.elsewhere(seat)
                    self.refused(f"{name}: {what}", room.post(seat, "START 1", 1, **fields), "1.1 403", text)
            self.ended(room, f"{origin}: the room", 2)

    def test_lines(self):
        """Host and Origin name the page here, or both outside."""
        room = self.pages()
        here, address = f"127.0.0.1:{room.page}", room.address()
        own = f"{NAME}:8443"
        made = 0
        for host, origin, wanted in [
            (own, OUTSIDE, 200), (here, address, 200),
            (here, OUTSIDE, 403), (own, address, 403),
            (own, f"https://{NAME}:8444", 403), (f"{NAME}:8444", OUTSIDE, 403),
            (own, room.address(2), 403), (own, f"http://{NAME}:8443", 403), (own, f"https://{NAME}", 403),
            (own, f"{OUTSIDE}/", 403), (own, f"{OUTSIDE}0", 403), (own, f"https://a{NAME}:8443", 403),
            (own, f"https://{NAME}.:8443", 403), (own, OUTSIDE.upper(), 403), (own, "null", 403), (own, None, 403),
            (own, f"{OUTSIDE} {OUTSIDE}", 403), (own, "https://other.example:8443", 403),
            (own, f"https://{NAME}:{room.page}", 403),
            (NAME, OUTSIDE, 403), (own.upper(), OUTSIDE, 403), (f"{NAME}:{room.page}", OUTSIDE, 403),
            (f"{NAME}.:8443", OUTSIDE, 403), ("other.example:8443", OUTSIDE, 403), (OUTSIDE, OUTSIDE, 400),
            (own, OUTSIDE, 200),
        ]:
            name = f"for {host}, from {origin}"
            self.same(name, status(room.post(1, "START 1", made, Host=host, Origin=origin)), wanted)
            made += wanted == 200
            self.same(f"{name}: the commands", room.made(), made)
        self.ended(room, "the room", made)

    def test_two_origins(self):
        """They are refused as without --origin, also if one is here and one outside."""
        room = self.pages()
        twice = f"{OUTSIDE}\r\nOrigin: {room.address()}"
        self.refused("here and outside", room.post(1, "START 1", 0, Host=f"{NAME}:8443", Origin=twice), "1.1 400")
        self.ended(room, "the room", 0)

    def test_pictures(self):
        room = self.pages()
        for host, wanted in [(f"{NAME}:8443", 200), (f"127.0.0.1:{room.page}", 200), (f"{NAME}:8444", 403),
                             (NAME, 403), ("other.example:8443", 403), (f"localhost:{room.page}", 403)]:
            self.same(f"for {host}", status(room.get(1, PICTURE, Host=host)), wanted)
        target = room.get(1, f"{OUTSIDE}{PICTURE}", Host=f"{NAME}:8443")
        self.refused("a target with a host of its own", target, "1.1 403", room.elsewhere())
        self.ended(room, "the room", 0)

    def test_which_pictures_take_the_seat(self):
        """Those of the page outside, by its Origin with its Host, or by the browser that sends them."""
        own = {"Host": f"{NAME}:8443", "Origin": OUTSIDE}
        for name, fields, takes in [
            ("outside", own, True),
            ("by the browser", {"Host": own["Host"], "Sec-Fetch-Site": "same-origin"}, True),
            ("without an origin", {"Host": own["Host"]}, False),
            ("here, with the origin outside", {"Origin": OUTSIDE}, False),
            ("another seat's origin", {**own, "Origin": f"https://{NAME}:8444"}, False),
            ("another page's", {**own, "Sec-Fetch-Site": "same-site", "Origin": "https://other.example"}, False),
        ]:
            room = self.pages(consoles=True)
            self.same(f"{name}: it is shown", status(room.get(1, PICTURE, **fields)), 200)
            self.same(f"{name}: seat 2", status(room.get(2, PICTURE, Origin=room.address(2))), 200)
            with room.console() as console:
                reply = console.say(b"EXAMINE 1\n")
            self.same(f"{name}: a console", reply, b"FULL\n" if takes else b" \n")
            self.ended(room, f"{name}: the room", int(not takes))

    def test_a_room_that_goes_on(self):
        kept = self.folder / "kept.journal"
        how = {"seats": 2, "consoles": False, "pages": True, "origin": OUTSIDE, "outside": (OUTSIDE, OUTSIDE[:-1] + "4")}
        begun = self.room("serve", "--journal", kept, **how)
        line = begun.post(2, "START 1", 0, Host=f"{NAME}:8444", Origin=f"https://{NAME}:8444")
        self.same("a line", status(line), 200)
        self.ended(begun, "the first room", 1)
        room = self.room("resume", kept, **how)
        line = room.post(2, "START 1", 1, Host=f"{NAME}:8444", Origin=f"https://{NAME}:8444")
        self.same("the next line", status(line), 200)
        self.ended(room, "the room that goes on", 2)


class Refused(ProgramTest):
    """Words that are refused before anything is opened."""

    def refused_by_both(self, name, error, *words):
        """Subtests: serve and resume are refused with these words; neither makes or changes a file."""
        old, new = self.folder / "old.journal", self.folder / "new.journal"
        old.write_bytes(b"JOURNAL1 4000\n")
        ran = program("serve", *words, "--journal", new)
        self.expect(f"{name}: serve", ran, 2, "", misuse(error, USAGE))
        ran = program("resume", *words, old)
        self.expect(f"{name}: resume", ran, 2, "", misuse(error, RESUME_USAGE))
        self.check(f"{name}: no file is made", "it is there" if new.exists() else "")
        self.holds(f"{name}: the journal", old, b"JOURNAL1 4000\n")

    def test_words(self):
        for word, why in REFUSED:
            error = f"invalid value '{word}' for '--origin <ORIGIN>': {why}"
            self.refused_by_both(repr(word), error, "--seats", "2", "--page", "8080", "--origin", word)

    def test_ports_beyond_the_last(self):
        error = "the pages of all seats need ports of --origin beyond 65535"
        for seats, port in (2, 65535), (8, 65529):
            words = ["--seats", str(seats), "--page", "8080", "--origin", f"https://{NAME}:{port}"]
            self.refused_by_both(f"{seats} seats from {port} on", error, *words)

    def test_ports_of_the_pages_themselves(self):
        error = "--origin names ports of 127.0.0.1 at which the pages already are"
        for port in 8079, 8080, 8081:
            words = ["--seats", "2", "--page", "8080", "--origin", f"http://127.0.0.1:{port}"]
            self.refused_by_both(str(port), error, *words)

    def test_without_a_page(self):
        page, ports = "--page <PORT>", "--seats <K>\n  <--port <P>|--page <PORT>>"
        for name, words, missing in [
            ("serve", "serve --port 1401 --seats 2", page),
            ("serve that keeps seats", "serve --port 1401 --seats 2 --keep-seats", page),
            ("resume", "resume a.journal --port 1401 --seats 2", page),
            ("resume at a console", "resume a.journal", ports),
        ]:
            error = f"error: the following required arguments were not provided:\n  {missing}\n\n..."
            self.expect(name, program(*words.split(), "--origin", OUTSIDE), 2, "", error)

    def test_twice(self):
        words = ["serve", "--seats", "1", "--page", "8080", "--origin", OUTSIDE, "--origin", OUTSIDE]
        error = "error: the argument '--origin <ORIGIN>' cannot be used multiple times..."
        self.expect("serve", program(*words), 2, "", error)

    def test_the_first_of_two_faults(self):
        for name, page, origin, error in [
            ("the origin's form", "65535", "museum", f"invalid value 'museum' for '--origin <ORIGIN>': {SCHEME}"),
            ("the ports here", "65535", f"https://{NAME}:65535", "the pages of all seats need ports beyond 65535"),
            ("port 80", "79", f"https://{NAME}:65535",
             "no page can be at port 80, which browsers leave out of what they send"),
        ]:
            ran = program("serve", "--seats", "2", "--page", page, "--origin", origin)
            self.expect(name, ran, 2, "", misuse(error, USAGE))


if __name__ == "__main__":
    unittest.main()

"""Pages on a network: the real nginx with examples/nginx.conf, over TLS with a certificate made on the spot; and a
second host, which is a namespace of the network."""
import base64
import hashlib
import os
import re
import shutil
import subprocess
import unittest

from tests.chromium import Chromium, Page
from tests.support import (EXAMPLES, PAGE, PORTS_TRIED, REPLY_SECONDS, ProgramTest, field, free_ports, run, status,
                           wait_until)

NAME = "1401.museum.example"
SEATS = 8
PASSWORD = "punched card"
# The addresses of the two ends of the cable, of those that are set aside for tests of networks: others for each process.
SUBNET = os.getpid() % (1 << 15) * 4
HERE, THERE = (f"198.{18 + (SUBNET >> 16)}.{SUBNET >> 8 & 255}.{(SUBNET & 255) + end}" for end in (1, 2))
# How long curl may take.
LONG = str(REPLY_SECONDS)


def command(name):
    """Where a command is, also one for the system's administrator."""
    return shutil.which(name, path=f"{os.environ['PATH']}:/usr/sbin:/sbin")


def second_host():
    """Whether a second host can be made here: its name, if it can."""
    if os.geteuid() != 0 or not command("ip"):
        return None
    name = f"ibm{os.getpid()}"
    cable = [f"{name}a", f"{name}b"]
    for words in (f"netns add {name}", f"link add {cable[0]} type veth peer name {cable[1]} netns {name}",
                  f"addr add {HERE}/30 dev {cable[0]}", f"link set {cable[0]} up",
                  f"-n {name} addr add {THERE}/30 dev {cable[1]}", f"-n {name} link set {cable[1]} up",
                  f"-n {name} link set lo up"):
        if run([command("ip"), *words.split()]).returncode != 0:
            part(name)
            return None
    return name


def part(name):
    """Takes a second host away. A cable is gone at once if it is taken away itself, and not with its host."""
    run([command("ip"), "link", "del", f"{name}a"])
    run([command("ip"), "netns", "del", name])


@unittest.skipIf(not command("nginx") or not command("openssl") or not command("curl"),
                 "there is no nginx, no openssl or no curl")
class Proxied(ProgramTest):
    """A room of eight pages, and nginx in front of it."""

    def setUp(self):
        self.make_certificate()
        self.make_password()
        for _ in range(PORTS_TRIED):
            self.first = free_ports(SEATS)
            self.served = self.room("serve", seats=SEATS, pages=True, consoles=False, origin=self.outside(),
                                    outside=[self.outside(seat) for seat in range(1, SEATS + 1)])
            (self.folder / "nginx.conf").write_text(self.configuration())
            self.start_nginx()
            answers = wait_until(lambda: self.nginx.poll() is not None or self.fetch(1, "/")[0] == 200)
            said = (self.folder / "error.log").read_text()
            # Somebody else may have taken a port meanwhile.
            if self.nginx.poll() is None or "Address already in use" not in said:
                break
        self.assertTrue(answers and self.nginx.poll() is None, said)

    def start_nginx(self):
        """Starts nginx, which ends with the test at the latest."""
        log, configuration = self.folder / "error.log", self.folder / "nginx.conf"
        log.unlink(missing_ok=True)
        call = [command("nginx"), "-p", self.folder, "-e", log, "-c", configuration]
        self.nginx = subprocess.Popen(call, stdin=subprocess.DEVNULL)
        self.addCleanup(self.nginx.wait, REPLY_SECONDS)
        self.addCleanup(self.nginx.terminate)

    def make_certificate(self):
        """A key and a certificate for the outside name, signed by nobody else."""
        made = run(["openssl", "req", "-x509", "-newkey", "rsa:2048", "-nodes", "-days", "2", "-subj", f"/CN={NAME}",
                    "-addext", f"subjectAltName=DNS:{NAME}", "-keyout", self.folder / "ibm1401.key",
                    "-out", self.folder / "ibm1401.crt"])
        self.assertEqual(made.returncode, 0, made.stderr)

    def make_password(self):
        """The file of passwords, as docs/SERVING.md makes it."""
        made = run(["openssl", "passwd", "-6", PASSWORD]).stdout.decode().strip()
        (self.folder / "ibm1401.passwords").write_text(f"class:{made}\n")

    # How many requests of one address nginx lets through.
    rate = "50r/s"

    def configuration(self):
        """The example, with the ports and the files of this test, in the least that nginx needs around it. It waits
        longer for a host with much to do."""
        text = (EXAMPLES / "nginx.conf").read_text().replace("/etc/nginx/", f"{self.folder}/")
        self.assertEqual((text.count(f"rate={Proxied.rate};"), text.count(" 10s;")), (1, 3))
        text = text.replace(f"rate={Proxied.rate};", f"rate={self.rate};").replace(" 10s;", f" {LONG}s;")
        for seat in range(SEATS):
            text = re.sub(rf"\b{8443 + seat}\b", str(self.first + seat), text)
            text = re.sub(rf"\b{8080 + seat};", f"{self.served.page + seat};", text)
        user = "user root;" if os.geteuid() == 0 else ""
        places = "".join(f"{name}_temp_path {self.folder}/{name};\n"
                         for name in ("client_body", "proxy", "fastcgi", "uwsgi", "scgi"))
        return (f"{user} daemon off; worker_processes 1; pid {self.folder}/nginx.pid;\nevents {{ }}\n"
                f"http {{ access_log off;\n{places}{text}}}\n")

    def outside(self, seat=1, name=NAME):
        """What a seat's page is called from outside."""
        return f"https://{name}:{self.first + seat - 1}"

    def fetch(self, seat, path, *words, to="127.0.0.1", name=NAME, user=f"class:{PASSWORD}", host=()):
        """The status and the body of a request by the outside name, made by curl, which checks the certificate."""
        port = self.first + seat - 1
        login = ["-u", user] if user else []
        ran = run([*host, "curl", "-s", "--cacert", self.folder / "ibm1401.crt", "--max-time", LONG, "--resolve",
                   f"{name}:{port}:{to}", *login, "-w", "\n%{http_code}", *words, f"{self.outside(seat, name)}{path}"])
        text, _, code = ran.stdout.rpartition(b"\n")
        return int(code or 0), text

    def post(self, seat, line, origin, count=0, **how):
        """The same of a line that says it comes from there."""
        fields = [word for text in (f"Origin: {origin}" if origin else None, f"X-1401-Line: {count}") if text
                  for word in ("-H", text)]
        return self.fetch(seat, "/line", *fields, "--data-binary", line, **how)

    def machine_is(self, name, count):
        """A subtest: so many commands were carried out, by whatever seat."""
        self.same(name, self.served.after(), count)


class Network(Proxied):
    """Requests by the outside name, and from a second host."""

    def test_a_page_and_a_line_by_the_outside_name(self):
        self.same("the page", self.fetch(1, "/"), (200, PAGE))
        for seat in range(1, SEATS + 1):
            answered = self.post(seat, f"DEPOSIT 050{seat} ~K", self.outside(seat))
            self.same(f"a line of seat {seat}", answered, (200, b"OK\n"))
        code, picture = self.fetch(8, "/picture?core=0400&paper=0")
        self.same("a picture of seat 8", (code, picture.splitlines()[:2]), (200, [b"SEAT 8 OF 8 MADE 1", b"AFTER 8"]))

    def test_a_wrong_password(self):
        for name, user in ("none", None), ("a wrong one", "class:card"), ("a wrong name", f"clas:{PASSWORD}"):
            code, text = self.fetch(1, "/", user=user)
            self.same(name, (code, PAGE in text), (401, False))
            self.same(f"{name}, with a line", self.post(1, "RUN 1", self.outside(), user=user)[0], 401)
        self.machine_is("nothing was carried out", 0)

    def test_a_foreign_origin(self):
        port = self.first
        for origin in ("https://other.example", f"https://other.example:{port}", f"http://{NAME}:{port}", "null",
                       f"https://{NAME}", f"https://{NAME}:{port}0", f"https://{NAME}:{port}/", self.outside(2),
                       f"https://a{NAME}:{port}", f"https://{NAME.replace('.', 'x')}:{port}", self.served.address(),
                       f"{self.outside()} {self.outside()}", None):
            self.same(f"{origin}", self.post(1, "DEPOSIT 0500 ~K", origin)[0], 403)
        self.machine_is("nothing was carried out", 0)
        self.same("its own", self.post(1, "DEPOSIT 0500 ~K", self.outside()), (200, b"OK\n"))

    def test_another_name(self):
        """The room refuses it, and a line for another seat, or for the loopback from outside."""
        self.same("another host", self.fetch(1, "/", "-k", name="other.example")[0], 403)
        here = f"127.0.0.1:{self.served.page}"
        for host in (f"other.example:{self.first}", f"{NAME}:{self.first + 1}", NAME, f"{NAME}:{self.served.page}",
                     f"localhost:{self.served.page}", f"127.0.0.1:{self.first}", here):
            if host != here:
                self.same(host, self.fetch(1, "/", "-H", f"Host: {host}")[0], 403)
            line = self.fetch(1, "/line", "-H", f"Host: {host}", "-H", f"Origin: {self.outside()}", "-H",
                              "X-1401-Line: 0", "--data-binary", "RUN 1")
            self.same(f"{host}, with a line", line[0], 403)
        self.machine_is("nothing was carried out", 0)

    def test_the_loopback_s_port_by_the_outside_name(self):
        """The room accepts it: it can't see whether the proxy hands it on. Nobody gets there from another computer."""
        host = f"{NAME}:{self.first}"
        self.same("the page", status(self.served.get(1, "/", Host=host)), 200)
        for name, fields in [("with the loopback's host", {"Origin": self.outside()}),
                             ("with the loopback's origin", {"Host": host}),
                             ("with another port", {"Host": f"{NAME}:{self.served.page}", "Origin": self.outside()}),
                             ("for another seat", {"Host": f"{NAME}:{self.first + 1}", "Origin": self.outside(2)})]:
            text = "" if fields.get("Host", host) == host else self.served.elsewhere()
            self.refused(f"a line {name}", self.served.post(1, "START 1", 0, **fields), "1.1 403", text)
        self.machine_is("none was carried out", 0)
        line = self.served.post(1, "START 1", 0, Host=host, Origin=self.outside())
        self.within("a line", line, "HTTP/1.1 200 ", "\r\n\r\nOK\n")

    def test_an_address_without_tls_is_sent_on(self):
        port = self.first + 1
        response = run(["curl", "-s", "-i", "--max-time", LONG, "--resolve", f"{NAME}:{port}:127.0.0.1",
                        f"http://{NAME}:{port}/"]).stdout
        self.same("it", (status(response), field(response, "Location")), (301, f"{self.outside(2)}/"))

    def test_from_a_second_host(self):
        name = second_host()
        if name is None:
            self.skipTest("no second host can be made here")
        self.addCleanup(part, name)
        host = [command("ip"), "netns", "exec", name]
        self.same("the page", self.fetch(3, "/", to=HERE, host=host), (200, PAGE))
        self.same("a line", self.post(3, "DEPOSIT 0500 ~K", self.outside(3), to=HERE, host=host), (200, b"OK\n"))
        self.same("a wrong password", self.fetch(3, "/", to=HERE, host=host, user="class:x")[0], 401)
        self.same("a foreign origin", self.post(3, "RUN 1", "https://other.example", 1, to=HERE, host=host)[0], 403)
        straight = run([*host, "curl", "-s", "--max-time", LONG, f"http://{HERE}:{self.served.page}/"])
        self.same("the loopback's port isn't reached", straight.returncode, 7)
        self.machine_is("what was carried out", 1)

    @unittest.skipIf(shutil.which("chromium") is None, "chromium isn't installed")
    def test_the_page_in_a_browser_of_a_second_host(self):
        name = second_host()
        if name is None:
            self.skipTest("no second host can be made here")
        self.addCleanup(part, name)
        key = subprocess.run("openssl x509 -pubkey -noout | openssl pkey -pubin -outform der", shell=True, check=True,
                             input=(self.folder / "ibm1401.crt").read_bytes(), stdout=subprocess.PIPE).stdout
        trusted = base64.b64encode(hashlib.sha256(key).digest()).decode()
        browser = Chromium([command("ip"), "netns", "exec", name], f"--host-resolver-rules=MAP {NAME} {HERE}",
                           f"--ignore-certificate-errors-spki-list={trusted}")
        self.addCleanup(browser.end)
        login = Page(browser, self.outside().replace("://", f"://class:{PASSWORD.replace(' ', '%20')}@"))
        self.same("after the password", login.until("document.title", "IBM 1401"), "IBM 1401")
        page = Page(browser, f"{self.outside()}/")
        self.check("it sees the machine", "" if page.is_ready() else str(page.complaints()))
        links = [f"{self.outside(seat)}/" for seat in range(1, SEATS + 1)]
        self.same("its links", page.value("[...document.querySelectorAll('#seats a')].map(a => a.href).join(' ')"),
                  " ".join(links))
        page.value("say('DEPOSIT 0500 ~K')")
        self.same("its line is carried out", wait_until(lambda: self.served.after() == 1), True)
        self.same("its complaints", page.complaints(), [])


class Limits(Proxied):
    """What nginx lets through of one address."""

    rate = "1r/m"

    def test_they_are_kept(self):
        """However slow the host is, these requests are more than nginx lets through."""
        self.same("a line too long", self.post(1, "X" * 1025, self.outside())[0], 413)
        self.same("a body too long", self.post(1, "X" * 16385, self.outside())[0], 413)
        many = [word for _ in range(1000) for word in ("-o", "/dev/null", f"{self.outside()}/")]
        ran = run(["curl", "-s", "-Z", "--parallel-max", "20", "--cacert", self.folder / "ibm1401.crt", "--resolve",
                   f"{NAME}:{self.first}:127.0.0.1", "-w", "%{http_code}\n", *many])
        codes = set(ran.stdout.decode().split())
        self.check("a thousand without a password", "" if codes == {"401", "429"} else f"{codes}")


if __name__ == "__main__":
    unittest.main()

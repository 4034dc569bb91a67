"""Files beyond the size that the system allows (`ulimit -f`): each is refused by its name, and no signal ends the
program."""
import resource
import signal
import unittest

from tests.support import ProgramTest, program

# Prints and punches the same line and the same card again and again.
LOOP = ("               ORG  400\n     START     MCW  @AN ANSWER@,209\n               MCW  @AN ANSWER@,109\n"
        "     AGAIN     W\n               P\n               B    AGAIN\n               END  START\n")
HALT = "               ORG  400\n     START     H\n               NOP\n               END  START\n"
STEPS = 3_000


def at_most(limit):
    """How a process is started whose files may have this many bytes. Python leaves the signal out otherwise."""
    def begin():
        signal.signal(signal.SIGXFSZ, signal.SIG_DFL)
        resource.setrlimit(resource.RLIMIT_FSIZE, (limit, limit))

    return {"preexec_fn": begin}


class SizeLimits(ProgramTest):
    """Runs and assemblies whose files would be too large."""

    def run_loop(self, name, folder, **how):
        """A run with three outputs, where only this one is a file: how the run ended, and the file's bytes."""
        made = self.folder / folder
        made.mkdir()
        (made / "source").write_text(LOOP)
        words = {option: "/dev/null" for option in ("paper", "punch", "trace")} | {name: name}
        call = [word for option, file in words.items() for word in (f"--{option}", file)]
        ran = program("run", "source", *call, "--limit", str(STEPS), cwd=made, **how)
        return ran, (made / name).read_bytes()

    def test_what_a_run_writes_ends_at_the_limit(self):
        for name in "paper", "punch", "trace":
            ran, whole = self.run_loop(name, f"{name} without a limit")
            self.check(f"{name}: it is long enough", "" if len(whole) > 5_000 else f"it has {len(whole)} bytes")
            for limit in 0, 1, 777, len(whole) - 1:
                ran, text = self.run_loop(name, f"{name} of {limit}", **at_most(limit))
                self.expect(f"{name} of {limit}", ran, 1, error=f"ibm1401: cannot write {name}\n")
                self.same(f"{name} of {limit}: the file", text, whole[:limit])
            ran, text = self.run_loop(name, f"{name} of all", **at_most(len(whole)))
            self.same(f"{name} of all: the whole file", text, whole)
            self.check(f"{name} of all: no fault", "" if b"cannot" not in ran.stderr else ran.stderr.decode())

    def test_what_is_assembled_leaves_the_old_file(self):
        (self.folder / "source").write_text(HALT)
        for option in "-o", "--deck":
            out = self.folder / f"out{option}"
            out.write_text("old")
            whole = program("assemble", "source", option, "/dev/stdout", cwd=self.folder).stdout
            for limit in 0, len(whole) - 1:
                ran = program("assemble", "source", option, out.name, cwd=self.folder, **at_most(limit))
                self.expect(f"{option} of {limit}", ran, 1, error=f"ibm1401: cannot write {out.name}\n")
                self.holds(f"{option} of {limit}: the old file", out, "old")
                self.same(f"{option} of {limit}: no other file", list(self.folder.glob("*.part")), [])
            ran = program("assemble", "source", option, out.name, cwd=self.folder, **at_most(len(whole)))
            self.expect(f"{option} of all", ran)
            self.holds(f"{option} of all: the new file", out, whole)

    def test_a_device_and_a_pipe_have_no_limit(self):
        (self.folder / "source").write_text(LOOP)
        for name in "/dev/null", "/dev/stdout":
            words = ["--paper", name, "--limit", str(STEPS)]
            ran = program("run", "source", *words, cwd=self.folder, **at_most(10))
            without = program("run", "source", *words, cwd=self.folder)
            self.same(f"--paper {name}", (ran.returncode, ran.stdout, ran.stderr),
                      (without.returncode, without.stdout, without.stderr))


if __name__ == "__main__":
    unittest.main()

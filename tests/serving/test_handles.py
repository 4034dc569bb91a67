"""Served rooms for whose connections the system has no handle left."""
import select
import unittest

from tests.support import ProgramTest, at_most


class Handles(ProgramTest):
    """The streams and the listener take four handles, and each connection one."""

    def test_a_connection_for_which_there_is_no_handle_waits(self):
        """It is answered once another one has ended."""
        room = self.room("serve", "--keep-seats", seats=2, **at_most(5))
        with room.console() as first, room.console() as second:
            self.same("the last handle", first.say(b"EXAMINE 0\n"), b" \n")
            second.sendall(b"EXAMINE 0\n")
            room.settle(5)
            self.check("the second waits", "it is answered" if select.select([second], [], [], 0.5)[0] else "")
            self.same("the first ends", first.say(b"QUIT\n"), b"BYE\n")
            first.close()
            second.sendall(b"QUIT\n")
            self.same("the second is answered", second.hear(), b" \nBYE\n")
        self.ended(room, "the room", 2)

    def test_a_room_that_holds_every_handle_it_may_have(self):
        """It ends at QUIT, kept or not."""
        path = self.folder / "held.journal"
        for words, most in (["--keep-seats"], 6), (["--journal", path], 7):
            name, room = words[0], self.room("serve", *words, seats=2, **at_most(most))
            with room.console() as first, room.console() as second:
                self.same(f"{name}: the first seat", first.say(b"DEPOSIT 0700 A\n"), b"OK\n")
                self.same(f"{name}: the second seat", second.say(b"EXAMINE 0700\n"), b"A\n")
                room.settle(most)
                room.type(b"QUIT\n")
                self.same(f"{name}: QUIT ends the first console", first.hear(), b"")
                self.same(f"{name}: and the second", second.hear(), b"")
            self.ended(room, f"{name}: the room", 2, b"")
        text = b"JOURNAL1 4000\n1\t1\tDEPOSIT 0700 A\tOK\n2\t2\tEXAMINE 0700 1\tA\n"
        self.holds("its journal is whole", path, text)

    def test_a_room_without_a_handle_for_anybody(self):
        """A connection has no reply, and QUIT still ends the room."""
        room = self.room("serve", "--keep-seats", seats=1, **at_most(4))
        with room.console() as console:
            room.settle(4)
            self.ended(room, "the room", 0)
            self.check("no reply", "it has one" if b"\n" in console.hear() else "")


if __name__ == "__main__":
    unittest.main()

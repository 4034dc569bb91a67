"""What clients of a room were answered, compared with the journals of the rooms that followed each other."""
from typing import NamedTuple

from tests.support import program

# A line that may have been carried out: nothing came back, and then the room was another.
PERHAPS = "perhaps"
# In place of a line: the connection ended before its line was answered, as it does at the end of a room.
ENDED = None


class Entry(NamedTuple):
    """An entry of a journal, with the number of its room."""

    room: int
    command: str
    answer: str


def entries_of(room, path):
    """The entries of a room's journal."""
    rows = [line.split("\t") for line in path.read_text("ascii").split("\n")[1:-1]]
    return [Entry(room, command, answer) for _, _, command, answer in rows]


def lost_of(name, history, entries):
    """What of a client's history the journals don't have, or have besides, as a list of texts. The history has the
    lines in their order, each with its reply, which may be unknown (None)."""
    at, has_ended = 0, False
    for line, reply in history:
        if line is ENDED:
            has_ended = True
            continue
        found = entries[at] if at < len(entries) else None
        if reply == PERHAPS and (found is None or found.command != line):
            continue
        if found is None or found.command != line or reply not in (None, PERHAPS, found.answer):
            return [f"{name}: {line}, {reply} is in the journals as {found}"]
        if has_ended and at and entries[at - 1].room == found.room:
            return [f"{name}: its connection ended before {line}, in the middle of room {found.room}"]
        at, has_ended = at + 1, False
    return [f"{name}: {entries[at].command} is in the journal of room {entries[at].room}"] if at < len(entries) else []


def compare(paths, clients):
    """What of the clients' histories the journals of the rooms don't have, or what they have besides; and how many
    entries each has."""
    of_clients, counts, lost = {client.region: [] for client in clients}, [], []
    for room, path in enumerate(paths, 1):
        entries = entries_of(room, path)
        counts.append(len(entries))
        for entry in entries:
            of_clients.get(entry.command.split(" ")[1], lost).append(entry)
        checked = program("journal", "--check", path)
        if (checked.returncode, checked.stdout, checked.stderr) != (0, f"{len(entries)} entries\n".encode(), b""):
            lost.append(f"journal --check of room {room}: {checked}")
    for client in clients:
        lost += lost_of(client.name, client.history, of_clients[client.region])
    return [each if isinstance(each, str) else f"{each} is nobody's" for each in lost], counts

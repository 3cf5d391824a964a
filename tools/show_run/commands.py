"""Commands as bytes, and the journals that hold them (docs/FORMATS.md)."""
import hashlib
from typing import NamedTuple

KINDS = ["init", "basic", "finalize", "merge"]


class Command(NamedTuple):
    id: str
    kind: str
    name: str
    priority: int
    parents: tuple
    # The author's id and the payload's bytes; a merge has neither.
    author: str
    payload: bytes


def author_id(name):
    """The author id of a replica of this name."""
    return hashlib.sha256(b"aranya-device:" + name.encode()).hexdigest()


def read_command(data):
    """A command from its bytes, which an honest program wrote."""
    id, kind, at = hashlib.sha256(data).hexdigest(), KINDS[data[1]], 2
    if kind == "merge":
        return Command(id, kind, "", 0, (data[2:34].hex(), data[34:66].hex()), "", b"")
    priority, parents = 0, ()
    if kind == "basic":
        priority, at = int.from_bytes(data[2:6], "big"), 6
    if kind == "init":
        at += 32
    else:
        parents, at = (data[at : at + 32].hex(),), at + 32
    author, at = data[at : at + 32].hex(), at + 32
    length = int.from_bytes(data[at : at + 2], "big")
    name, at = data[at + 2 : at + 2 + length].decode(), at + 2 + length
    length = int.from_bytes(data[at : at + 4], "big")
    return Command(id, kind, name, priority, parents, author, data[at + 4 : at + 4 + length])


def records(journal):
    """The bodies of a journal's records."""
    gate = 0
    while gate < len(journal) and journal[gate] == 1:
        length = int.from_bytes(journal[gate + 1 : gate + 5], "big")
        yield journal[gate + 5 : gate + 5 + length]
        gate += 5 + length


def commands_in(journal):
    """The commands of a journal. The first record has none, and neither has that of a joined graph."""
    for at, body in enumerate(records(journal)):
        if at == 0 or body[:1] != b"\1":
            continue
        rest = body[5:]
        for _ in range(int.from_bytes(body[1:5], "big")):
            length = int.from_bytes(rest[:4], "big")
            yield read_command(rest[4 : 4 + length])
            rest = rest[4 + length :]

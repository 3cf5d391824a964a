"""Runs the program on a watched script, and reads what it prints and what it leaves in its journals."""
import glob
import os
import re
import shutil
import subprocess
import sys
import tempfile
from typing import NamedTuple

from .commands import commands_in
from .script import watched

TOP = os.path.dirname(os.path.dirname(os.path.dirname(os.path.realpath(__file__))))
STATUSES = {
    5: "the output couldn't be written",
    6: "a disk failed",
    7: "memory ran out",
    10: "the envelope failed",
}


class Refused(Exception):
    """The program ran no line: its policy, the script or a journal was refused, or couldn't be read."""

    def __init__(self, status, told):
        super().__init__(told)
        self.status = status


class Ran(NamedTuple):
    """What a run came to: for each line that ran, in order, what it printed and what was printed after it by `graph`, `facts` and `effects`."""

    status: int
    # Lists of texts: of each line its own and those of the lines put after it.
    printed: list
    # What was printed that belongs to no line.
    rest: list
    # The commands in the journals by id.
    commands: dict


def program():
    return os.environ.get("ARANYAD") or os.path.join(TOP, "aranyad")


def grouped(texts):
    """What is printed, a line's text each: one line, and those below it that begin with two spaces."""
    group = []
    for text in texts:
        if group and not text.startswith("  "):
            yield group
            group = []
        group.append(text)
    if group:
        yield group


def run(policy, lines, store):
    """Runs lines of a script in a store of its own, which begins as a copy of `store` where that isn't None."""
    with tempfile.TemporaryDirectory() as folder:
        here = os.path.join(folder, "store")
        shutil.copytree(store, here) if store else os.mkdir(here)
        steps = list(watched(lines))
        file = os.path.join(folder, "script")
        with open(file, "wb") as it:
            it.write("".join(f"{text}\n" for _, text in steps).encode("utf-8", "surrogateescape"))
        status, texts = printed_lines([program(), "run", policy, file, "--store", here])
        commands = {}
        for journal in sorted(glob.glob(os.path.join(here, "replica-*.journal"))):
            with open(journal, "rb") as it:
                commands.update((found.id, found) for found in commands_in(it.read()))
    if status not in (0, 5, 6, 7, 10):
        raise Refused(status, refusal(status, texts, steps))
    return read(status, grouped(texts), steps, commands)


def printed_lines(words):
    """A program's status and the lines that it prints. Most are printed again and again, and each is kept once."""
    with subprocess.Popen(words, stdin=subprocess.DEVNULL, stdout=subprocess.PIPE) as process:
        texts = [sys.intern(it.decode("utf-8", "replace").removesuffix("\n")) for it in process.stdout]
    return process.returncode, texts


def refusal(status, texts, steps):
    """What the program says of a run that it refuses. The number of a line is the one that it has in the script."""
    told = texts[0] if texts else f"the program ended with status {status}"
    found = re.fullmatch(r"script refused: line (\d+)", told)
    if not found:
        return told
    lines = [line.number for line, _ in steps[: int(found[1])] if line]
    return f"script refused: line {lines[-1]}"


def split(data):
    """Printed bytes as lines. A line feed ends each, and no other character does."""
    lines = data.decode("utf-8", "replace").split("\n")
    return lines[:-1] if lines[-1] == "" else lines


def read(status, groups, steps, commands):
    printed = []
    for line, _ in steps:
        if line is None:
            group = next(groups, None)
            if group is None:
                break
            printed[-1][1].append(group)
        elif not line.prints:
            printed.append((line, []))
        else:
            group = next(groups, None)
            if group is None:
                break
            printed.append((line, [group]))
    return Ran(status, printed, list(groups), commands)

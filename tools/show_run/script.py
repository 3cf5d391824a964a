"""The lines of a script, and the lines that are put between them so that each change is printed (docs/SCRIPT.md)."""
import re
from typing import NamedTuple

NAME = r"([a-z0-9_]{1,16})"
NUMBER = r"([1-9][0-9]*)"
FORMS = [
    re.compile(rf" *(replica|ask|restart|facts|effects|graph) +{NAME} *$"),
    re.compile(rf" *(join|sync) +{NAME} +{NAME} *$"),
    re.compile(rf" *(init|act) +{NAME} +(.*)$"),
    re.compile(rf" *(answer|take|next) +{NAME} +{NUMBER} *$"),
    re.compile(r" *(inject) +([0-9A-Fa-f]+) *$"),
]
# What such a line may change is its first replica.
CHANGING = {"replica", "init", "join", "act", "sync", "take", "restart"}
MAKING = {"ask", "answer", "next", "inject"}
MOST_LINES = 1000


class Line(NamedTuple):
    number: int
    text: str
    # Its first word, or "" of a blank line, a comment, or a line that is refused.
    kind: str
    # The names, texts and numbers after it.
    words: tuple

    @property
    def replica(self):
        return None if self.kind in ("", "inject") else self.words[0]

    @property
    def prints(self):
        return bool(self.text.strip(" ")) and not self.text.startswith("#")


def read_line(number, text):
    found = next((it for it in (form.match(text) for form in FORMS) if it), None)
    return Line(number, text, found[1], found.groups()[1:]) if found else Line(number, text, "", ())


def lines_of(data):
    """The lines of a script from its bytes."""
    text = data.decode("utf-8", "surrogateescape")
    lines = text.split("\n")
    if lines[-1] == "":
        lines.pop()
    return [read_line(number, it.removesuffix("\r")) for number, it in enumerate(lines, 1)]


def watched(lines):
    """The lines of a script with what prints the changes after each, as pairs of a line and the text that runs."""
    for line in lines:
        yield line, line.text
        if line.kind in CHANGING:
            for what in ("graph", "facts", "effects"):
                yield None, f"{what} {line.replica}"

"""What `tools/show` does with its words."""
import os
import sys
from typing import NamedTuple

from .model import Model
from .page import page
from .picture import NoPicture, picture
from .policy import Policy
from .program import STATUSES, Refused, run
from .script import MOST_LINES, lines_of


class Shown(NamedTuple):
    """A run with what a page says of it."""

    policy: str
    script: str
    model: Model
    status: int
    # Why it ended early, or None.
    ended: str
    # How many lines its script has.
    whole: int


def options(words):
    """The names of files, and what the options give."""
    names, given = [], {}
    rest = list(words)
    while rest:
        word = rest.pop(0)
        name, sign, value = word.partition("=")
        if name in ("--store", "--beside", "--picture") and name not in given:
            if not sign and not rest:
                return None
            given[name] = value if sign else rest.pop(0)
        elif word.startswith("-"):
            return None
        else:
            names.append(word)
    if len(names) != 2 or ("--picture" in given and ("--beside" in given or not given["--picture"].isdecimal())):
        return None
    return names, given


def short(name):
    """A file's name with its folder's."""
    return "/".join(os.path.abspath(name).split("/")[-2:])


def shown(policy, script, store, most=MOST_LINES):
    with open(script, "rb") as it:
        lines = lines_of(it.read())
    ran = run(policy, lines[:most], store)
    with open(policy, encoding="utf-8", newline="") as it:
        model = Model(Policy(it.read()), lines[:most], ran)
    for line in model.differs[:1]:
        print(f"show: from line {line} on, what is worked out here isn't what the program prints", file=sys.stderr)
    return Shown(short(policy), short(script), model, ran.status, STATUSES.get(ran.status), len(lines))


def main(words, usage):
    found = options(words)
    if found is None:
        print(usage.strip(), file=sys.stderr)
        return 2
    (policy, script), given = found
    try:
        if "--picture" in given:
            made = picture(shown(policy, script, given.get("--store"), int(given["--picture"])), int(given["--picture"]))
        else:
            scripts = [script] + ([given["--beside"]] if "--beside" in given else [])
            made = page([shown(policy, it, given.get("--store")) for it in scripts])
    except Refused as refused:
        print(f"show: {refused}", file=sys.stderr)
        return refused.status
    except NoPicture as error:
        print(f"show: {error}", file=sys.stderr)
        return 2
    except OSError as error:
        print(f"show: {error}", file=sys.stderr)
        return 4
    sys.stdout.write(made)
    return 0

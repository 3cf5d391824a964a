"""The page: one file of HTML without outside references."""
import difflib
import html
import json
import os
import re

MOST_BYTES = 2_000_000
HERE = os.path.dirname(os.path.realpath(__file__))
TABLES = ["commands", "facts", "effects", "entries", "whys"]


def part(name):
    with open(os.path.join(HERE, name), encoding="utf-8") as it:
        return it.read()


def encoded(data):
    """Data as text that may stand in a page's script element."""
    text = json.dumps(data, ensure_ascii=False, separators=(",", ":"))
    return text.replace("<", "\\u003c").replace("\u2028", "\\u2028").replace("\u2029", "\\u2029")


def size(data):
    return len(encoded(data).encode())


def tables_of(model):
    return [model.commands, model.facts.rows, model.effects.rows, model.entries.rows, model.whys.rows]


def fitting(model, room):
    """How many of a model's lines, from the first, fit into so many bytes with the tables that they need."""
    costs = []
    for table in tables_of(model):
        sums = [0]
        for row in table:
            sums.append(sums[-1] + size(row) + 1)
        costs.append(sums)
    total = 0
    for at, (line, lengths) in enumerate(zip(model.lines, model.sizes)):
        total += size(line) + 1
        if total + sum(sums[length] for sums, length in zip(costs, lengths)) > room:
            return at
    return len(model.lines)


def run_data(model, count):
    """The first lines of a run with what they need of the tables."""
    lengths = model.sizes[count - 1] if count else [0] * len(TABLES)
    data = {name: table[:length] for name, table, length in zip(TABLES, tables_of(model), lengths)}
    names = {it["name"] for it in data["commands"]}
    data["sources"] = {name: it["source"] for name, it in model.policy.of("command").items() if name in names}
    data["priorities"] = model.policy.priorities()
    data["names"], data["replicas"], data["lines"] = model.names, model.replicas, model.lines[:count]
    return data


def aligned(one, other):
    """Positions as pairs of a line of each script: equal lines side by side, and what stands between them as it comes."""
    pairs, at, beside = [], 0, 0
    matcher = difflib.SequenceMatcher(None, one, other, autojunk=False)
    for front, front_beside, length in matcher.get_matching_blocks():
        while at < front or beside < front_beside:
            at, beside = min(at + 1, front), min(beside + 1, front_beside)
            pairs.append([at - 1, beside - 1])
        for _ in range(length):
            at, beside = at + 1, beside + 1
            pairs.append([at - 1, beside - 1])
    return [[max(0, one), max(0, other)] for one, other in pairs]


def facts_at(data):
    """The facts of each replica after each line of a run, by its name."""
    held, after = {}, []
    for line in data["lines"]:
        if line["k"] == "replica" and "r" in line:
            held = {**held, data["replicas"][line["r"]]: []}
        if "d" in line:
            name = data["replicas"][line["r"]]
            at, gone, come = line["d"]["f"]
            before = held[name]
            held = {**held, name: before[:at] + come + before[at + gone :]}
        after.append(held)
    return after


def first_difference(one, other, rows):
    """The first position at which some replica's facts differ, with the replica's name, or None."""
    left, right = facts_at(one), facts_at(other)
    for position, (a, b) in enumerate(rows):
        mine, theirs = left[a] if left else {}, right[b] if right else {}
        for name in {**mine, **theirs}:
            texts = [one["facts"][it] for it in mine.get(name, [])]
            if texts != [other["facts"][it] for it in theirs.get(name, [])]:
                return position, name
    return None


def notes(run, count, whole):
    """What has to be said of a run that isn't whole, or that isn't sure."""
    if count < whole:
        yield f"This page is cut: it has lines 1 to {count:,} of the {whole:,} of {run.script}. More wouldn't fit."
    if run.ended:
        yield f"The run of {run.script} ended with status {run.status}: {run.ended}."
    if run.model.differs:
        yield f"From line {run.model.differs[0]} on, what this page works out itself isn't what the program prints. Facts and effects are those that the program prints."


def page(runs):
    """The page of one run, or of two beside each other."""
    room = (MOST_BYTES - sum(len(part(it).encode()) for it in ("page.html", "page.css", "page.js")) - 40_000) // len(runs)
    counts = [fitting(it.model, room) for it in runs]
    data = [run_data(it.model, count) for it, count in zip(runs, counts)]
    told = [note for run, count in zip(runs, counts) for note in notes(run, count, run.whole)]
    everything = {"title": f"{runs[0].script} under {runs[0].policy}", "runs": data}
    if len(runs) == 2:
        told.insert(0, beside(runs, data, everything))
    everything["note"] = " ".join(told)
    inside = {"TITLE": html.escape(everything["title"]), "STYLE": part("page.css"), "SCRIPT": part("page.js"), "DATA": encoded(everything)}
    return re.sub("TITLE|STYLE|SCRIPT|DATA", lambda it: inside[it[0]], part("page.html"))


def beside(runs, data, everything):
    """Sets two runs side by side, and says where their facts differ first."""
    rows = aligned([it["t"] for it in data[0]["lines"]], [it["t"] for it in data[1]["lines"]])
    everything["rows"] = rows
    everything["title"] = f"{runs[0].script} beside {runs[1].script} under {runs[0].policy}"
    for run, it in zip(runs, data):
        it["heading"] = run.script
    found = first_difference(*data, rows)
    if found is None:
        return "At no line do the facts of a replica differ."
    position, name = found
    everything["first"], everything["name"] = position, name
    for it, line in zip(data, rows[position]):
        it["first"] = line
    return f"The facts differ first at line {rows[position][0] + 1} of {runs[0].script}, line {rows[position][1] + 1} of {runs[1].script}: those of {name}."

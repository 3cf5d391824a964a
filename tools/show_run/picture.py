"""A picture of a run after one of its lines, as SVG: the lanes, the graph of the line's replica, and what the line did."""
import html
import textwrap

COLOURS = ["#fde725", "#90d743", "#35b779", "#1d7a80", "#31688e", "#443983"]
STYLE = """
text { font: 12px ui-monospace, "DejaVu Sans Mono", Menlo, monospace; fill: var(--text); white-space: pre; }
.plain { font-family: system-ui, "DejaVu Sans", sans-serif; } .bold { font-weight: 600; } .dim { fill: var(--dim); } .small { font-size: 11px; }
.back { fill: var(--back); } .chosen { fill: var(--chosen); } .came { fill: var(--came); } .gone { fill: var(--gone); } .gone-text { fill: var(--gone-text); }
.why { fill: var(--warn); } .bar { fill: var(--text); } .on-bar { fill: var(--back); } .stroke { stroke: var(--text); fill: none; stroke-width: 1.6; }
.edge { stroke: var(--dim); fill: none; stroke-width: 1.5; } .ring { stroke: var(--gone-text); fill: none; stroke-width: 1.6; stroke-dasharray: 4 2.5; }
.node { stroke: var(--text); } .full { fill: var(--text); } .cross { stroke: var(--gone-text); stroke-width: 2; } .dark { fill: #1b1f24; } .light { fill: #fff; }
svg { --back: #fff; --text: #1b1f24; --dim: #5d6673; --chosen: #dbe8fb; --came: #e2f4e4; --gone: #fbe6e4; --gone-text: #9a2018; --warn: #fff1d6; }
@media (prefers-color-scheme: dark) {
  svg { --back: #14171c; --text: #e6e9ee; --dim: #a0a9b6; --chosen: #21385c; --came: #17351f; --gone: #43201e; --gone-text: #ffb0a8; --warn: #43330f; }
}
"""
LINE, ROW, COLUMN, LANE = 20, 25, 30, 58
LEFT, TEXT, RIGHT = 14, 258, 490
# How wide a letter is, of each kind of text.
LETTER, WIDE_LETTER, BOLD_LETTER = 7.25, 6.7, 7.3


class NoPicture(Exception):
    """There is nothing to draw after this line."""


class Drawing:
    """Shapes of an SVG in the order in which they are drawn."""

    def __init__(self):
        self.parts = []

    def text(self, x, y, text, kind="", middle=False):
        anchor = ' text-anchor="middle"' if middle else ""
        self.parts.append(f'<text x="{x:g}" y="{y:g}" class="{kind}"{anchor}>{html.escape(text)}</text>')

    def box(self, x, y, width, height, kind):
        self.parts.append(f'<rect x="{x:g}" y="{y:g}" width="{width:g}" height="{height:g}" rx="3" class="{kind}"/>')

    def path(self, steps, kind, more=""):
        self.parts.append(f'<path d="{steps}" class="{kind}"{more}/>')

    def circle(self, x, y, radius, kind, more=""):
        self.parts.append(f'<circle cx="{x:g}" cy="{y:g}" r="{radius:g}" class="{kind}"{more}/>')


def clipped(text, count):
    return text if len(text) <= count else text[: count - 1] + "…"


class Lanes:
    """The lines up to the chosen one that aren't blank or comments, with a lane a replica."""

    def __init__(self, model, last):
        self.model = model
        self.lines = [(at, it) for at, it in enumerate(model.lines[:last]) if it["k"]]
        self.rows = {at: row for row, (at, _) in enumerate(self.lines)}
        self.makers = {it["m"]: (at, it) for at, it in self.lines if it.get("made")}
        self.height = 44 + LINE * len(self.lines)

    def x(self, replica):
        return LEFT + TEXT + LANE * (replica + 0.5)

    def y(self, at):
        return 54 + LINE * self.rows[at]

    def draw(self, drawing):
        names = self.model.replicas
        drawing.box(LEFT - 4, self.y(self.lines[-1][0]) - LINE / 2, TEXT + LANE * len(names) + 4, LINE, "chosen")
        for replica, name in enumerate(names):
            drawing.text(self.x(replica), 34, clipped(name, 8), "bold", middle=True)
            first = next(at for at, it in self.lines if it["k"] == "replica" and it["r"] == replica)
            drawing.path(f"M {self.x(replica):g} {self.y(first):g} V {self.height}", "edge")
        for at, line in self.lines:
            drawing.text(LEFT, self.y(at) + 4, f"{at + 1:3} {clipped(line['t'], 32)}")
            self.draw_signs(drawing, at, line)

    def draw_signs(self, drawing, at, line):
        if "r" not in line:
            return
        x, y = self.x(line["r"]), self.y(at)
        refused = ": refused " in (line.get("p") or [""])[0]
        if line["k"] in ("sync", "join") and not refused:
            self.arrow(drawing, self.x(line["o"]), y, x, y, ' stroke-dasharray="3 3"' if line["k"] == "join" else "")
        made = self.makers.get(line.get("u"))
        if made and line["k"] in ("answer", "take") and "r" in made[1]:
            self.arrow(drawing, self.x(made[1]["r"]), self.y(made[0]), x, y, "")
        if refused:
            drawing.path(f"M {x - 4:g} {y - 4:g} l 8 8 m 0 -8 l -8 8", "cross")
        elif line.get("made"):
            drawing.circle(x, y, 3.2, "back node")
        elif line["k"] in ("init", "act", "replica"):
            drawing.circle(x, y, 3 if line["k"] == "replica" else 4.5, "full")

    @staticmethod
    def arrow(drawing, x1, y1, x2, y2, more):
        if x1 != x2:
            end = x2 - 5 if x2 > x1 else x2 + 5
            drawing.path(f"M {x1:g} {y1:g} L {end:g} {y2:g}", "stroke", more + ' marker-end="url(#tip)"')


class GraphRows:
    """The commands that a replica holds, one a row, in the order of the braid; a merge stands after its parents."""

    def __init__(self, model, held):
        self.model, self.held = model, held
        self.places = {it: at + 1 for at, it in enumerate(held.braid)}
        self.outcomes = {model.entries.rows[it][0]: model.entries.rows[it][1] for it in held.entries}
        keys = {}
        for stored, it in enumerate(held.commands):
            last = max((keys[parent] for parent in model.commands[it]["parents"]), default=(0, 0, 0))
            keys[it] = (self.places[it], 0, stored) if it in self.places else (last[0], last[1] + 1, stored)
        self.order = sorted(held.commands, key=keys.get)
        self.rows = {it: row for row, it in enumerate(self.order)}
        authors = list(dict.fromkeys(model.commands[it]["column"] for it in held.commands))
        self.columns = [it for it in model.replicas if it in authors] + [it for it in authors if it not in model.replicas]
        self.priorities = model.policy.priorities()
        self.labels = RIGHT + COLUMN * len(self.columns) + 12
        self.height = 56 + ROW * len(self.order)

    def x(self, number):
        return RIGHT + COLUMN * (self.columns.index(self.model.commands[number]["column"]) + 0.5)

    def y(self, number):
        return 62 + ROW * self.rows[number]

    def colour(self, priority):
        at, count = self.priorities.index(priority), len(self.priorities)
        return 2 if count == 1 else int(at * (len(COLOURS) - 1) / (count - 1) + 0.5)

    def draw(self, drawing, name, new, width):
        drawing.text(RIGHT, 20, f"Graph of {name}, numbered in the order of the braid", "plain bold")
        for at, author in enumerate(self.columns):
            drawing.text(RIGHT + COLUMN * (at + 0.5), 40, clipped(author, 5), "small dim", middle=True)
        for it in self.order:
            if it in new:
                drawing.box(RIGHT - 4, self.y(it) - ROW / 2 + 1, width - RIGHT - 6, ROW - 2, "came")
            if self.model.commands[it]["kind"] == "finalize":
                drawing.box(RIGHT - 4, self.y(it) - 10, width - RIGHT - 6, 20, "bar")
        for it in self.order:
            for parent in self.model.commands[it]["parents"]:
                self.draw_edge(drawing, parent, it)
        for it in self.order:
            self.draw_command(drawing, it)

    def draw_edge(self, drawing, parent, child):
        x1, y1, x2, y2 = self.x(parent), self.y(parent), self.x(child), self.y(child)
        middle = (y1 + y2) / 2
        curve = f"C {x1:g} {middle:g}, {x2:g} {middle:g}, {x2:g} {y2:g}" if x1 != x2 else f"L {x2:g} {y2:g}"
        if x1 == x2 and y2 - y1 > ROW:
            curve = f"C {x1 + 15:g} {y1 + ROW / 2:g}, {x2 + 15:g} {y2 - ROW / 2:g}, {x2:g} {y2:g}"
        drawing.path(f"M {x1:g} {y1:g} {curve}", "edge")

    def draw_command(self, drawing, number):
        command, x, y = self.model.commands[number], self.x(number), self.y(number)
        place, outcome = self.places.get(number), self.outcomes.get(number)
        if command["kind"] == "merge":
            drawing.path(f"M {x:g} {y - 5:g} l 5 5 l -5 5 l -5 -5 Z", "back edge")
            drawing.text(self.labels, y + 4, "merge", "dim")
            return
        label = f"{command['name']}({', '.join(value for _, value in command['fields'] or [])})"
        told = f"priority {command['priority']}" if command["kind"] == "basic" else command["kind"]
        odd = f"{outcome}: " if outcome in ("recalled", "void") else ""
        on_bar = "on-bar" if command["kind"] == "finalize" else ""
        drawing.text(self.labels, y + 4, clipped(f"{odd}{label} {told}", 52), on_bar or ("gone-text" if odd else ""))
        ink = on_bar
        if command["kind"] != "finalize":
            shade = self.colour(command["priority"]) if command["kind"] == "basic" else None
            if odd:
                drawing.circle(x, y, 12, "ring")
            drawing.circle(x, y, 9.5, "node" if shade is not None else "node back", "" if shade is None else f' fill="{COLOURS[shade]}"')
            ink = "" if shade is None else "light" if shade > 2 else "dark"
        drawing.text(x, y + 4, str(place), f"small bold {ink}", middle=True)


def below(drawing, model, line, y, width):
    """What the line did: the facts that it added and took away, and why commands came to another outcome. It gives where it ends."""
    if "d" in line:
        held = model.held[model.replicas[line["r"]]]
        gone = [("−", it, "gone") for it in held.facts_before if it not in held.facts]
        for sign, fact, kind in gone + [("+", it, "came") for it in held.facts if it not in held.facts_before]:
            drawing.box(RIGHT - 4, y - 13, width - RIGHT - 6, 18, kind)
            drawing.text(RIGHT + 2, y, clipped(f"{sign} {model.pretty(fact)}", int((width - RIGHT - 16) / LETTER)))
            y += 20
    for title, _, why in line.get("q", []):
        rows = textwrap.wrap(" ".join(model.whys.rows[why]).replace("`", ""), int((width - RIGHT - 20) / WIDE_LETTER))
        titles = textwrap.wrap(title, int((width - RIGHT - 20) / BOLD_LETTER))
        drawing.box(RIGHT - 4, y - 12, width - RIGHT - 6, 17 * (len(titles) + len(rows)) + 8, "why")
        for at, it in enumerate(titles + rows):
            drawing.text(RIGHT + 2, y + 4 + 17 * at, it, "plain bold" if at < len(titles) else "plain")
        y += 17 * (len(titles) + len(rows)) + 14
    return y


def picture(shown, last):
    """The SVG of a run after its line of this number, which is the last that it ran."""
    model = shown.model
    line = model.lines[last - 1] if last <= len(model.lines) else None
    if line is None or "r" not in line or not model.held:
        raise NoPicture(f"line {last} names no replica that is shown: choose another line")
    name = model.replicas[line["r"]]
    lanes, rows = Lanes(model, last), GraphRows(model, model.held[name])
    width = max(960, rows.labels + 400)
    drawing = Drawing()
    lanes.draw(drawing)
    rows.draw(drawing, name, set(line.get("d", {}).get("g", [])), width)
    drawing.text(LEFT, 20, f"{shown.script}, line {last}", "plain bold")
    height = max(lanes.height + 10, below(drawing, model, line, rows.height + 22, width))
    told = html.escape(f"{shown.script} after line {last}: {line['t']}")
    tip = '<defs><marker id="tip" viewBox="0 0 8 8" refX="6" refY="4" markerWidth="6" markerHeight="6" orient="auto"><path d="M0 0 L8 4 L0 8 Z" class="full"/></marker></defs>'
    head = f'<svg xmlns="http://www.w3.org/2000/svg" viewBox="0 0 {width:g} {height:g}" width="{width:g}" height="{height:g}" role="img" aria-label="{told}">'
    return "\n".join([head, f"<title>{told}</title>", f"<style>{STYLE}</style>", tip, f'<rect width="{width:g}" height="{height:g}" class="back"/>', *drawing.parts, "</svg>", ""])

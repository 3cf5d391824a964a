"""A run as the page needs it: tables of commands, facts, effects and entries, and what each line changed."""
import re
import sys

from . import words
from .braid import Graph, common
from .commands import Command, author_id
from .meaning import Blocks, Fault
from .script import MAKING
from .values import Payload, printed

HEX = "([0-9a-f]{64})"
FORMS = [
    re.compile(rf"  {HEX} (init) (\w+)$"),
    re.compile(rf"  {HEX} (basic) (\w+) priority (\d+) parent {HEX}$"),
    re.compile(rf"  {HEX} (finalize) (\w+) parent {HEX}$"),
    re.compile(rf"  {HEX} (merge) {HEX} {HEX}$"),
]
LONGEST_TEXT = 300


def command_printed(text):
    """A command as `graph` prints it, without its author and payload."""
    id, kind, *rest = next(it for it in (form.match(text) for form in FORMS) if it).groups()
    if kind == "merge":
        return Command(id, kind, "", 0, tuple(rest), "", b"")
    priority = int(rest[1]) if kind == "basic" else 0
    return Command(id, kind, rest[0], priority, tuple(rest[2:] if kind == "basic" else rest[1:]), "", b"")


class Table:
    """Things by their numbers, each once."""

    def __init__(self):
        self.rows, self.numbers = [], {}

    def number(self, row, key=None):
        key = row if key is None else key
        if key not in self.numbers:
            self.numbers[key] = len(self.rows)
            self.rows.append(row)
        return self.numbers[key]


def splice(before, now):
    """What makes one list of another: from which place, how many go, and what comes."""
    front = common(before, now)
    back = common(before[front:][::-1], now[front:][::-1])
    return [front, len(before) - front - back, now[front : len(now) - back]]


class Held:
    """What a replica holds."""

    def __init__(self, policy):
        self.graph_texts, self.commands = [], []
        self.facts, self.braid, self.entries, self.effects = [], [], [], []
        # The facts before the last line that changed something here.
        self.facts_before = []
        # Of each entry the writes that it did.
        self.writes = []
        self.blocks = Blocks(policy)
        self.agrees = True


class Model:
    def __init__(self, policy, lines, ran):
        self.policy, self.ran = policy, ran
        self.graph, self.numbers = Graph(), {}
        self.commands, self.facts, self.effects, self.entries, self.whys = [], Table(), Table(), Table(), Table()
        self.replicas = []
        self.names = self.author_names(lines)
        self.held, self.messages, self.lines = {}, 0, []
        self.sizes = []
        self.differs = []
        for line, groups in ran.printed:
            self.lines.append(self.told(line, groups))
            self.sizes.append([len(it) for it in (self.commands, self.facts.rows, self.effects.rows, self.entries.rows, self.whys.rows)])
        for line in lines[len(ran.printed) :]:
            # The run ended before them; their messages can't be named either.
            self.lines.append({"t": self.shown(line.text), "k": line.kind, "late": 1})
            self.sizes.append(self.sizes[-1] if self.sizes else [0] * 5)
        self.link_children()

    @staticmethod
    def author_names(lines):
        found = [it.replica for it in lines if it.replica]
        for line in lines:
            if line.kind in ("init", "act"):
                found += re.findall(r"@([a-z0-9_]{1,16})", line.words[1])
        return {author_id(it): it for it in found}

    def pretty(self, text):
        return words.pretty(text, self.names)

    @staticmethod
    def shown(text):
        text = text.encode("utf-8", "surrogateescape").decode("utf-8", "replace")
        return text if len(text) <= LONGEST_TEXT else text[:LONGEST_TEXT] + f" .. ({len(text)} characters)"

    # ---- commands

    def add_command(self, text):
        """The number of a command that a graph lists."""
        shown = command_printed(text)
        if shown.id in self.numbers:
            return self.numbers[shown.id]
        command = self.ran.commands.get(shown.id, shown)
        number = self.numbers[shown.id] = len(self.commands)
        parents = [self.numbers[it] for it in command.parents]
        self.graph.add(command, parents)
        self.commands.append(self.command_row(command, parents))
        return number

    def command_row(self, command, parents):
        author = self.names.get(command.author) or (command.author[:8] + ".." if command.author else "")
        fields = self.fields(command)
        return {
            "id": command.id,
            "kind": command.kind,
            "name": command.name,
            "priority": command.priority,
            "parents": parents,
            "author": author,
            "fields": None if fields is None else [[name, self.pretty(printed(value))] for name, value in fields],
        }

    def fields(self, command):
        """The values of a command's fields, or None where its bytes weren't found."""
        if not command.author:
            return None
        declared = self.policy.of("command")[command.name].get("fields", [])
        return Payload(command.payload, self.policy.structs, self.policy.variant).fields(declared)

    def link_children(self):
        """A merge has no author. It stands in the column of the first command that names it, or of its first parent."""
        for row in self.commands:
            row["column"] = row["author"]
        for row in reversed(self.commands):
            for parent in row["parents"]:
                if self.commands[parent]["kind"] == "merge":
                    self.commands[parent]["column"] = row["column"]
        for row in self.commands:
            if not row["column"] and row["parents"]:
                row["column"] = self.commands[row["parents"][0]]["column"]

    def called(self, number, author=True):
        """A command in words, by its name, its arguments and maybe its author."""
        row = self.commands[number]
        fields = ", ".join(value for _, value in row["fields"] or [])
        return f"{row['name']}({fields})" + (f" by {row['author']}" if author else "")

    # ---- lines

    def told(self, line, groups):
        """A line as the page shows it."""
        row = {"t": self.shown(line.text), "k": line.kind}
        if not groups:
            return row
        own, *watched = groups
        row["p"] = [self.pretty(it) for it in own[:1] + [it for it in own[1:] if it.startswith("  refused ")]]
        row["s"] = [self.pretty(it) for it in words.told(line, own)]
        row["x"] = sorted({"refused"} if any(" refused " in it and not it.split(": ", 1)[-1].startswith(("added", "answers")) for it in own) else [])
        if line.kind == "replica":
            self.replicas.append(line.replica)
            self.held[line.replica] = Held(self.policy)
        if line.replica in self.replicas:
            row["r"] = self.replicas.index(line.replica)
        if line.kind in ("join", "sync"):
            row["o"] = self.replicas.index(line.words[1])
        self.tell_messages(line, own, row)
        if len(watched) == 3:
            self.tell_change(line, own, watched, row)
        return row

    def tell_messages(self, line, own, row):
        if line.kind in ("answer", "take", "next"):
            row["u"] = int(line.words[1])
        if line.kind in MAKING:
            self.messages += 1
            row["m"] = self.messages
            row["made"] = int(": message " in own[0])

    def tell_change(self, line, own, watched, row):
        """What a line changed of its replica, from the texts of its graph, facts and effects."""
        held = self.held[line.replica]
        graph, facts, effects = (it[1:] for it in watched)
        facts = [it[2:] for it in facts]
        effects = [(it[2:].removesuffix(" recalled"), it.endswith(" recalled")) for it in effects]
        if graph == held.graph_texts and facts == held.facts and effects == held.effects:
            return
        before, entries_before, agreed = held.facts, held.entries, held.agrees
        new = [self.add_command(it) for it in graph[len(held.graph_texts) :]]
        held.graph_texts, held.facts, held.effects = graph, facts, effects
        held.commands = held.commands + new
        braid = self.graph.braid(held.commands)
        cut = common(held.braid, braid)
        self.run_entries(line, held, braid, cut)
        delta = {"g": new, "f": splice([self.facts.number(it) for it in before], [self.facts.number(it) for it in facts]), "c": cut}
        delta["e"] = splice(entries_before, held.entries)
        if not held.agrees:
            delta["effects"] = [[self.effects.number(text), int(recalled)] for text, recalled in effects]
            if agreed:
                self.differs.append(line.number)
        row["d"] = delta
        told_cut = words.numbers(own[0]).get("cut")
        if told_cut not in (None, cut):
            self.differs.append(line.number)
        row["q"] = list(self.turned(entries_before, held, line.replica))
        row["x"] = sorted({*row["x"], *(outcome for _, outcome, _ in row["q"])})
        held.facts_before = before

    def turned(self, before, held, replica):
        """Which commands came to be recalled or void at this line: a title, the outcome and the number of why. Those of one author for one reason are told at once."""
        old = {self.entries.rows[it][0]: self.entries.rows[it][1] for it in before}
        groups = {}
        for number in held.entries:
            command, outcome, _, why = self.entries.rows[number]
            if why is not None and old.get(command) != outcome:
                groups.setdefault((self.commands[command]["author"], old.get(command), outcome, why), []).append(command)
        for (author, was, outcome, why), commands in groups.items():
            called = " and ".join(self.called(it, author=False) for it in commands)
            one = len(commands) == 1
            first = {None: "", "passed": " passed before, and"}.get(was, f" {'was' if one else 'were'} {was} before, and")
            yield f"{called} by {author}{first} {'is' if one else 'are'} {'now ' if was else ''}{outcome} on {replica}.", outcome, why

    # ---- entries

    def run_entries(self, line, held, braid, cut):
        """Runs the braid from the cut on, and compares what comes of it with what was printed."""
        for writes in reversed(held.writes[cut:]):
            held.blocks.facts.undo(writes)
        held.writes, held.entries = held.writes[:cut], held.entries[:cut]
        held.braid = braid
        try:
            for place in range(cut, len(braid)):
                held.entries.append(self.run_entry(held, place))
            found = [(self.effects.rows[it], outcome == "recalled") for entry in held.entries for _, outcome, effects, _ in [self.entries.rows[entry]] for it in effects]
            held.agrees = found == held.effects and held.blocks.printed_facts() == held.facts
        except Exception as error:
            print(f"show: line {line.number}: outcomes can't be worked out: {error!r}", file=sys.stderr)
            held.agrees = False
        if not held.agrees:
            held.writes = [[] for _ in braid]
            held.entries = [self.entries.number((it, "unknown", (), None)) for it in braid]

    def run_entry(self, held, place):
        number = held.braid[place]
        command = self.graph.commands[number]
        fields = self.fields(command)
        if fields is None:
            raise ValueError("a command's bytes weren't found in a journal")
        outcome, writes, effects, failed = held.blocks.run(command.name, fields, command.author, command.id)
        why = None
        if failed is not None:
            # The check read the facts before the recall block's writes.
            held.blocks.facts.undo(writes)
            why = self.whys.number(tuple(self.why(held, place, failed, outcome)))
            for fact, keys, _, values in writes:
                held.blocks.facts.put(fact, keys, values)
        held.writes.append(writes)
        return self.entries.number((number, outcome, tuple(self.effects.number(it) for it in effects), why))

    def why(self, held, place, failed, outcome):
        """Why a command is recalled or void, in sentences."""
        if isinstance(failed, Fault):
            yield f"Its policy block ends in a fault: {words.FAULTS.get(str(failed), str(failed))}."
            if failed.wanted:
                yield from self.read_of(held, place, failed.wanted)
            yield "After a fault no recall block runs, and nothing counts."
            return
        condition = failed.condition
        text = condition.text if condition.text.startswith("check_unwrap") else f"check {condition.text}"
        yield f"`{text}` fails where it now stands in the braid (line {condition.line} of the policy)."
        seen = set()
        for wanted in failed.reads:
            if wanted.key() not in seen:
                seen.add(wanted.key())
                yield from self.read_of(held, place, wanted)
        command = self.graph.commands[held.braid[place]]
        has_block = "recall" in self.policy.of("command")[command.name]
        if outcome == "void":
            yield "Its recall block doesn't pass either, so nothing counts."
        else:
            yield "So its recall block ran in place of its policy block." if has_block else "It has no recall block, so it is recalled without writes and effects."

    def read_of(self, held, place, wanted):
        """What a failed check read, who wrote that last, and why that stands before it."""
        head = self.policy.of("fact")[wanted.name]
        keys = ", ".join(f"{name}: {self.pretty(printed(value))}" for (name, _), value in zip(head[0], wanted.keys))
        values = ", ".join(f"{head[1][at][0]}: {self.pretty(printed(value))}" for at, value in wanted.values)
        fact = f"{wanted.name}[{keys}]" + (f"=>{{{values}}}" if values else "")
        is_there = held.blocks.facts.matching(wanted, len(head[0]))
        found = self.last_write(held, place, wanted)
        if found is None:
            yield f"{fact} {'is there' if is_there else 'is not there'}."
            return
        writer, did = found
        number, other = held.braid[writer], held.braid[place]
        called = f"{self.called(number)} (place {writer + 1})"
        yield f"{fact} {'is there' if is_there else 'is not there'}: {called} {did} it."
        if self.graph.is_ancestor(number, other):
            yield f"{self.commands[number]['name']} is an ancestor of this command."
            return
        rule, top = self.graph.why_before(number, other, held.braid)
        author = self.commands[other]["author"]
        name = self.commands[number]["name"]
        apart = f"{author} made this command without having {'that one' if name == self.commands[other]['name'] else name}"
        through = f", and {self.called(top)} comes after it and before this one" if top is not None else ""
        yield f"{apart}, which yet stands before it in the braid{through}: {rule}."

    def last_write(self, held, place, wanted):
        """The place of the last entry before this one that wrote a wanted row, and what it did."""
        count = len(wanted.keys)
        for at in range(place - 1, -1, -1):
            for fact, keys, before, after in reversed(held.writes[at]):
                if fact == wanted.name and keys[:count] == wanted.keys:
                    return at, "deleted" if after is None else "updated" if before is not None else "created"
        return None

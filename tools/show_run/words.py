"""What a printed line says, in sentences (docs/SCRIPT.md and docs/GLOSSARY.md have the words)."""
import re

ID = re.compile(r"id:([0-9a-f]{64})|\b([0-9a-f]{64})\b")

# Why a command is refused, and why a line is.
COMMAND_REASONS = {
    "collision": "its id is held with other bytes",
    "other init": "it begins another graph, or one under another policy",
    "missing parent": "that parent isn't held",
    "bad envelope": "its tag isn't good for its author and its body",
    "unknown command": "the policy has no command of its name",
    "wrong kind": "its kind or its priority isn't the one that the policy declares",
    "payload": "its payload is no value of its fields",
    "check": "a check of its policy block fails over the facts at its place",
    "fault": "its policy block ends in a fault over the facts at its place",
    "parallel finalize": "it is a finalize command, and that held one isn't its ancestor",
    "full": "the replica is full",
}
LINE_REASONS = {
    "has graph": "the replica has a graph already",
    "no graph": "a replica that the line needs has no graph yet, or holds no command",
    "unknown action": "the policy has no action of this name",
    "arguments": "their number or a kind isn't that of the action's parameters",
    "check": "a check of the action fails",
    "fault": "the action ends in a fault",
    "collision": "a new command would have the id of one that is held, or that the action made before",
    "full": "the replica is full",
    "malformed": "the message has no form that is asked for",
    "other graph": "the message is of another graph",
}
FAULTS = {
    "unwrap": "an `unwrap` of None",
    "exists": "a `create` of a fact that is there",
    "missing": "an `update` or `delete` of a fact that isn't there",
    "differs": "an `update` that names an old value which the fact doesn't have",
    "turns": "more than 100,000 turns",
    "too long": "a payload of more than 4,096 bytes",
}


def counted(count, one, many=None):
    return f"{count} {one if count == 1 else many or one + 's'}"


def reason(why, reasons):
    """A reason as it is printed, with what the documents say of it."""
    found = next((it for it in sorted(reasons, key=len, reverse=True) if why == it or why.startswith(it + " ")), None)
    if found is None:
        return why
    told = reasons[found]
    if found == "fault":
        told += f": {FAULTS.get(why[6:], why[6:])}"
    return f"`{why}`: {told}"


def refused_line(who, why):
    command = re.match(r"command (\w+): (.*)$", why)
    if command:
        inner = reason(command[2], COMMAND_REASONS)
        return f"Refused, and nothing of it is kept. Of the command {command[1]} that it publishes the reason is {inner}."
    return f"Refused, and nothing of it is kept. The reason is {reason(why, LINE_REASONS)}."


def numbers(text):
    """The counts of a printed line by their names."""
    return {name: int(value) for name, value in re.findall(r"(\w+) (\d+)", text)}


def told_act(who, counts):
    yield f"The action published {counted(counts['published'], 'command')}."
    if counts["merges"]:
        yield f"{counted(counts['merges'], 'merge')} joined the heads before."
    yield told_batch(counts)


def told_batch(counts):
    kept = f"Cut {counts['cut']}: {counted(counts['cut'], 'entry', 'entries')} of the run before still {'stands' if counts['cut'] == 1 else 'stand'} at the front"
    return f"{kept}, and {counted(counts['entries'], 'command')} ran anew after {'it' if counts['cut'] == 1 else 'them'}."


def told_taken(who, counts):
    yield f"New to {who}: {counted(counts['added'], 'command')}; held before: {counts['repeat']}; refused: {counts['refused']}."
    if "cut" in counts:
        yield told_batch(counts)


def told(line, group):
    """What a line's own text says, as a list of sentences."""
    head = group[0].split(": ", 1)[-1]
    who = line.replica
    if head.startswith("refused "):
        return [refused_line(who, head[8:])]
    if head == "no message":
        return ["That message wasn't made, so nothing happens."]
    counts = numbers(head)
    if line.kind in ("init", "act"):
        found = list(told_act(who, counts))
    elif line.kind in ("take", "sync"):
        found = list(told_taken(who, counts))
    else:
        found = told_other(line, head, counts, group)
    return found + [f"The command {it[10:18]}.. is refused, by {reason(it.split(': ', 1)[1], COMMAND_REASONS)}." for it in group[1:] if it.startswith("  refused ")]


def told_other(line, head, counts, group):
    who, words = line.replica, line.words
    if line.kind == "replica":
        return [f"The replica {who} is declared. It holds {counted(numbers(group[0]).get('holds', 0), 'command')}."]
    if line.kind == "join":
        return [f"{who} takes on the graph of {words[1]}, with no commands yet."]
    if line.kind == "ask":
        return [f"{who} makes message {counts['message']}, a request: it says what {who} holds."]
    if line.kind == "answer":
        more = "More would follow." if head.endswith("yes") else "Nothing more follows."
        return [f"{who} answers message {words[1]} by message {counts['message']}, with {counted(counts['commands'], 'command')}. {more}"]
    if line.kind == "next":
        made = f"{who} makes message {counts['message']}, a request for what follows message {words[1]}." if counts else f"Nothing follows message {words[1]}."
        return [made]
    if line.kind == "inject":
        return [f"Message {counts['message']} is made of these bytes."]
    if line.kind == "restart":
        return [f"The journal of {who} is opened again. It holds {counted(counts['holds'], 'command')}."]
    return []


def pretty(text, names):
    """A text with ids shortened: an author's to the name that a script gives it, another to its first eight digits."""
    return ID.sub(lambda it: f"@{names[it[1]]}" if it[1] in names else f"id:{it[1][:8]}.." if it[1] else f"{it[2][:8]}..", text)

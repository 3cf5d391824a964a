"""What the blocks of a policy do (docs/POLICY.md, 'What a policy does'), to tell which check failed and what it read.

The program decides: what is worked out here is shown only where it comes to the facts and effects that the program prints.
"""
from .values import Id, Some, Struct, order, printed, printed_fact

MOST_TURNS = 100_000
LEAST, MOST = -(1 << 63), (1 << 63) - 1


class Check(Exception):
    """A failed check, with the patterns of facts that it read."""

    def __init__(self, condition, reads):
        self.condition, self.reads = condition, reads


class Fault(Exception):
    """A fault of a kind of docs/POLICY.md, with the row that it is about where a write met it."""

    def __init__(self, kind, wanted=None):
        super().__init__(kind)
        self.wanted = wanted


class Returned(Exception):
    def __init__(self, value):
        self.value = value


class Facts:
    """The facts by name and keys. Each write tells what stood there before, so that it can be taken back."""

    def __init__(self):
        self.rows = {}

    def get(self, fact, keys):
        return self.rows.get(fact, {}).get(keys)

    def put(self, fact, keys, values):
        """Sets a row's values, or takes it away where they are None."""
        rows = self.rows.setdefault(fact, {})
        before = rows.pop(keys, None)
        if values is not None:
            rows[keys] = values
        return fact, keys, before, values

    def undo(self, writes):
        for fact, keys, before, _ in reversed(writes):
            self.put(fact, keys, before)

    def matching(self, wanted, arity):
        """The rows that are wanted, in no order: a leading part of the keys, and some values."""
        rows = self.rows.get(wanted.name, {})
        count = len(wanted.keys)
        if count == arity:
            found = [(wanted.keys, rows[wanted.keys])] if wanted.keys in rows else []
        else:
            found = [it for it in rows.items() if it[0][:count] == wanted.keys]
        return [(keys, values) for keys, values in found if all(values[at] == it for at, it in wanted.values)]


class Wanted:
    """What a pattern asks for, once its expressions have values."""

    def __init__(self, name, keys, values):
        self.name, self.keys, self.values = name, keys, values

    def key(self):
        return self.name, self.keys, self.values


class Blocks:
    """Runs the blocks of commands over facts."""

    def __init__(self, policy):
        self.policy, self.facts = policy, Facts()

    # ---- commands

    def run(self, name, fields, author, id):
        """Runs a command: its outcome, its writes, its effects, and the failed check or fault of its policy block if there is one."""
        sections = self.policy.of("command")[name]
        call = Struct(name, fields), Id(author), Id(id)
        try:
            return ("passed", *self.block(sections["policy"], call), None)
        except Fault as fault:
            return "void", [], [], fault
        except Check as check:
            failed = check
        try:
            return ("recalled", *self.block(sections.get("recall", []), call), failed)
        except (Fault, Check):
            return "void", [], [], failed

    def block(self, statements, call):
        """The writes, which are then done, and the effects of a policy or recall block."""
        self.this, self.author, self.id = call
        self.turns, self.reads = MOST_TURNS, []
        changes = self.statements(statements, {}) or []
        writes, effects = [], []
        try:
            for change in changes:
                if change[0] == "emit":
                    effects.append(printed(change[1]))
                else:
                    writes.append(self.write(*change))
        except Fault:
            self.facts.undo(writes)
            raise
        return writes, effects

    def write(self, kind, fact, keys, old, values):
        held, wanted = self.facts.get(fact, keys), Wanted(fact, keys, ())
        if kind == "create" and held is not None:
            raise Fault("exists", wanted)
        if kind != "create" and held is None:
            raise Fault("missing", wanted)
        if any(held[at] != it for at, it in old):
            raise Fault("differs", wanted)
        return self.facts.put(fact, keys, values)

    def printed_facts(self):
        """All facts as the program prints them, in fact order."""
        return [
            printed_fact(fact, self.named(keys, head[0]), self.named(values, head[1]))
            for fact, head in self.policy.of("fact").items()
            for keys, values in sorted(self.facts.rows.get(fact, {}).items(), key=lambda it: tuple(map(order, it[0])))
        ]

    @staticmethod
    def named(values, fields):
        return tuple((name, value) for (name, _), value in zip(fields, values))

    # ---- statements

    def turn(self):
        if self.turns == 0:
            raise Fault("turns")
        self.turns -= 1

    def checked(self, condition, holds):
        """Whether a condition holds by `holds`, which reads its value; else the check fails."""
        begun = len(self.reads)
        value = holds(condition)
        if value is None:
            raise Check(condition, self.reads[begun:] or self.reads)
        return value

    def statements(self, statements, names):
        """Runs statements until one ends the block. It gives the changes of a `finish`, or None."""
        names = dict(names)
        for kind, *parts in statements:
            if kind == "let":
                names[parts[0]] = self.value(parts[1], names)
            elif kind == "check":
                self.checked(parts[0], lambda it: self.value(it.expression, names) or None)
            elif kind == "return":
                raise Returned(self.value(parts[0], names))
            elif kind == "finish":
                return self.listed(parts[0], names)
            else:
                inner = self.chosen(kind, parts, names)
                changes = self.statements(inner, names)
                if changes is not None:
                    return changes
        return None

    def chosen(self, kind, parts, names):
        """The statements inside of an `if` or a `match` that run."""
        value = self.value(parts[0], names)
        if kind == "if":
            return parts[1] if value else parts[2]
        return next(body for literals, body in parts[1] if literals is None or any(self.value(it, {}) == value for it in literals))

    # ---- what `finish` lists

    def listed(self, statements, names):
        changes = []
        for kind, *parts in statements:
            if kind == "emit":
                changes.append((kind, self.value(parts[0], names)))
            elif kind == "call":
                changes += self.called_finish(parts[0], [self.value(it, names) for it in parts[1]])
            elif kind == "update":
                wanted = self.wanted(parts[0], names)
                changes.append((kind, wanted.name, wanted.keys, wanted.values, self.in_order(wanted.name, parts[1], names)))
            else:
                fact, keys, values = parts
                keys = tuple(self.value(it, names) for _, it in keys)
                changes.append((kind, fact, keys, (), self.in_order(fact, values, names) if kind == "create" else None))
        return changes

    def called_finish(self, name, values):
        self.turn()
        parameters, body = self.policy.of("finish function")[name]
        return self.listed(body, {it[0]: value for it, value in zip(parameters, values)})

    def in_order(self, fact, binds, names):
        given = {name: self.value(it, names) for name, it in binds}
        return tuple(given[name] for name, _ in self.policy.of("fact")[fact][1])

    def wanted(self, pattern, names):
        keys = []
        for _, it in pattern.keys:
            keys.append(None if it is None else self.value(it, names))
        given = sum(1 for _, it in pattern.keys if it is not None)
        places = [name for name, _ in self.policy.of("fact")[pattern.fact][1]]
        values = tuple((places.index(name), self.value(it, names)) for name, it in pattern.values if it is not None)
        return Wanted(pattern.fact, tuple(keys[:given]), values)

    # ---- expressions

    def value(self, expression, names):
        return getattr(self, "of_" + self.METHODS.get(expression[0], expression[0]))(*expression[1:], names)

    METHODS = {"!": "not", "is": "presence", "or": "either", "and": "both"}

    def of_literal(self, value, names):
        return value

    def of_variant(self, enum, name, names):
        return self.policy.variant_named(enum, name)

    def of_none(self, names):
        return None

    def of_some(self, inner, names):
        return Some(self.value(inner, names))

    def of_this(self, names):
        return self.this

    def of_name(self, name, names):
        return names[name] if name in names else self.value(self.policy.of("let")[name], {})

    def of_field(self, inner, name, names):
        return next(value for field, value in self.value(inner, names).fields if field == name)

    def of_not(self, inner, names):
        return not self.value(inner, names)

    def of_either(self, left, right, names):
        return self.value(left, names) or self.value(right, names)

    def of_both(self, left, right, names):
        return self.value(left, names) and self.value(right, names)

    def of_compare(self, sign, left, right, names):
        one, other = self.value(left, names), self.value(right, names)
        if sign in ("==", "!="):
            return (one == other) == (sign == "==")
        return {"<": one < other, "<=": one <= other, ">": one > other, ">=": one >= other}[sign]

    def of_presence(self, inner, word, names):
        return (self.value(inner, names) is None) == (word == "None")

    def of_unwrap(self, inner, names):
        value = self.value(inner, names)
        if value is None:
            raise Fault("unwrap")
        return value.value

    def of_check_unwrap(self, condition, names):
        return self.checked(condition, lambda it: self.value(it.expression, names)).value

    def of_arithmetic(self, word, left, right, names):
        one, other = self.value(left, names), self.value(right, names)
        result = one + other if word.endswith("add") else one - other
        if word.startswith("saturating"):
            return min(max(result, LEAST), MOST)
        return Some(result) if LEAST <= result <= MOST else None

    def of_foreign(self, module, name, arguments, names):
        return self.author if name == "author_id" else self.id

    def of_call(self, name, arguments, names):
        values = [self.value(it, names) for it in arguments]
        self.turn()
        parameters, body = self.policy.of("function")[name]
        try:
            self.statements(body, {it[0]: value for it, value in zip(parameters, values)})
        except Returned as returned:
            return returned.value
        raise ValueError(f"{name} returns nothing")

    def of_struct(self, name, binds, names):
        given = {field: self.value(it, names) for field, it in binds}
        return Struct(name, tuple((field, given[field]) for field, _ in self.policy.structs[name]))

    def of_choose(self, head, then, otherwise, names):
        lets, value = then if self.value(head, names) else otherwise
        names = dict(names)
        for name, it in lets:
            names[name] = self.value(it, names)
        return self.value(value, names)

    def rows(self, pattern, names):
        wanted = self.wanted(pattern, names)
        self.reads.append(wanted)
        return self.facts.matching(wanted, len(self.policy.of("fact")[pattern.fact][0]))

    def of_query(self, pattern, names):
        rows = self.rows(pattern, names)
        if not rows:
            return None
        keys, values = min(rows, key=lambda it: tuple(map(order, it[0])))
        head = self.policy.of("fact")[pattern.fact]
        return Some(Struct(pattern.fact, self.named(keys, head[0]) + self.named(values, head[1])))

    def of_exists(self, pattern, names):
        return bool(self.rows(pattern, names))

    def of_count(self, word, limit, pattern, names):
        count = len(self.rows(pattern, names))
        if word == "count_up_to":
            return min(count, limit)
        return {"at_least": count >= limit, "at_most": count <= limit, "exactly": count == limit}[word]

"""Reads a policy that the program has taken, into items (docs/POLICY.md, 'The grammar'). It judges nothing."""
import re
from typing import NamedTuple

from .values import Variant

TOKEN = re.compile(
    r"(?P<gap>[ \t\r\n]+|//[^\n]*|/\*.*?\*/)|(?P<word>[A-Za-z][A-Za-z0-9_]*)|(?P<number>-?[0-9]+)"
    r'|(?P<text>"(?:[^"\\\n]|\\.)*")|(?P<sign>::|=>|==|!=|<=|>=|&&|\|\||[][{}(),:.?=<>|!_])',
    re.S,
)
RESERVED = set(
    "use let enum struct effect immutable fact command function finish action check if else match map publish return create"
    " update delete emit is Some None unwrap check_unwrap this add sub saturating_add saturating_sub query exists at_least"
    " at_most exactly count_up_to true false optional".split()
)
COUNTS = {"at_least", "at_most", "exactly", "count_up_to"}
ARITHMETIC = {"add", "sub", "saturating_add", "saturating_sub"}
COMPARISONS = {"==", "!=", "<", "<=", ">", ">="}


class Token(NamedTuple):
    kind: str
    text: str
    line: int
    # Its block's text with its place there, from which a piece of source is shown.
    source: str
    start: int
    end: int


class Pattern(NamedTuple):
    fact: str
    # Pairs of a name and an expression, which is None for a `?`.
    keys: list
    values: list


class Condition(NamedTuple):
    """An expression that may fail, with its source and its line in the document."""

    expression: tuple
    text: str
    line: int


def blocks(document):
    """The policy blocks of a document, each with the number of its first line."""
    lines = document.split("\n")
    at = 1 + next(n for n, it in enumerate(lines[1:], 1) if it.rstrip(" \r") == "---")
    while at < len(lines):
        opened = re.match(r" {0,3}(```+)([^`]*)$", lines[at].rstrip("\r"))
        at += 1
        if not opened:
            continue
        first, ticks = at, len(opened[1])
        while at < len(lines) and not re.match(rf" {{0,3}}`{{{ticks},}} *$", lines[at].rstrip("\r")):
            at += 1
        if opened[2].split()[:1] == ["policy"]:
            yield first + 1, "\n".join(lines[first:at])
        at += 1


def tokens(document):
    for line, source in blocks(document):
        at = 0
        while at < len(source):
            found = TOKEN.match(source, at)
            if not found:
                raise ValueError(f"no token of a policy: {source[at : at + 20]!r}")
            if found.lastgroup != "gap":
                yield Token(found.lastgroup, found[0], line, source, at, found.end())
            line += found[0].count("\n")
            at = found.end()


def unescaped(text):
    return re.sub(r"\\(.)", lambda it: "\n" if it[1] == "n" else it[1], text[1:-1])


class Parser:
    def __init__(self, document):
        self.tokens, self.at = list(tokens(document)), 0

    # ---- tokens

    def text(self, ahead=0):
        at = self.at + ahead
        return self.tokens[at].text if at < len(self.tokens) else ""

    def sees(self, *texts):
        return self.text() in texts and self.tokens[self.at].kind != "text"

    def take(self, wanted=None):
        token = self.tokens[self.at]
        if wanted is not None and token.text != wanted:
            raise ValueError(f"line {token.line}: {token.text} in the place of {wanted}")
        self.at += 1
        return token.text

    def took(self, text):
        if self.sees(text):
            self.at += 1
            return True
        return False

    def list(self, closing, one):
        """What stands up to the closing sign, with commas between."""
        found = []
        while not self.took(closing):
            found.append(one())
            if not self.took(","):
                self.take(closing)
                break
        return found

    def until(self, closing, one):
        found = []
        while not self.took(closing):
            found.append(one())
        return found

    def condition(self, parse):
        """What `parse` reads, with its source: on one line, without what stands between its tokens in excess."""
        first = self.tokens[self.at]
        expression = parse()
        last = self.tokens[self.at - 1]
        text = first.source[first.start : last.end] if first.source is last.source else first.text
        return Condition(expression, " ".join(text.split()), first.line)

    # ---- items

    def items(self):
        found = []
        while self.at < len(self.tokens):
            found.append(self.item())
        return found

    def item(self):
        line = self.tokens[self.at].line
        self.took("immutable")
        kind = self.take()
        if kind == "finish":
            kind = "finish " + self.take("function")
        name = self.take()
        return kind, name, line, getattr(self, "item_" + kind.replace(" ", "_"))()

    def item_use(self):
        return None

    def item_let(self):
        self.take("=")
        return self.literal()

    def item_enum(self):
        self.take("{")
        return self.list("}", self.take)

    def item_struct(self):
        self.take("{")
        return self.list("}", self.field)

    item_effect = item_struct

    def item_fact(self):
        self.take("[")
        keys = self.list("]", self.field)
        self.take("=>")
        self.take("{")
        return keys, self.list("}", self.field)

    def item_function(self):
        parameters = self.parameters()
        self.type()
        return parameters, self.block()

    def item_finish_function(self):
        return self.parameters(), self.finish_block()

    def item_action(self):
        return self.parameters(), self.block()

    def item_command(self):
        self.take("{")
        self.sources = []
        sections = dict(self.until("}", self.section))
        return {**sections, "source": "\n".join(self.sources)}

    def section(self):
        first = self.tokens[self.at]
        name = self.take()
        if name in ("policy", "recall"):
            block, last = self.block(), self.tokens[self.at - 1]
            self.sources.append(first.source[first.start : last.end] if first.source is last.source else "")
            return name, block
        self.take("{")
        if name == "fields":
            return name, self.list("}", self.field)
        if name == "attributes":
            return name, dict(self.list("}", self.attribute))
        return name, self.until("}", self.take_any)

    def take_any(self):
        """A token of `seal` or `open`. No braces stand in them."""
        return self.take()

    def attribute(self):
        name = self.take()
        self.take(":")
        return name, self.literal()

    def parameters(self):
        self.take("(")
        return self.list(")", self.field)

    def field(self):
        name, type = self.take(), self.type()
        self.took("dynamic")
        return name, type

    def type(self):
        kind = self.take()
        if kind in ("enum", "struct"):
            return kind, self.take()
        return (kind, self.type()) if kind == "optional" else (kind,)

    # ---- statements

    def block(self):
        self.take("{")
        return self.until("}", self.statement)

    def statement(self):
        if self.sees("let"):
            return ("let", *self.let())
        if self.sees("if"):
            return self.if_statement()
        kind = self.take()
        if kind == "check":
            return kind, self.condition(self.expression)
        if kind == "match":
            head = self.expression(head=True)
            self.take("{")
            return kind, head, self.until("}", self.arm)
        if kind == "finish":
            return kind, self.finish_block()
        if kind == "map":
            pattern = self.pattern()
            self.take("as")
            return kind, pattern, self.take(), self.block()
        return kind, self.expression()

    def let(self):
        self.take("let")
        name = self.take()
        self.take("=")
        return name, self.expression()

    def if_statement(self):
        self.take("if")
        head, then, otherwise = self.expression(head=True), self.block(), []
        if self.took("else"):
            otherwise = [self.if_statement()] if self.sees("if") else self.block()
        return "if", head, then, otherwise

    def arm(self):
        literals = None
        if not self.took("_"):
            literals = [self.pattern_literal()]
            while self.took("|"):
                literals.append(self.pattern_literal())
        self.take("=>")
        body = self.block()
        self.took(",")
        return literals, body

    def pattern_literal(self):
        return ("none",) if self.took("None") else self.literal()

    def finish_block(self):
        self.take("{")
        return self.until("}", self.finish_statement)

    def finish_statement(self):
        kind = self.take()
        if kind in ("create", "delete"):
            fact = self.take()
            self.take("[")
            keys = self.list("]", self.bind)
            return kind, fact, keys, self.values() if kind == "create" else []
        if kind == "update":
            pattern = self.pattern()
            self.take("to")
            self.take("{")
            return kind, pattern, self.list("}", self.bind)
        if kind == "emit":
            return kind, self.expression()
        self.take("(")
        return "call", kind, self.list(")", self.expression)

    def values(self):
        self.take("=>")
        self.take("{")
        return self.list("}", self.bind)

    def bind(self):
        name = self.take()
        self.take(":")
        return name, self.expression()

    def free(self):
        name = self.take()
        self.take(":")
        return name, None if self.took("?") else self.expression()

    def pattern(self):
        fact = self.take()
        self.take("[")
        keys, values = self.list("]", self.free), []
        if self.took("=>"):
            self.take("{")
            values = self.list("}", self.free)
        return Pattern(fact, keys, values)

    # ---- expressions; `head` says that no struct may stand outside of brackets

    def expression(self, head=False):
        left = self.conjunction(head)
        while self.took("||"):
            left = "or", left, self.conjunction(head)
        return left

    def conjunction(self, head):
        left = self.comparison(head)
        while self.took("&&"):
            left = "and", left, self.comparison(head)
        return left

    def comparison(self, head):
        left = self.unary(head)
        if self.sees(*COMPARISONS):
            sign = self.take()
            return "compare", sign, left, self.unary(head)
        if self.took("is"):
            return "is", left, self.take()
        return left

    def unary(self, head):
        if self.sees("!", "unwrap"):
            return self.take(), self.unary(head)
        if self.sees("check_unwrap"):
            return "check_unwrap", self.condition(lambda: (self.take(), self.unary(head))[1])
        value = self.primary(head)
        while self.took("."):
            value = "field", value, self.take()
        return value

    def primary(self, head):
        if self.tokens[self.at].kind in ("number", "text") or self.sees("true", "false"):
            return self.literal()
        word = self.take()
        if word == "(":
            inner = self.expression()
            self.take(")")
            return inner
        if word == "None":
            return ("none",)
        if word == "Some":
            self.take("(")
            inner = self.expression()
            self.take(")")
            return "some", inner
        if word == "this":
            return ("this",)
        if word in ("query", "exists"):
            return word, self.pattern()
        if word in COUNTS:
            limit = int(self.take())
            return "count", word, limit, self.pattern()
        if word in ARITHMETIC:
            self.take("(")
            return ("arithmetic", word, *self.list(")", self.expression))
        if word == "if":
            return self.if_expression()
        return self.named(word, head)

    def named(self, word, head):
        if self.took("::"):
            inner = self.take()
            if self.took("("):
                return "foreign", word, inner, self.list(")", self.expression)
            return "variant", word, inner
        if self.took("("):
            return "call", word, self.list(")", self.expression)
        if not head and self.took("{"):
            return "struct", word, self.list("}", self.bind)
        return "name", word

    def if_expression(self):
        head, then = self.expression(head=True), self.expression_block()
        self.take("else")
        if self.took("if"):
            return "choose", head, then, ([], self.if_expression())
        return "choose", head, then, self.expression_block()

    def expression_block(self):
        self.take("{")
        lets = []
        while not self.took(":"):
            lets.append(self.let())
        value = self.expression()
        self.take("}")
        return lets, value

    def literal(self):
        token = self.tokens[self.at]
        self.at += 1
        if token.kind == "number":
            return "literal", int(token.text)
        if token.kind == "text":
            return "literal", unescaped(token.text)
        if token.text in ("true", "false"):
            return "literal", token.text == "true"
        self.take("::")
        return "variant", token.text, self.take()


class Policy:
    """The items of a policy by kind and name."""

    def __init__(self, document):
        self.kinds = {}
        self.places = {}
        for place, (kind, name, line, inside) in enumerate(Parser(document).items()):
            self.kinds.setdefault(kind, {})[name] = inside
            self.places[name] = place
        self.structs = {**self.of("struct"), **self.of("effect")}
        self.structs.update({name: keys + values for name, (keys, values) in self.of("fact").items()})
        self.structs.update({name: it.get("fields", []) for name, it in self.of("command").items()})

    def priorities(self):
        """The priorities that basic commands declare, from the smallest."""
        found = [it.get("attributes", {}) for it in self.of("command").values()]
        basic = [it for it in found if it.get("init", ("literal", False))[1] is False and it.get("finalize", ("literal", False))[1] is False]
        return sorted({it.get("priority", ("literal", 0))[1] for it in basic})

    def of(self, kind):
        return self.kinds.get(kind, {})

    def variant(self, enum, ordinal):
        return Variant(enum, self.of("enum")[enum][ordinal], self.places[enum], ordinal)

    def variant_named(self, enum, name):
        return self.variant(enum, self.of("enum")[enum].index(name))

"""Values of the policy language: how they are printed, ordered and read from a payload (docs/SCRIPT.md, docs/FORMATS.md)."""
from typing import NamedTuple


class Id(NamedTuple):
    hex: str


class Variant(NamedTuple):
    enum: str
    name: str
    # The place of the enum's item in the policy, and that of the variant in the enum.
    item: int
    ordinal: int


class Struct(NamedTuple):
    name: str
    # Pairs of a field's name and its value, in declared order.
    fields: tuple


class Some(NamedTuple):
    value: object


def printed(value):
    """A value as the program prints it."""
    if value is None:
        return "None"
    if isinstance(value, bool):
        return "true" if value else "false"
    if isinstance(value, int):
        return str(value)
    if isinstance(value, str):
        return '"' + value.replace("\\", "\\\\").replace('"', '\\"').replace("\n", "\\n") + '"'
    if isinstance(value, bytes):
        return "0x" + value.hex()
    if isinstance(value, Id):
        return "id:" + value.hex
    if isinstance(value, Variant):
        return f"{value.enum}::{value.name}"
    if isinstance(value, Some):
        return f"Some({printed(value.value)})"
    inside = printed_fields(value.fields)
    return f"{value.name} {{ {inside} }}" if inside else f"{value.name} {{}}"


def printed_fields(fields):
    return ", ".join(f"{name}: {printed(value)}" for name, value in fields)


def printed_fact(name, keys, values):
    """A fact as the program prints it, from the pairs of its keys and of its values."""
    return f"{name}[{printed_fields(keys)}]=>{{{printed_fields(values)}}}"


def order(value):
    """What a key is sorted by among keys of its kind."""
    if isinstance(value, str):
        return value.encode()
    if isinstance(value, Id):
        return bytes.fromhex(value.hex)
    if isinstance(value, Variant):
        return value.item, value.ordinal
    return value


class Payload:
    """Reads the bytes of a payload from the front. `structs` gives the fields of a struct, `enums` an enum's variants."""

    def __init__(self, data, structs, variant):
        self.data, self.structs, self.variant = data, structs, variant

    def take(self, count):
        if len(self.data) < count:
            raise ValueError("a payload is too short")
        front, self.data = self.data[:count], self.data[count:]
        return front

    def fields(self, fields):
        return tuple((name, self.value(type)) for name, type in fields)

    def value(self, type):
        kind = type[0]
        if kind == "int":
            return int.from_bytes(self.take(8), "big", signed=True)
        if kind == "bool":
            return self.take(1) == b"\1"
        if kind in ("string", "bytes"):
            data = self.take(int.from_bytes(self.take(4), "big"))
            return data.decode() if kind == "string" else data
        if kind == "id":
            return Id(self.take(32).hex())
        if kind == "enum":
            return self.variant(type[1], int.from_bytes(self.take(2), "big"))
        if kind == "struct":
            return Struct(type[1], self.fields(self.structs[type[1]]))
        return Some(self.value(type[1])) if self.take(1) == b"\1" else None

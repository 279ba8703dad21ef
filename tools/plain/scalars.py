"""Values of leafs, keys and leaf-lists (RFC 7950 section 9, RFC 7951 section 6; `sal_json` Read, Written, Named, Numerals, Patterns).

A value is a pair: the index of its type in a union, else 0, and an atom, a tuple that begins with the index of its kind in `Atom` of `sal_types`.
So values have the order of Python's tuples. A type is a record whose `kind` says which other members it has.
"""
import base64
import re

SIGNED, UNSIGNED, DEC, TEXT, BOOL, ENUM, BITS, BIN, IDENT, EMPTY = range(10)


class BadScalar(Exception):
    """Why a text or JSON is not a value of a type."""


def holds(parts, number):
    return any(low <= number <= high for low, high in parts)


# -- numbers (Numerals)

def whole_atom(type, number):
    at_most = 2**63 if type.signed else 2**64
    if not (-2**63 if type.signed else 0) <= number < at_most or not holds(type.parts, number):
        raise BadScalar("out-of-range")
    return (SIGNED if type.signed else UNSIGNED, number)


def int_atom(type, text):
    if not re.fullmatch(r"[+-]?[0-9]+" if type.bits == 64 else r"0|-?[1-9][0-9]*", text):
        raise BadScalar("wrong-kind")
    return whole_atom(type, int(text))


def dec_atom(type, text):
    found = re.fullmatch(r"([+-]?)([0-9]+)(?:\.([0-9]+))?", text)
    if not found:
        raise BadScalar("wrong-kind")
    sign, whole, further = found[1], found[2], found[3] or ""
    units = int(whole + further[: type.digits].ljust(type.digits, "0")) * (-1 if sign == "-" else 1)
    if further[type.digits :].strip("0") or not -2**63 <= units < 2**63 or not holds(type.parts, units):
        raise BadScalar("out-of-range")
    return (DEC, units, type.digits)


def dec_text(units, digits):
    text = str(abs(units)).rjust(digits + 1, "0")
    further = text[-digits:].rstrip("0") or "0"
    return ("-" if units < 0 else "") + text[:-digits] + "." + further


# -- texts (Read, Patterns, Named)

def pattern_of(text):
    """A pattern in the form for searching. Nested classes, classes by name and flags are not supported."""
    if re.search(r"\\[pPzA]|\(\?[^:P]|&&|\[[^\]\\]*\[", text):
        raise ValueError(f"a pattern that this tool does not read: {text}")
    return re.compile(rf"\A(?:{text})\Z")


def string_atom(type, text):
    if not holds(type.parts, len(text)):
        raise BadScalar("bad-length")
    if any(bool(pattern.search(text)) == inverted for pattern, inverted in type.patterns):
        raise BadScalar("no-match")
    return (TEXT, text)


def bits_atom(type, text):
    positions, bits = dict(type.entries), 0
    for name in text.split(" ") if text else []:
        if not name:
            raise BadScalar("wrong-kind")
        if name not in positions:
            raise BadScalar("unknown-name")
        if bits >> positions[name] & 1:
            raise BadScalar("wrong-kind")
        bits |= 1 << positions[name]
    return (BITS, bits)


def binary_atom(type, text):
    try:
        data = base64.b64decode(text.encode(), validate=True)
    except ValueError:
        raise BadScalar("wrong-kind") from None
    if base64.b64encode(data).decode() != text:
        raise BadScalar("wrong-kind")
    if not holds(type.parts, len(data)):
        raise BadScalar("bad-length")
    return (BIN, data)


def identity_atom(table, module, type, text):
    name = text.split(":", 1) if ":" in text else [table.modules[module], text]
    identity = table.identity_called.get(tuple(name))
    if identity is None or not set(type.bases) <= table.identities[identity].derived_from:
        raise BadScalar("unknown-name")
    return (IDENT, identity)


def text_atom(table, module, type, text):
    """The atom that a text denotes in a type that is not a union (Read, `text_atom`)."""
    if type.kind == "int":
        return int_atom(type, text)
    if type.kind == "dec":
        return dec_atom(type, text)
    if type.kind == "text":
        return string_atom(type, text)
    if type.kind == "bool" and text in ("true", "false"):
        return (BOOL, text == "true")
    if type.kind == "enum":
        place = next((place for name, _, place in type.entries if name == text), None)
        if place is None:
            raise BadScalar("unknown-name")
        return (ENUM, place)
    if type.kind == "bits":
        return bits_atom(type, text)
    if type.kind == "bin":
        return binary_atom(type, text)
    if type.kind == "ident":
        return identity_atom(table, module, type, text)
    if type.kind == "empty" and text == "":
        return (EMPTY,)
    raise BadScalar("wrong-kind")


def json_atom(table, module, type, json):
    """The atom that a JSON value denotes in a type that is not a union (Read, `json_atom`)."""
    if type.kind == "int" and type.bits < 64 and isinstance(json, int) and not isinstance(json, bool):
        return whole_atom(type, json)
    if type.kind == "bool" and isinstance(json, bool):
        return (BOOL, json)
    if type.kind == "empty" and json == [None]:
        return (EMPTY,)
    if not isinstance(json, str) or type.kind in ("bool", "empty") or type.kind == "int" and type.bits < 64:
        raise BadScalar("wrong-kind")
    return text_atom(table, module, type, json)


# -- written (Written)

def atom_text(table, module, type, atom):
    kind = atom[0]
    if kind in (SIGNED, UNSIGNED):
        return str(atom[1])
    if kind == DEC:
        return dec_text(*atom[1:])
    if kind == TEXT:
        return atom[1]
    if kind == BOOL:
        return "true" if atom[1] else "false"
    if kind == ENUM:
        return next(name for name, _, place in type.entries if place == atom[1])
    if kind == BITS:
        return " ".join(name for name, position in sorted(type.entries, key=lambda it: it[1]) if atom[1] >> position & 1)
    if kind == BIN:
        return base64.b64encode(atom[1]).decode()
    if kind == EMPTY:
        return ""
    identity = table.identities[atom[1]]
    return identity.name if identity.module == module else f"{table.modules[identity.module]}:{identity.name}"


def atom_json(table, module, type, atom):
    if atom[0] in (SIGNED, UNSIGNED) and type.bits < 64 or atom[0] == BOOL:
        return atom[1]
    return [None] if atom[0] == EMPTY else atom_text(table, module, type, atom)


# -- any type: a union takes the first member type that reads the value and writes it in the same form

def first_own(table, module, type, given, read):
    if type.kind != "union":
        return (0, read(table, module, type, given))
    for place, member in enumerate(type.members):
        try:
            atom = read(table, module, member, given)
        except BadScalar:
            continue
        if not isinstance(given, str) or given == atom_text(table, module, member, atom):
            return (place, atom)
    raise BadScalar("wrong-kind")


def scalar_of(table, node, json):
    """The value of a leaf or leaf-list that a JSON value denotes (Read, `scalar_of`)."""
    return first_own(table, node.module, node.type, json, json_atom)


def text_scalar_of(table, node, text):
    """The value of a leaf that the text of a key denotes (Read, `text_scalar_of`)."""
    return first_own(table, node.module, node.type, text, text_atom)


def layer_for(type, value):
    return type.members[value[0]] if type.kind == "union" else type


def text_of(table, node, value):
    return atom_text(table, node.module, layer_for(node.type, value), value[1])


def json_of(table, node, value):
    return atom_json(table, node.module, layer_for(node.type, value), value[1])

"""A model of the texts: text forms and schemas, with the fault that is due for each input.

It restates the rules of the manual in docs/reference, and shares nothing with the program. Places are bytes from 0.
"""

import re
from typing import NamedTuple

from language import Attribute, Kind, Schema

MOST_BYTES = 1048576
MOST_OPEN_LISTS = 64
BLANKS = b" \t\n\r\x0c"
ENDS = BLANKS + b'()";'
NAME_BYTES = re.compile(rb"[a-zA-Z0-9\-_.#:/=<>+*?!]")
ESCAPES = {b'"': b'"', b"\\": b"\\", b"n": b"\n"}
RESERVED = {"integer", "boolean", "string", "set-of", "null", "true", "false"}


class TextFault(Exception):
    """The number and the place of a text's first fault."""


class SchemaFault(Exception):
    """The number and the fields of a schema's first fault."""


class Form(NamedTuple):
    """A form: a `name`, a `number`, a `text` or a `list`, and where it begins."""

    shape: str
    value: object
    place: int


# ---- text forms


def number(token, place):
    """The number that a token is."""
    digits = token.lstrip(b"-0")
    if not re.fullmatch(rb"-?[0-9]+", token) or len(digits) > 19:
        raise TextFault(3, place)
    found = int(digits or b"0") * (-1 if token[:1] == b"-" else 1)
    if not -(2**63) <= found < 2**63:
        raise TextFault(3, place)
    return found


class Reader:
    """Reads the forms of an input."""

    def __init__(self, text):
        self.text, self.at = text, 0
        self.levels, self.opened = [[]], []

    def forms(self):
        try:
            self.text.decode()
        except UnicodeDecodeError as error:
            raise TextFault(5, error.start) from None
        while self.at < len(self.text):
            self.next()
        if self.opened:
            raise TextFault(1, self.opened[-1])
        return self.levels[0]

    def add(self, shape, value, place):
        self.levels[-1].append(Form(shape, value, place))

    def next(self):
        byte = self.text[self.at : self.at + 1]
        if byte in BLANKS:
            self.at += 1
        elif byte == b";":
            end = self.text.find(b"\n", self.at)
            self.at = len(self.text) if end < 0 else end
        elif byte == b"(":
            self.open()
        elif byte == b")":
            self.close()
        elif byte == b'"':
            self.quoted()
        else:
            self.token()

    def open(self):
        if len(self.opened) == MOST_OPEN_LISTS:
            raise TextFault(4, self.at)
        self.opened.append(self.at)
        self.levels.append([])
        self.at += 1

    def close(self):
        if not self.opened:
            raise TextFault(2, self.at)
        forms = self.levels.pop()
        self.add("list", forms, self.opened.pop())
        self.at += 1

    def quoted(self):
        place, letters = self.at, b""
        self.at += 1
        while (byte := self.text[self.at : self.at + 1]) != b'"':
            if byte == b"\\":
                escape = self.text[self.at + 1 : self.at + 2]
                if escape and escape not in ESCAPES:
                    raise TextFault(2, self.at)
                byte = ESCAPES.get(escape, b"")
                self.at += 1
            if not byte:
                raise TextFault(1, place)
            letters += byte
            self.at += 1
        self.at += 1
        self.add("text", letters, place)

    def token(self):
        place = self.at
        while self.at < len(self.text) and self.text[self.at] not in ENDS:
            self.at += 1
        token = self.text[place : self.at]
        if re.match(rb"-?[0-9]", token):
            self.add("number", number(token, place), place)
            return
        for index in range(len(token)):
            if not NAME_BYTES.match(token, index):
                raise TextFault(2, place + index)
        self.add("name", token.decode().lower(), place)


# ---- schemas: the grammar


def misfit(form):
    return SchemaFault(1, form.place)


def is_name(word):
    return re.fullmatch(r"[a-z][a-z0-9-]{0,30}", word) is not None and word not in RESERVED


def is_identifier(form):
    return form.shape == "name" and is_name(form.value)


def identifier(form):
    if not is_identifier(form):
        raise misfit(form)
    return form.value


def is_headed(form, word):
    """Whether a form is a list that begins with a word."""
    if form.shape != "list" or not form.value:
        return False
    return form.value[0].shape == "name" and form.value[0].value == word


def item(form, place):
    if place >= len(form.value):
        raise misfit(form)
    return form.value[place]


def items(form):
    if form.shape != "list":
        raise misfit(form)
    return form.value


def end(form, count):
    """A list has no more than so many items."""
    if len(form.value) > count:
        raise misfit(form.value[count])


def single_kind(form):
    """The kind of single values; of entities with the name of their type."""
    if is_headed(form, "string"):
        size = item(form, 1)
        if size.shape != "number" or not 1 <= size.value <= 200:
            raise misfit(size)
        end(form, 2)
        return Kind("string", size.value)
    if form.shape == "name" and form.value in ("integer", "boolean"):
        return Kind(form.value)
    if form.shape == "name" and form.value == "string":
        return Kind("string", 80)
    return Kind("entity", identifier(form))


def kind_and_many(form):
    if is_headed(form, "set-of"):
        kind = single_kind(item(form, 1))
        end(form, 2)
        return kind, True
    return single_kind(form), False


class Option(NamedTuple):
    word: str
    value: object
    place: int


def option_value(word, form):
    """The value of an option, None where it is wrong."""
    if word == ":inverse":
        return form.value if is_identifier(form) else None
    if word in (":unique", ":no-nulls", ":index") and form.shape == "name":
        return {"t": True, "nil": False}.get(form.value)
    return None


def options(forms):
    found = []
    for place in range(0, len(forms), 2):
        word, *value = forms[place : place + 2]
        if word.shape != "name":
            raise misfit(word)
        is_repeated = any(option.word == word.value for option in found)
        value = option_value(word.value, value[0]) if value and not is_repeated else None
        if value is None:
            raise SchemaFault(8, word.place)
        found.append(Option(word.value, value, word.place))
    return found


class WrittenAttribute(NamedTuple):
    name: str
    kind: Kind
    many: bool
    options: list

    def option(self, word, default=False):
        return next((option.value for option in self.options if option.word == word), default)


class WrittenType(NamedTuple):
    name: str
    parents: list
    attributes: list


def attribute(form):
    forms = items(form)
    name = identifier(item(form, 0))
    kind, many = kind_and_many(item(form, 1))
    return WrittenAttribute(name, kind, many, options(forms[2:]))


def type_(form):
    if not is_headed(form, "define-entity-type"):
        raise misfit(form)
    name = identifier(item(form, 1))
    parents = [identifier(parent) for parent in items(item(form, 2))]
    attributes = [attribute(a) for a in items(item(form, 3))]
    end(form, 4)
    return WrittenType(name, parents, attributes)


def written(forms):
    """The name of a schema and its types, as they are written."""
    if len(forms) < 2 or not is_headed(forms[0], "define-schema"):
        raise SchemaFault(1, 0)
    name = identifier(item(forms[0], 1))
    end(forms[0], 2)
    return name, [type_(form) for form in forms[1:]]


# ---- schemas: the checks, one after another over the whole text


def check_names(types):
    count = sum(len(t.attributes) for t in types)
    if len(types) > 64:
        raise SchemaFault(7, "types", len(types))
    if count > 256:
        raise SchemaFault(7, "attributes", count)
    names = [t.name for t in types]
    for place, name in enumerate(names):
        if name in names[:place]:
            raise SchemaFault(2, name)
    for place, t in enumerate(types):
        for index, parent in enumerate(t.parents):
            if parent not in names[:place]:
                raise SchemaFault(3, parent)
            if parent in t.parents[:index]:
                raise SchemaFault(2, parent)
    for t in types:
        for a in t.attributes:
            if a.kind.name == "entity" and a.kind.of not in names:
                raise SchemaFault(4, a.kind.of)


def check_options(types):
    for a in (a for t in types for a in t.attributes):
        for option in a.options:
            needs_entity = option.word == ":inverse" and a.kind.name != "entity"
            if needs_entity or (option.word in (":unique", ":no-nulls") and option.value and a.many):
                raise SchemaFault(8, option.place)


def features_of(types):
    """The names of each type's own features; they differ."""
    found = {t.name: [] for t in types}
    for t in types:
        for a in t.attributes:
            inverse = a.option(":inverse", None)
            for owner, name in [(t.name, a.name)] + ([(a.kind.of, inverse)] if inverse else []):
                if name in found[owner]:
                    raise SchemaFault(2, name)
                found[owner].append(name)
    return found


def check_lattice(types, features):
    above = {}
    for t in types:
        above[t.name] = {t.name}.union(*(above[parent] for parent in t.parents))
    for t in types:
        names = [name for ancestor in above[t.name] for name in features[ancestor]]
        ambiguous = [name for name in names if names.count(name) > 1]
        if ambiguous:
            raise SchemaFault(5, t.name, min(ambiguous))
    for t in types:
        single = [a for u in types if u.name in above[t.name] for a in u.attributes if not a.many]
        width = 4 + sum({"integer": 9, "boolean": 2, "entity": 7}.get(a.kind.name) or a.kind.of + 2 for a in single)
        if width > 1000:
            raise SchemaFault(6, t.name, width)


def schema(forms):
    """The schema that forms are."""
    name, types = written(forms)
    check_names(types)
    check_options(types)
    check_lattice(types, features_of(types))
    names, attributes = [t.name for t in types], []
    for owner, t in enumerate(types):
        for a in t.attributes:
            kind = Kind("entity", names.index(a.kind.of)) if a.kind.name == "entity" else a.kind
            flags = [a.option(word) for word in (":unique", ":no-nulls", ":index")]
            attributes.append(
                Attribute(len(attributes), owner, a.name, kind, a.many, a.option(":inverse", None), *flags)
            )
    return Schema(name, [(t.name, [names.index(p) for p in t.parents]) for t in types], attributes)

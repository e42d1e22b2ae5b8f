"""How schemas and scripts are written: trees of tokens, where a token is a string and a list is a list."""

from language import (
    Abort, Add, Delete, Ensure, EntityLiteral, Find, ForEach, Let, Literal, Make, Print, Take, Variable,
)  # fmt: skip
from reading import quoted

VALUES = {None: "null", True: "true", False: "false"}


def term(written):
    match written:
        case Literal(None) | Literal(bool()):
            return VALUES[written.value]
        case Literal(int(number)):
            return str(number)
        case Literal(text):
            return quoted(text)
        case EntityLiteral(type_, serial):
            return f"{type_}#{serial}"
        case Variable(name):
            return name
    return [written.feature, term(written.inner)]


def cells(pairs):
    return [[name, term(value)] for name, value in pairs]


def query(written):
    parts = {
        "where": [[condition.sign, *map(term, condition.terms)] for condition in written.conditions],
        "order-by": [[term(key), "desc" if is_descending else "asc"] for key, is_descending in written.keys],
        "show": [term(shown) for shown in written.shown],
    }
    written_parts = [[word, *items] for word, items in parts.items() if items]
    return ["for-each", [written.var, written.type], *written_parts]


def statement(written):
    match written:
        case Make():
            word = "ensure" if isinstance(written, Ensure) else "make"
            return [word, written.var, written.type, *cells(written.cells)]
        case Delete(target):
            return ["delete-entity", term(target)]
        case Find():
            return ["find", written.var, written.type, written.key, term(written.value)]
        case Let(var, value):
            return ["let", var, term(value)]
        case Print():
            return ["print", *map(term, written.terms)]
        case ForEach():
            return query(written)
        case Abort():
            return ["abort"]
    word = {Add: "add-to-set", Take: "delete-from-set"}.get(type(written), "set")
    return [word, [written.feature, term(written.target)], term(written.value)]


def attribute(schema, a):
    kinds = {"string": ["string", str(a.kind.of)], "entity": schema.types[a.kind.of] if a.kind.name == "entity" else ""}
    kind = kinds.get(a.kind.name, a.kind.name)
    options = [":inverse", a.inverse] if a.inverse else []
    for word, is_on in [(":unique", a.unique), (":no-nulls", a.no_nulls), (":index", a.index)]:
        options += [word, "t"] if is_on else []
    return [a.name, ["set-of", kind] if a.many else kind, *options]


def schema(written):
    """The forms of a schema."""
    forms = [["define-schema", written.name]]
    for type_, name in enumerate(written.types):
        parents = [written.types[parent] for parent in written.parents[type_]]
        attributes = [attribute(written, a) for a in written.attributes if a.owner == type_]
        forms.append(["define-entity-type", name, parents, attributes])
    return forms

"""A model of the readers of scripts: from the bytes of an input to its statements, or to its first fault.

It restates the rules of docs/reference/scripts.md. Each function takes a form and gives what the form is in
the words of `language`, or raises the fault of the innermost form that doesn't fit.
"""

import itertools
import re
from typing import NamedTuple

from language import (
    LAST_SERIAL, Abort, Add, Condition, Delete, Ensure, EntityLiteral, Find, ForEach, Let, Literal, Make, Path, Print,
    Set, Take, Variable,
)  # fmt: skip
from texts import MOST_BYTES, Reader, TextFault, is_headed, is_name

MOST_STATEMENTS = 4096
VALUES = {"null": None, "true": True, "false": False}
# how many terms a condition compares or asks of, by its word
TERMS_OF_CONDITION = {"=": 2, "/=": 2, "<": 2, "<=": 2, ">": 2, ">=": 2, "null": 1, "not-null": 1, "member": 2}
# the parts of a query in their order, with the most items of each
MOST_ITEMS = {"where": 8, "order-by": 4, "show": 16}
DIRECTIONS = {"asc": False, "desc": True}


class ScriptFault(Exception):
    """A fault in words, and what is wrong."""


def misfit(form, why):
    return ScriptFault(f"form {form.place}", why)


class Parts:
    """The forms of a list behind the first ones, taken one after another."""

    def __init__(self, form, start=0):
        if form.shape != "list":
            raise misfit(form, "no list")
        self.form, self.at = form, start

    def has_more(self):
        return self.at < len(self.form.value)

    def next(self):
        if not self.has_more():
            raise misfit(self.form, "a form is missing")
        self.at += 1
        return self.form.value[self.at - 1]

    def end(self):
        if self.has_more():
            raise misfit(self.form.value[self.at], "a form too much")


def head_of(form):
    """The word that a list begins with, None where it begins with none, and where there is no list."""
    if form.shape != "list" or not form.value or form.value[0].shape != "name":
        return None
    return form.value[0].value


# ---- words and terms


def name(form):
    if form.shape != "name" or not is_name(form.value):
        raise misfit(form, "no name")
    return form.value


def feature(form):
    names = form.value.split(".") if form.shape == "name" else []
    if len(names) != 2 or not all(map(is_name, names)):
        raise misfit(form, "no feature")
    return form.value


def path(form):
    """A feature and the term that it is of."""
    parts = Parts(form)
    found = feature(parts.next()), term(parts.next())
    parts.end()
    return found


def word(form):
    """A term that is one word."""
    if form.value in VALUES:
        return Literal(VALUES[form.value])
    type_, _, digits = form.value.partition("#")
    if is_name(type_) and re.fullmatch("[1-9][0-9]{0,9}", digits) and int(digits) <= LAST_SERIAL:
        return EntityLiteral(type_, int(digits))
    if not is_name(form.value):
        raise misfit(form, "no term")
    return Variable(form.value)


def term(form):
    match form.shape:
        case "number":
            return Literal(form.value)
        case "text":
            return Literal(form.value.decode())
        case "name":
            return word(form)
    return Path(*path(form))


def terms(parts):
    """The terms that are left, one at least."""
    found = [term(parts.next())]
    while parts.has_more():
        found.append(term(parts.next()))
    return found


# ---- queries


def condition(form):
    sign = head_of(form)
    if sign not in TERMS_OF_CONDITION:
        raise misfit(form, "no condition")
    parts = Parts(form, 1)
    found = [term(parts.next()) for _ in range(TERMS_OF_CONDITION[sign])]
    parts.end()
    return Condition(sign, found)


def key(form):
    parts = Parts(form)
    by, direction = term(parts.next()), parts.next()
    if direction.shape != "name" or direction.value not in DIRECTIONS:
        raise misfit(direction, "no direction")
    parts.end()
    return by, DIRECTIONS[direction.value]


ITEMS_OF_PART = {"where": condition, "order-by": key, "show": term}


def part(form, kind):
    """The items of a part of a query, one at least."""
    parts, found = Parts(form, 1), []
    while parts.has_more() or not found:
        item = parts.next()
        if len(found) == MOST_ITEMS[kind]:
            raise misfit(item, "over a limit")
        found.append(ITEMS_OF_PART[kind](item))
    return found


def query(parts):
    slot = Parts(parts.next())
    var, type_ = name(slot.next()), name(slot.next())
    slot.end()
    found, left = {kind: [] for kind in MOST_ITEMS}, list(MOST_ITEMS)
    while parts.has_more():
        form = parts.next()
        kind = head_of(form)
        if kind not in left:
            raise misfit(form, "a part late, twice or unknown")
        left = left[left.index(kind) + 1 :]
        found[kind] = part(form, kind)
    return ForEach(var, type_, *found.values())


# ---- statements


def cells(parts):
    found = {}
    while parts.has_more():
        cell = Parts(parts.next())
        head = cell.next()
        if name(head) in found:
            raise misfit(head, "an attribute twice")
        found[head.value] = term(cell.next())
        cell.end()
    return list(found.items())


def make(parts):
    return Make(name(parts.next()), name(parts.next()), cells(parts))


def ensure(parts):
    found = Ensure(name(parts.next()), name(parts.next()), cells(parts))
    if not found.cells:
        raise misfit(parts.form, "a form is missing")
    return found


def find(parts):
    return Find(name(parts.next()), name(parts.next()), name(parts.next()), term(parts.next()))


def change(how):
    return lambda parts: how(*path(parts.next()), term(parts.next()))


STATEMENTS = {
    "make": make,
    "set": change(Set),
    "add-to-set": change(Add),
    "delete-from-set": change(Take),
    "delete-entity": lambda parts: Delete(term(parts.next())),
    "find": find,
    "ensure": ensure,
    "let": lambda parts: Let(name(parts.next()), term(parts.next())),
    "print": lambda parts: Print(terms(parts)),
    "for-each": query,
    "abort": lambda parts: Abort(),
}


def statement(form):
    if head_of(form) not in STATEMENTS:
        raise misfit(form, "no statement")
    parts = Parts(form, 1)
    found = STATEMENTS[head_of(form)](parts)
    parts.end()
    return found


# ---- scripts


def spliced(form):
    """The items of a transaction, those of inner ones in their place."""
    for item in form.value[1:]:
        if is_headed(item, "with-transaction"):
            yield from spliced(item)
        else:
            yield item


def transaction(form):
    if not is_headed(form, "with-transaction"):
        raise misfit(form, "no transaction")
    items = list(spliced(form))
    if len(items) > MOST_STATEMENTS:
        raise ScriptFault(f"statements {len(items)}", "too many statements")
    return [statement(item) for item in items]


def script(forms):
    """The transactions of a script."""
    return [transaction(form) for form in forms]


def query_alone(form):
    if not is_headed(form, "for-each"):
        raise misfit(form, "no query")
    return statement(form)


def only(forms, read):
    """What the one form is that is wanted."""
    if not forms:
        raise ScriptFault("form 0", "no form at all")
    found = read(forms[0])
    if len(forms) > 1:
        raise misfit(forms[1], "a second form")
    return found


# ---- how what was read is told: each kind of it in another way, so that nothing is left open


def quoted(text):
    escapes = {"\\": "\\\\", '"': '\\"', "\n": "\\n"}
    return '"' + "".join(escapes.get(letter, letter) for letter in text) + '"'


def term_text(found):
    match found:
        case Literal(None):
            return "null"
        case Literal(bool(value)):
            return str(value).lower()
        case Literal(int(value)):
            return str(value)
        case Literal(value):
            return quoted(value)
        case EntityLiteral(type_, serial):
            return f"{type_}#{serial}"
        case Variable(name_):
            return f"${name_}"
    return f"{found.feature}({term_text(found.inner)})"


def condition_text(found):
    left, *right = map(term_text, found.terms)
    signs = {"null": "is null", "not-null": "is not null", "member": "in"}
    return " ".join([left, signs.get(found.sign, found.sign), *right])


def query_text(found):
    conditions = map(condition_text, found.conditions)
    keys = (f"{term_text(by)} {'desc' if is_down else 'asc'}" for by, is_down in found.keys)
    shown = map(term_text, found.shown)
    parts = {"where": " and ".join(conditions), "by": " then ".join(keys), "show": " ".join(shown)}
    told = (f"{word_} {part_}" for word_, part_ in parts.items() if part_)
    return " ".join(["for-each", found.var, found.type, *told])


def statement_text(found):
    match found:
        case Make():
            how = "ensure" if isinstance(found, Ensure) else "make"
            told = (f"{short}={term_text(value)}" for short, value in found.cells)
            return " ".join([how, found.var, found.type, *told])
        case Set():
            how = {Add: "add", Take: "take"}.get(type(found), "set")
            return f"{how} {found.feature}({term_text(found.target)}) {term_text(found.value)}"
        case Delete():
            return f"delete {term_text(found.target)}"
        case Find():
            return f"find {found.var} {found.type} {found.key}={term_text(found.value)}"
        case Let():
            return f"let {found.var} {term_text(found.value)}"
        case Print():
            return " ".join(["print", *map(term_text, found.terms)])
        case ForEach():
            return query_text(found)
    return "abort"


def transaction_text(statements):
    """Statements; one that stands several times in a row is told once, with how often."""
    told = [(text, len(list(run))) for text, run in itertools.groupby(map(statement_text, statements))]
    return "[" + "; ".join(text if count == 1 else f"{count} of {text}" for text, count in told) + "]"


def script_text(transactions):
    return " ".join(map(transaction_text, transactions)) or "nothing"


# ---- the readers


class Answer(NamedTuple):
    """What a reader answers, and why it is a fault, `read` where it is none."""

    text: str
    why: str


READERS = {
    "script": lambda forms: script_text(script(forms)),
    "query": lambda forms: query_text(only(forms, query_alone)),
    "transaction": lambda forms: transaction_text(only(forms, transaction)),
}


def forms_of(text):
    """The forms of an input."""
    if len(text) > MOST_BYTES:
        raise ScriptFault(f"long {len(text)}", "the input too long")
    try:
        return Reader(text).forms()
    except TextFault as fault:
        number, place = fault.args
        raise ScriptFault(f"text {number} {place}", f"text fault {number}") from None


def answer(forms, reader):
    try:
        return Answer(READERS[reader](forms), "read")
    except ScriptFault as fault:
        return Answer(*fault.args)


def answers(text):
    """What each reader answers to an input."""
    try:
        forms = forms_of(text)
    except ScriptFault as fault:
        return {reader: Answer(*fault.args) for reader in READERS}
    return {reader: answer(forms, reader) for reader in READERS}

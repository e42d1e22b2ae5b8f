"""A model of the command `try`: what it answers to an input.

It restates docs/reference/try.md, over the models of text forms and schemas, of scripts, and of the language.
"""

from typing import NamedTuple

from language import run
from reading import ScriptFault, script
from texts import MOST_BYTES, Reader, SchemaFault, TextFault, is_headed, schema

SCRIPT_FAULTS = {"form": 1, "statements": 2}


class Tried(NamedTuple):
    """The status and the output of `try`, and what it was about: rules that refused, or a fault in words."""

    status: int
    output: str
    why: list


def parted(forms):
    """The forms of an input before its first transaction, and those from there on."""
    scripts = [place for place, form in enumerate(forms) if is_headed(form, "with-transaction")]
    split = scripts[0] if scripts else len(forms)
    return forms[:split], forms[split:]


def fault(*words):
    return f"fault {' '.join(map(str, words))}\n"


def try_(text):
    """What `try` answers to the bytes of an input."""
    if len(text) > MOST_BYTES:
        return Tried(9, fault("input", MOST_BYTES + 1), ["the input too long"])
    try:
        front, behind = parted(Reader(text).forms())
        schema_ = schema(front)
        transactions = script(behind)
    except TextFault as found:
        return Tried(3, fault("text", *found.args), [f"text fault {found.args[0]}"])
    except SchemaFault as found:
        return Tried(3, fault("schema", *found.args), [f"schema fault {found.args[0]}"])
    except ScriptFault as found:
        (kind, field), why = found.args[0].split(" "), found.args[1]
        return Tried(3, fault("script", SCRIPT_FAULTS[kind], field), [f"script: {why}"])
    lines, rules = run(schema_, transactions)
    return Tried(1 if rules else 0, "".join(f"{line}\n" for line in lines), [f"rule {rule}" for rule in rules])

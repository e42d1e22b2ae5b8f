#!/usr/bin/env python3
"""Compares the program with the model: random inputs of `try`, most of them in form or nearly so.

    checks/compare.py [--count N] [--seed S] [--program PATH]

A schema is drawn, and transactions of all statements over it along a run of the model, so that most of them go
through and each rule refuses some. Now and then the text is broken at a place or two. Prints inputs on which the
two differ, and at the end how often each answer was due. The status is 0 where they agree on all inputs. With
`--program` another program is asked, by the words `x.st try`.
"""

import argparse
import collections
import multiprocessing
import pathlib
import random
import re
import subprocess
import sys

import writing
from cases import shortened
from drawn import SCHEMAS, Drawer
from drawn_texts import Writer
from language import LAST_SERIAL, Add, Delete, Entity, EntityLiteral, Literal, Refused, Set, State, Take
from texts import Reader, SchemaFault, schema
from trying import try_

ROOT = pathlib.Path(__file__).resolve().parent.parent
LAUNCHER = ROOT / "bin" / "statice"
BUILT = ROOT / "crates" / "statice_main" / "out" / "statice"
AT_ONCE, OF_A_CHUNK, MOST_SHOWN = 2, 200, 20
NAMES = "a b c x y t nil person room name boss define-schema a1 a-b x9 x10".split()
ODD_BYTES = b'\x00\t();"\\\x7f\xff\xc3\x80\x0b\x0c\r'
TOKEN = re.compile(r'"(?:[^"\\]|\\.)*"|[()]|[^\s()"]+|\s+')
PIECES = """( ) () 5 -1 x "s" integer string (string\xa0201) set-of (set-of\xa0integer) :unique :unique\xa0t :index\xa0t
:inverse :inverse\xa0z t nil null :foo A a.b 9x # é ;c\n ~ with-transaction (with-transaction) define-entity-type
(define-entity-type\xa0zz\xa0()\xa0()) abcdefghijklmnopqrstuvwxyz-12345 (abort) (print\xa0null) p p.p p#1"""
PIECES = [piece.replace("\xa0", " ") for piece in PIECES.replace("\n", " ").split(" ")]
NUMBERS = [0, 1, 1, 2, 2, 3, -1, 7, 2**63 - 1, -(2**63)]
TEXTS = ["", "a", "a", "A", "b", "é", 'a"', "\n", "\\", ";("]
# how often a refused statement ends its transaction, by its rule; else another one is drawn in its place
KEPT = {1: 0.008, 2: 0.01, 3: 0.05, 4: 1, 5: 0.02, 6: 1, 7: 0.04, 8: 0.15, 10: 0.1, 11: 0.05}
# one of these times that
LENIENCE = [0, 1, 1, 1, 4]
MARK = re.compile(r"^\d+ 1\.\d+ (\S+)", re.MULTILINE)


class Statements(Drawer):
    """Draws statements along a run."""

    def literal(self, kind):
        if kind.name == "integer":
            return Literal(self.random.choice(NUMBERS))
        if kind.name == "string" and self.chance(0.8):
            return Literal(self.random.choice(TEXTS))
        if kind.name == "entity" and self.chance(0.02):
            return EntityLiteral(self.schema.types[kind.of], LAST_SERIAL)
        if kind.name == "string" and kind.of >= 10 and self.chance(0.3):
            return Literal("ab" * (kind.of // 2) + "c" * self.random.randint(0, 2))
        return super().literal(kind)

    def written(self, entity_):
        return EntityLiteral(self.schema.types[entity_.type], entity_.serial)

    def aimed(self):
        """A statement that rule 4, 6 or 8 refuses where it can; None where nothing is there for it."""
        told = [a for a in self.schema.attributes if a.unique or a.no_nulls]
        attribute = self.random.choice(told if told and self.chance(0.5) else self.schema.attributes)
        state = self.run.state
        owners = sorted(e for e in state.live if self.schema.isa(e.type, attribute.owner))
        if not owners:
            return None
        owner, name = self.random.choice(owners), self.schema.qualified(attribute)
        if attribute.kind.name == "string":
            # the longest text that fits, or one that is longer
            text = "é" * (attribute.kind.of // 2) + "x" * (attribute.kind.of % 2 + self.random.choice([0, 0, 1, 5]))
            how = self.random.choice([Add, Add, Take]) if attribute.many else Set
            return how(name, self.written(owner), Literal(text))
        value = state.value(attribute, owner)
        if attribute.unique and value is not None and self.chance(0.7):
            other = self.written(value) if isinstance(value, Entity) else Literal(value)
            return Set(name, self.written(self.random.choice(owners)), other)
        if attribute.no_nulls and isinstance(value, Entity):
            return Delete(self.written(value))
        return None

    def transaction(self, state):
        self.begin(state)
        statements, wanted, lenience = [], self.random.choice([0, 1, 3, 5, 8, 12, 16]), self.random.choice(LENIENCE)
        for _ in range(8 * wanted):
            statement = self.aimed() if self.chance(0.15) else self.statement()
            if statement is None:
                continue
            try:
                lines = self.run.step(statement)
            except Refused as refusal:
                if self.chance(KEPT[refusal.rule] * lenience):
                    behind = [self.statement() for _ in range(self.random.choice([0, 0, 0, 1, 2]))]
                    return [*statements, statement, *behind], state
                continue
            if lines != [". 0"] or self.chance(0.2):
                statements.append(statement)
            if len(statements) == wanted:
                break
        return statements, self.run.state


class Inputs:
    """Random inputs of `try`."""

    def __init__(self, seed):
        self.random = random.Random(seed)
        self.drawer, self.writer = Statements(seed), Writer(seed)
        self.drawer.random = self.writer.random = self.random

    def chance(self, probability):
        return self.random.random() < probability

    def new_name(self, letter):
        """A name that is seldom there already."""
        return self.random.choice(NAMES) if self.chance(0.06) else f"{letter}{self.random.randrange(500)}"

    # ---- schemas

    def attribute(self, types):
        size = self.random.choice([1, 2, 3, 7, 80, 200])
        single = self.random.choice(["integer", "integer", "boolean", "string", f"(string {size})", *types, *types])
        is_set = self.chance(0.2)
        kind = f"(set-of {single})" if is_set else single
        options = []
        if single in types and self.chance(0.5):
            options.append(f":inverse {self.new_name('i')}")
        is_single = 0.02 if is_set else 1
        for word, probability in [(":unique", 0.25 * is_single), (":no-nulls", 0.15 * is_single), (":index", 0.08)]:
            if self.chance(probability):
                options.append(f"{word} {self.random.choice(['t', 't', 't', 'nil'])}")
        return f"({' '.join([self.new_name('f'), kind, *options])})"

    def drawn_schema(self):
        types = self.random.sample(NAMES, self.random.choice([1, 1, 2, 3, 3, 4, 5]))
        lines = [f"(define-schema {self.random.choice(NAMES)})"]
        for place, name in enumerate(types):
            parents = [parent for parent in types[:place] if self.chance(0.4)]
            if self.chance(0.008):
                parents.append(self.random.choice(NAMES))
            attributes = [self.attribute(types) for _ in range(self.random.choice([0, 1, 2, 3, 4, 5]))]
            lines.append(f"(define-entity-type {name} ({' '.join(parents)}) ({' '.join(attributes)}))")
        return "\n".join(lines)

    def schema_at_a_limit(self):
        """A schema with about as many types, attributes or bytes of a row as there may be."""
        match self.random.randrange(3):
            case 0:
                types = [f"(define-entity-type t{n} () ((a{n} integer)))" for n in range(self.random.randint(63, 66))]
            case 1:
                count = self.random.randint(255, 258)
                types = [f"(define-entity-type t () ({' '.join(f'(a{n} (set-of integer))' for n in range(count))}))"]
            case _:
                sizes = [200, 200, 200, 200, self.random.randint(183, 189)]
                strings = [f"(a{n} (string {size}))" for n, size in enumerate(sizes)]
                types = [f"(define-entity-type t () ({' '.join(strings[:3])}))"]
                types.append(f"(define-entity-type u (t) ({' '.join(strings[3:])}))")
        return "\n".join(["(define-schema s)", *types])

    def schema_text(self):
        if self.chance(0.004):
            return self.schema_at_a_limit()
        if self.chance(0.5):
            return self.drawn_schema()
        return self.writer.laid_out(writing.schema(self.random.choice(SCHEMAS)), self.chance(0.1))

    # ---- scripts

    def nested(self, items):
        """Statements, some of them in inner transactions."""
        for _ in range(self.random.choice([0, 0, 0, 1, 2])):
            start = self.random.randint(0, len(items))
            end = self.random.randint(start, len(items))
            items = [*items[:start], ["with-transaction", *items[start:end]], *items[end:]]
        return items

    def transactions(self, schema_):
        """Transactions over a schema; by chance alone where it has no attributes."""
        count = self.random.choice([0, 1, 1, 2, 2, 3, 4])
        if not schema_.attributes:
            return [self.writer.transaction() for _ in range(count)]
        state, transactions = State(schema_), []
        for _ in range(count):
            statements, state = self.drawer.transaction(state)
            transactions.append(["with-transaction", *self.nested([writing.statement(s) for s in statements])])
        return transactions

    def script(self, schema_):
        forms = self.transactions(schema_)
        if self.chance(0.02):
            more = self.random.choice([self.writer.transaction, self.writer.statement, self.writer.other_shape])()
            forms.insert(self.random.randint(0, len(forms)), more)
        if self.chance(0.003):
            forms.insert(self.random.randint(0, len(forms)), self.writer.many())
        return self.writer.broken(forms) if self.chance(0.2) else forms

    # ---- inputs

    def changed(self, text):
        """A text with a token or two changed, and sometimes a byte."""
        tokens = TOKEN.findall(text)
        for _ in range(self.random.choice([1, 1, 1, 2])):
            place, other = self.random.randrange(len(tokens)), self.random.randrange(len(tokens))
            match self.random.choice(["drop", "add", "add", "put", "put", "twice", "swap", "capitals"]):
                case "drop":
                    tokens[place] = ""
                case "add":
                    tokens[place] += f" {self.random.choice(PIECES)} "
                case "put":
                    tokens[place] = self.random.choice(PIECES)
                case "twice":
                    tokens[place] += f" {tokens[place]}"
                case "swap":
                    tokens[place], tokens[other] = tokens[other], tokens[place]
                case "capitals":
                    tokens[place] = tokens[place].upper()
        text = "".join(tokens).encode()
        if self.chance(0.15):
            place = self.random.randint(0, len(text))
            odd = bytes([self.random.choice(ODD_BYTES)])
            text = text[:place] + odd + text[place + self.random.randint(0, 1) :]
        return text[: self.random.randint(0, len(text))] if self.chance(0.05) else text

    def next(self):
        front = self.schema_text()
        try:
            forms = self.script(schema(Reader(front.encode()).forms()))
        except SchemaFault:
            forms = [self.writer.transaction()]
        if self.chance(0.04):
            front = self.changed(front).decode(errors="ignore")
        text = f"{front}\n{self.writer.laid_out(forms, self.chance(0.25))}"
        text = self.changed(text) if self.chance(0.12) else text.encode()
        if self.chance(0.04):
            text = self.writer.garbled(text)
        return self.writer.lengthened(text) if self.chance(0.0004) else text


# ---- comparisons


def answer_of(program, text):
    """The status of a program on an input, and what it prints."""
    ran = subprocess.run([program, "x.st", "try"], input=text, stdout=subprocess.PIPE, check=False, timeout=120)
    return ran.returncode, ran.stdout.decode(errors="backslashreplace")


def compared(job):
    """What was due for the inputs of a chunk, how often; and those on which the program differs."""
    program, seed, number, count = job
    inputs, dues, differing = Inputs(f"{seed} {number}"), collections.Counter(), []
    for _ in range(count):
        text = inputs.next()
        status, output, why = try_(text)
        found = answer_of(program, text)
        dues[f"status {status}"] += 1
        dues.update(why)
        dues.update(f"line {mark}" for mark in MARK.findall(output))
        if found != (status, output):
            differing.append((text, (status, output), found))
    return dues, differing


def told(dues):
    """What was due, as a table: its kinds, and how often each came."""
    parts = {"inputs by their status": "status", "refused transactions by their rule": "rule", "lines": "line"}
    parts |= {"faults": ""}
    lines, left = [], dict(dues)
    for title, word in parts.items():
        lines.append(f"{title}:")
        for name in sorted(left, key=lambda name: [int(n) if n.isdigit() else n for n in re.split(r"(\d+)", name)]):
            if name.startswith(word):
                lines.append(f"{left.pop(name):>10} {name}")
    return "\n".join(lines)


def program_of(words):
    """The path of the program that is asked. The launcher builds the one that isn't named."""
    if words.program:
        return str(pathlib.Path(words.program).resolve())
    subprocess.run([LAUNCHER, "x.st", "try"], input=b"", stdout=subprocess.DEVNULL, check=False)
    return str(BUILT if BUILT.exists() else LAUNCHER)


def main():
    parser = argparse.ArgumentParser(description="Compares the program with the model.")
    parser.add_argument("--count", type=int, default=2000, help="how many inputs")
    parser.add_argument("--seed", type=int, default=1, help="which inputs")
    parser.add_argument("--program", help="the program that is asked")
    words = parser.parse_args()
    program = program_of(words)
    starts = range(0, words.count, OF_A_CHUNK)
    jobs = [(program, words.seed, start, min(OF_A_CHUNK, words.count - start)) for start in starts]
    dues, differing = collections.Counter(), 0
    with multiprocessing.Pool(AT_ONCE) as pool:
        for of_chunk, differences in pool.imap(compared, jobs):
            dues.update(of_chunk)
            for text, due, found in differences:
                differing += 1
                if differing <= MOST_SHOWN:
                    print(f"on {shortened(repr(text))}\n  the model: {shortened(repr(due))}", flush=True)
                    print(f"  the program: {shortened(repr(found))}", flush=True)
    print(told(dues))
    print(f"{differing} of {words.count} differ")
    return 1 if differing else 0


if __name__ == "__main__":
    sys.exit(main())

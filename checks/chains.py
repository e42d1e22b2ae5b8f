#!/usr/bin/env python3
"""Judges the tables of calls on stores by a model: a chain of pages as a list of rows, over pages in memory, and indexes and
inverses as lists of values with the entities that have them.

    checks/chains.py [--table FOLDER]
    checks/chains.py --print

The first form judges the answers of the program of `st_store_tables`, whose folder has `data/` and `stdout`, or of the
folder that is given. The second form prints what the program is to print. The status is 0 where nothing differs.
"""

import argparse
import pathlib
import sys

from cases import cases_of, judge
from databases import schema_of
from paging import PAGES, SIZE, Kind, MemoryPages, Wanted, first_wrong, key, new_database, page_of, stores, value_of

FOLDER = pathlib.Path(__file__).resolve().parent.parent / "crates" / "st_store_tables"
BODY = SIZE - 16
MOST_CALLS = 400
TOLD = 24


class Fault(Exception):
    """What a call of pages was answered, or that a page is bad."""


class Chain:
    """A store as a chain. Rows are found by going through all of a page's; a full page is split in halves, and an empty one
    but the first is taken out."""

    def __init__(self, pages, store, first, key, width):
        self.pages, self.first, self.key, self.width = pages, first, key, width
        self.wanted = Wanted(["chain", str(store), str(key), str(width)])

    def get(self, page):
        if self.pages.fails():
            raise Fault("disk fault")
        return self.pages.image(page)

    def put(self, page, image):
        answer = self.pages.put(page, image)
        if answer != "ok":
            raise Fault(answer)

    def fresh(self):
        answer = self.pages.fresh()
        if not answer.isdecimal():
            raise Fault(answer)
        return int(answer)

    def rows(self, image):
        count = int.from_bytes(image[2:4], "big")
        return [image[16 + self.width * i : 16 + self.width * (i + 1)] for i in range(count)]

    def with_rows(self, image, rows):
        body = b"".join(rows)
        return image[:2] + len(rows).to_bytes(2, "big") + image[4:16] + body + bytes(BODY - len(body))

    def next(self, image):
        return int.from_bytes(image[8:12], "big")

    def checked(self, page):
        image = self.get(page)
        place = first_wrong(self.wanted, image)
        if place is not None:
            raise Fault(f"bad {page} {place}")
        return image

    def behind(self, image):
        """The page behind one, whose keys are above."""
        page = self.next(image)
        other = self.checked(page)
        rows, others = self.rows(image), self.rows(other)
        if not others or rows and rows[-1][: self.key] >= others[0][: self.key]:
            raise Fault(f"bad {page} 16")
        return page, other

    def locate(self, key):
        """The page on which a row stands or would stand, the one before it, and its image."""
        page, before, image = self.first, None, self.checked(self.first)
        while self.next(image) and not any(row[: self.key] >= key for row in self.rows(image)):
            before = page
            page, image = self.behind(image)
        return page, before, image

    def find(self, key):
        _, _, image = self.locate(key)
        return next((row for row in self.rows(image) if row[: self.key] == key), None)

    def insert(self, row):
        key = row[: self.key]
        page, _, image = self.locate(key)
        rows = self.rows(image)
        others = sorted([other for other in rows if other[: self.key] != key] + [row])
        if len(others) == len(rows):
            self.put(page, self.with_rows(image, others))
            return True
        if len(others) * self.width <= BODY:
            self.put(page, self.with_rows(image, others))
            return False
        place = others.index(row)
        cut = len(rows) if place == len(rows) else len(rows) // 2 + (place < len(rows) // 2)
        drawn = self.fresh() or self.fresh()
        other = image[:12] + bytes(4) + image[16:]
        self.put(drawn, self.with_rows(other, others[cut:]))
        left = self.with_rows(image, others[:cut])
        self.put(page, left[:8] + drawn.to_bytes(4, "big") + left[12:])
        return False

    def remove(self, key):
        page, before, image = self.locate(key)
        rows = self.rows(image)
        others = [row for row in rows if row[: self.key] != key]
        if others or before is None:
            self.put(page, self.with_rows(image, others))
        else:
            front = self.get(before)
            self.put(before, front[:8] + image[8:12] + front[12:])
            self.put(page, bytes(SIZE))
        return len(others) < len(rows)

    def places(self, key, page, image):
        """The rows whose keys aren't below one, from a page on, each with its page and its place there."""
        least = key
        while True:
            for index, row in enumerate(self.rows(image)):
                if row[: self.key] >= least:
                    yield page, 16 + index * self.width, row
            if not self.next(image):
                return
            page, image = self.behind(image)
            least = b""

    def listed(self, key, image):
        """The rows whose keys aren't below one, from a page on."""
        rows = [row for row in self.rows(image) if row[: self.key] >= key]
        while True:
            yield from rows
            if not self.next(image):
                return
            _, image = self.behind(image)
            rows = self.rows(image)


# ---- what a case is answered


def hex_list(chain, key, out):
    _, _, image = chain.locate(key)
    out.append("[")
    for row in chain.listed(key, image):
        out.append(shown(row))
    out.append("]")


def shown(row):
    digits = row.hex()
    return digits if len(digits) <= 48 else f"{digits[:32]}+{len(row) - 16}"


def series(chain, count, seed, keys, out):
    number = seed % 2**31
    answers = []
    out.append("")
    for _ in range(count):
        number = (number * 1103515245 + 12345) % 2**31
        key = number // 65536 % max(keys, 1)
        number = (number * 1103515245 + 12345) % 2**31
        other = number // 65536
        size = min(4, chain.key)
        head = bytes(chain.key - size) + key.to_bytes(4, "big")[4 - size :]
        if other % 2:
            was = chain.remove(head)
        else:
            was = chain.insert(head + bytes([other % 256]) * (chain.width - chain.key))
        answers.append("1" if was else "0")
        out[-1] = "".join(answers)
    hex_list(chain, bytes(chain.key), out)


def call(chain, words, out):
    match words:
        case ["write", page, place, digits]:
            image = bytearray(chain.get(int(page)))
            found = bytes.fromhex(digits)
            image[int(place) : int(place) + len(found)] = found
            chain.put(int(page), bytes(image))
        case ["pages"]:
            for page in range(TOLD):
                image = chain.get(page)
                if image[0]:
                    out.append(f"{page}:{image[0]}:{int.from_bytes(image[2:4], 'big')}:{chain.next(image)}")
        case ["series", count, seed, keys]:
            series(chain, int(count), int(seed), int(keys), out)
        case ["+", digits]:
            out.append("in place" if chain.insert(bytes.fromhex(digits)) else "new")
        case ["-", digits]:
            out.append("gone" if chain.remove(bytes.fromhex(digits)) else "none")
        case ["?", digits]:
            row = chain.find(bytes.fromhex(digits))
            out.append("none" if row is None else shown(row))
        case ["@", digits]:
            hex_list(chain, bytes.fromhex(digits), out)


# ---- indexes and inverses


def kind_of(kind):
    word = {"integer": "int", "boolean": "bool", "string": f"text:{kind.of}", "entity": "entity"}[kind.name]
    return Kind(word)


def read_value(word):
    """The value of a word, with what it is."""
    if word == "null":
        return None
    if word in ("true", "false"):
        return "bool", word == "true"
    if word.startswith("'"):
        return "text", word[1:].encode()
    if ":" in word:
        return "entity", tuple(map(int, word.split(":")))
    return "int", int(word)


def fits(kind, value):
    if value is None or value[0] != kind.name:
        return False
    return {"text": lambda v: len(v) <= kind.limit, "entity": lambda v: v[1] != 0}.get(kind.name, lambda v: True)(value[1])


class Indexes:
    """The indexes and inverses of a new database."""

    def __init__(self, schema, failing):
        images = new_database(schema)
        self.schema, self.kept = schema, stores(schema)
        self.pages = MemoryPages(images, [failing])
        self.firsts = dict(zip(self.kept, range(len(images) - len(self.kept), len(images))))

    def attribute(self, number):
        return next((a for a in self.schema.attributes if a.number == number), None)

    def store(self, kind, number):
        store = kind * PAGES + number
        return Chain(self.pages, store, self.firsts[store], *self.kept[store]) if store in self.kept else None

    def note(self, number, entity, old, new):
        a = self.attribute(number)
        if a is None or not entity[1] or any(v is not None and not fits(kind_of(a.kind), v) for v in (old, new)):
            return "no values"
        if old != new:
            for chain in filter(None, (self.store(2, number), self.store(3, number))):
                for value, change in ((old, chain.remove), (new, chain.insert)):
                    if value is not None:
                        change(key(kind_of(a.kind), value[1]) + key(Kind("entity"), entity))
        return "ok"

    def lookup(self, number, value):
        a = self.attribute(number)
        chain = self.store(3, number) or self.store(2, number)
        if a is None or chain is None or not fits(kind_of(a.kind), value):
            return []
        kind, found = kind_of(a.kind), []
        least = key(kind, value[1]) + key(Kind("entity"), (0, 1))
        page, _, image = chain.locate(least)
        for page, place, row in chain.places(least, page, image):
            other, entity = self.pair(a, kind, page, place, row)
            if other != value[1]:
                break
            found.append(entity)
        return found

    def pair(self, a, kind, page, place, row):
        """The value and the entity in a row at a place of a page."""
        other, wrong = value_of(kind, row[: kind.width])
        if wrong is None:
            entity, wrong = value_of(Kind("entity"), row[kind.width :])
            wrong = wrong if wrong is None else wrong + kind.width
        if wrong is None and kind.name == "entity" and not self.isa(other[0], a.kind.of):
            wrong = 0
        if wrong is None and not self.isa(entity[0], a.owner):
            wrong = kind.width
        if wrong is not None:
            raise Fault(f"bad {page} {place + wrong}")
        return other, entity

    def isa(self, type_, ancestor):
        return type_ < len(self.schema.types) and self.schema.isa(type_, ancestor)

    def call(self, words, out):
        match words:
            case ["note", number, entity, old, new]:
                out.append(self.note(int(number), tuple(map(int, entity.split(":"))), read_value(old), read_value(new)))
            case ["lookup", number, value]:
                found = self.lookup(int(number), read_value(value))
                out.append(" ".join(["[", *(f"{type_}:{serial}" for type_, serial in found), "]"]))
            case _:
                call(Chain(self.pages, 0, 0, 1, 1), words, out)


def run_indexes(front, text, failing):
    """The answers of calls, and whether none was a fault."""
    indexes, out = Indexes(schema_of(front), failing), []
    try:
        for part in text.split(","):
            indexes.call(part.split(), out)
    except Fault as fault:
        return [*out, str(fault)], False
    return out, True


# ---- the tables


def run(place, text, failing):
    """The answers of calls, and whether none was a fault."""
    store, first, key, width = place
    array = [bytes(SIZE)] * first + [page_of(2, 0, store)]
    chain, out = Chain(MemoryPages(array, [failing]), *place), []
    try:
        for part in text.split(","):
            call(chain, part.split(), out)
    except Fault as fault:
        return [*out, str(fault)], False
    return out, True


def in_turn(ran, text):
    """The answers of calls; of those behind `each: ` with each call of pages failing in turn."""
    if not text.startswith("each: "):
        return " ".join(ran(text, 0)[0])
    lines = ["in turn"]
    for failing in range(1, MOST_CALLS):
        out, is_whole = ran(text[6:], failing)
        lines.append(" ".join([f"  {failing}:", *out]))
        if is_whole:
            break
    return "\n".join(lines)


def chain_answer(text):
    front, _, case = text.decode().rpartition("\n")
    place = list(map(int, front.split()))
    _, first, key, width = place
    if first >= 100 or not 1 <= key <= min(207, width) or width > 1000:
        return "no place"
    return in_turn(lambda calls, failing: run(place, calls, failing), case)


def index_answer(text):
    front, _, case = text.rpartition(b"\n")
    return in_turn(lambda calls, failing: run_indexes(front + b"\n", calls, failing), case.decode())


TABLES = {"chains.txt": chain_answer, "faults.txt": chain_answer, "indexes.txt": index_answer}


def due():
    """What the program is to print."""
    for name in TABLES:
        count = 0
        for line, text, _ in cases_of((FOLDER / "data" / name).read_text()):
            count += 1
            yield f"{line} => {TABLES[name](text)}\n"
        yield f"{name}: {count} cases\n\n"


def main():
    parser = argparse.ArgumentParser(description="Judges the tables of `st_store_tables` by the model.")
    parser.add_argument("--table", type=pathlib.Path, default=FOLDER, help="the folder of the program")
    parser.add_argument("--print", action="store_true", help="print what the program is to print")
    given = parser.parse_args()
    if given.print:
        sys.stdout.writelines(due())
        return 0
    return 0 if judge(given.table, TABLES) else 1


if __name__ == "__main__":
    sys.exit(main())

#!/usr/bin/env python3
"""Compares what is read of pages, rows and keys with the model: random ones, sound and wrong at a place or a few.

    checks/pages.py [--count N] [--seed S] [--program PATH]
    checks/pages.py --table FOLDER

The first form draws so many pages, so many rows, and half as many pairs and keys, makes tables of them in a folder of
its own, and runs the program of `st_page_tables` there, which it builds first, or the one that is given. It prints each
difference, and at the end how often each answer was due. The second form judges the answers of a program to its own
tables: its folder has `data/` and `stdout`. The status is 0 where nothing differs.
"""

import argparse
import collections
import functools
import pathlib
import re
import shutil
import subprocess
import sys
import tempfile

from cases import judge, shortened
from drawn_pages import Drawer, fields_of
from language import printed
from paging import HEAD, SIZE, Kind, Wanted, field_width, first_wrong, row_values, value_of
from texts import Reader, schema

CRATE = pathlib.Path(__file__).resolve().parent.parent / "crates" / "st_page_tables"
MOST_SHOWN = 20

# ---- what a case is answered


def filled(data, words):
    """Writes into bytes what the words of a case stand for."""
    at = 0
    for word in words:
        place, is_placed, digits = word.rpartition("=")
        if word == "-":
            continue
        found = bytes.fromhex(digits)
        at = int(place) if is_placed else at
        assert at + len(found) <= len(data), word
        data[at : at + len(found)] = found
        at += len(found)
    return bytes(data)


def page_answer(text):
    front, _, changes = text.decode().rpartition("\n")
    words = front.split()
    count = 4 if words[0] in ("chain", "leaf", "node") else 1
    page = bytearray(filled(bytearray(SIZE), words[count:]))
    place = first_wrong(Wanted(words[:count]), filled(page, changes.split()))
    return "sound" if place is None else f"wrong at {place}"


@functools.cache
def schema_read(text):
    return schema(Reader(text.encode()).forms())


def shown(value, found=None):
    """A value as it is printed, by the names of a schema's types or by numbers; what no line shows has its code."""
    if isinstance(value, tuple) and found is None:
        return f"{value[0]}#{value[1]}"
    if isinstance(value, tuple):
        names = found.types
        return f"{names[value[0]] if value[0] < len(names) else ''}#{value[1]}"
    if isinstance(value, bytes):
        value = value.decode()
    text = printed(found, value)
    return "".join(f"\\{ord(c):02x}" if c < " " or c == "\x7f" else c for c in text)


def row_answer(text):
    front, _, words = text.decode().rpartition("\n")
    found = schema_read(front)
    type_, *words = words.split()
    fields = fields_of(found, found.type_named(type_))
    values, place = row_values(fields, filled(bytearray(sum(map(field_width, fields))), words))
    return f"wrong at {place}" if values is None else " ".join(shown(value, found) for value in values)


def pair_answer(text):
    word, order, *words = text.decode().split()
    kind = Kind(word)
    fields = [("key", Kind("entity")), ("key", kind)]
    if order == "turned":
        fields.reverse()
    values, place = row_values(fields, filled(bytearray(kind.width + 6), words))
    if values is None:
        return f"wrong at {place}"
    if order != "turned":
        values.reverse()
    return " ".join(map(shown, values))


def key_answer(text):
    word, *words = text.decode().split()
    kind = Kind(word)
    value, place = value_of(kind, filled(bytearray(kind.width), words))
    return shown(value) if place is None else f"wrong at {place}"


TABLES = {"pages.txt": page_answer, "rows.txt": row_answer, "pairs.txt": pair_answer, "keys.txt": key_answer}

# ---- where something is wrong, in words


FIELDS = {"kind": 1, "byte behind the kind": 1, "count": 2, "store": 4, "next page": 4, "last serial": 4}
HEAD_PARTS = [f"the {name}" for name, size in FIELDS.items() for _ in range(size)]


def key_part(place, size):
    """The part of a key of so many bytes in which a place is."""
    if size == 1:
        return "a key of one byte"
    return f"{'the first' if place == 0 else 'the last' if place == size - 1 else 'a middle'} byte of a key"


def page_part(text, place):
    """The part of a page in which it is wrong."""
    if place < HEAD:
        return HEAD_PARTS[place]
    words = text.split()
    page = filled(bytearray(SIZE), words[4 if len(words) > 4 else 1 :])
    kind, count = page[0], int.from_bytes(page[2:4], "big")
    if kind < 2:
        return "the zeros behind what is counted"
    size = 4 if kind == 5 else int(words[2])
    width = size + 4 if kind in (4, 5) else int(words[3])
    row, at = divmod(place - HEAD, width)
    if row >= count:
        return "the zeros behind what is counted"
    return key_part(at, size) if at < size else "a page number"


def row_part(fields, place):
    """The part of a row in which it is refused."""
    at = 0
    for word, kind in fields:
        width = field_width((word, kind))
        if place < at + width:
            break
        at += width
    if word == "serial":
        return "a serial"
    if word == "cell" and place == at:
        return "a mark"
    return f"a {word} of {kind.name}, {'the last byte' if place == at + width - 1 else 'before it'}"


def part_of(name, front, text, place):
    match name:
        case "pages.txt":
            return page_part(front, place)
        case "rows.txt":
            found = schema_read(front)
            return row_part(fields_of(found, found.type_named(text.split()[0])), place)
        case "pairs.txt":
            fields = [("key", Kind("entity")), ("key", Kind(text.split()[0]))]
            return row_part(fields[::-1] if text.split()[1] == "turned" else fields, place)
        case "keys.txt":
            return row_part([("key", Kind(text.split()[0]))], place)


def told(name, front, text, due):
    """What a case is, in words."""
    if name == "pages.txt" and due == "sound":
        return f"sound, {front.split()[0]}"
    if due.startswith("wrong at "):
        return f"wrong in {part_of(name, front, text, int(due.split()[-1]))}"
    return "read"


# ---- comparing


def table_of(cases):
    """The lines of a table; a front stands before cases that differ from those before in it."""
    lines, before = [], ""
    for front, text in cases:
        if front != before:
            lines.append(f"> {front}".replace("\n", "\n  "))
            before = front
        lines.append(text)
    return "\n".join(lines) + "\n"


def page_front(front, text):
    """A page stands in the front of its case, which then has no edit, so that it isn't printed."""
    return f"{front} {text}", "-"


def built():
    """The program of the tables. `rt run` proves and builds it where it has changed, and runs it for nothing."""
    ran = subprocess.run(["rt", "run"], cwd=CRATE, stdout=subprocess.PIPE, stderr=subprocess.STDOUT, check=False)
    if not any(words in ran.stdout for words in (b"logic=proved", b"since the last proved build")):
        raise SystemExit(ran.stdout.decode())
    return CRATE / "out" / CRATE.name


def compare(count, seed, program):
    drawer = Drawer(seed)
    drawn = {
        "pages.txt": [page_front(*drawer.page()) for _ in range(count)],
        "rows.txt": [drawer.row() for _ in range(count)],
        "pairs.txt": [drawer.pair() for _ in range(count // 2)],
        "keys.txt": [drawer.key() for _ in range(count // 2)],
    }
    folder = pathlib.Path(tempfile.mkdtemp(prefix="statice-pages-"))
    for name, cases in drawn.items():
        (folder / name).write_text(table_of(cases))
    ran = subprocess.run([program], cwd=folder, stdout=subprocess.PIPE, check=False)
    if ran.returncode:
        print(f"the program ended with status {ran.returncode} in {folder}")
        return 2
    answers, lines = {}, []
    for line in ran.stdout.decode().split("\n"):
        if found := re.fullmatch(r"(\w+\.txt): [0-9]+ cases", line):
            answers[found[1]], lines = lines, []
        elif line:
            lines.append(line)
    differing = 0
    for name, cases in drawn.items():
        dues = collections.Counter()
        for (front, text), line in zip(cases, answers[name], strict=True):
            due = TABLES[name]((f"{front}\n{text}" if front else text).encode())
            dues[told(name, front, text, due)] += 1
            if line != f"{text} => {due}":
                differing += 1
                if differing <= MOST_SHOWN:
                    print(f"{name}: on {shortened(repr(front))}\n  {shortened(text)}")
                    print(f"  the model: {shortened(due)}\n  the program: {shortened(line)}")
        print(f"{name}, {len(cases)} cases:")
        for due in sorted(dues):
            print(f"    {dues[due]:>6} {due}")
    print(f"{differing} of {sum(map(len, drawn.values()))} differ")
    if differing:
        print(f"the tables are in {folder}")
        return 1
    shutil.rmtree(folder)
    return 0


def main():
    parser = argparse.ArgumentParser(description="Compares what is read of pages, rows and keys with the model.")
    parser.add_argument("--count", type=int, default=2000, help="how many pages and rows")
    parser.add_argument("--seed", type=int, default=1, help="which pages and rows")
    parser.add_argument("--program", type=pathlib.Path, help="the program that is asked")
    parser.add_argument("--table", type=pathlib.Path, help="the folder of a program of cases")
    words = parser.parse_args()
    if words.table:
        return 0 if judge(words.table, TABLES) else 1
    return compare(words.count, words.seed, words.program.resolve() if words.program else built())


if __name__ == "__main__":
    sys.exit(main())

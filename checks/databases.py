#!/usr/bin/env python3
"""Judges the tables of `st_database_tables` by the model: what is read of databases in pages, and calls on pages in memory.

    checks/databases.py [--table FOLDER]

FOLDER is the program of cases, with `data/` and `stdout`; crates/st_database_tables if it isn't given. Prints each answer
that the model gives otherwise. The status is 0 where it gives all of them.
"""

import argparse
import functools
import pathlib
import sys

from cases import judge
from paging import PAGES, SIZE, BadPage, MemoryPages, Wanted, canonical, first_wrong, new_database, page_of, read_database, stores
from texts import Reader, SchemaFault, TextFault, schema

FOLDER = pathlib.Path(__file__).resolve().parent.parent / "crates" / "st_database_tables"


@functools.cache
def schema_of(text):
    """The schema of a text, or None."""
    try:
        return schema(Reader(text).forms())
    except (SchemaFault, TextFault):
        return None


@functools.cache
def pages_of(front):
    found = schema_of(front)
    return None if found is None else new_database(found)


def edited(pages, parts):
    """Pages behind the edits of a case, and the calls that are to fail."""
    pages, failing = list(pages), []
    for words in (part.split() for part in parts):
        if words[0] == "cut":
            pages = pages[: int(words[1])]
        elif words[0] == "failing":
            failing.append(int(words[1]))
        elif words != ["-"]:
            at, digits = words[0].split("=")
            page, place = map(int, at.split(":"))
            pages += [bytes(SIZE)] * (page + 1 - len(pages))
            data = bytes.fromhex(digits)
            pages[page] = pages[page][:place] + data + pages[page][place + len(data) :]
    return pages, failing


class DiskFault(Exception):
    """A call that is to fail."""


def database_answer(text):
    front, _, case = text.rpartition(b"\n")
    pages = pages_of(front + b"\n")
    if pages is None:
        return "no schema"
    pages, failing = edited(pages, case.decode().split(","))
    memory = MemoryPages(pages, failing)

    def get(page):
        if memory.fails():
            raise DiskFault
        return memory.image(page)

    try:
        found, firsts = read_database(get, schema_of)
    except BadPage as bad:
        return " ".join(map(str, ["bad", *bad.args]))
    except DiskFault:
        return "disk fault"
    places = [f"{store}:{first}:{key}:{width}" for (store, (key, width)), first in zip(stores(found).items(), firsts)]
    return " ".join([found.name, str(len(canonical(found))), *places])


def page_answer(text):
    front, _, case = text.rpartition(b"\n")
    pages = pages_of(front + b"\n")
    if pages is None:
        return "no schema"
    if int(case) >= len(pages):
        return "no page"
    return pages[int(case)].rstrip(b"\0").hex() or "blank"


def image_of(kind):
    return page_of(int(kind))


def called(memory, words, step):
    """What one call is answered; a page that is put is got first."""
    match words:
        case ["get", page]:
            return memory.get(int(page) + step)
        case ["put" | "put+", page, kind]:
            page = int(page) + step
            got = memory.get(page)
            return got if got == "disk fault" else memory.put(page, image_of(kind))
        case ["fresh"]:
            return memory.fresh()
        case ["fresh+", kind]:
            page = memory.fresh()
            if not page.isdecimal():
                return page
            put = memory.put(int(page), image_of(kind))
            return page if put == "ok" else put


def is_fault(answer):
    return answer.split()[0] in ("disk", "full", "many")


def memory_answer(text):
    front, _, case = text.decode().rpartition("\n")
    pages, failing = [], []
    for word, number in (part.split() for part in front.split(",")):
        if word == "pages":
            pages += [image_of(2)] * int(number)
        elif word == "blank":
            pages[int(number)] = bytes(SIZE)
        else:
            failing.append(int(number))
    memory, answers = MemoryPages(pages, failing), []
    for words in (part.split() for part in case.split(",")):
        times, words = (int(words[1]), words[2:]) if words[0] == "times" else (1, words)
        for step in range(times):
            answer = called(memory, words, step)
            if is_fault(answer):
                break
        answers.append(answer)
    return " ".join(answers)


def roots_answer(text):
    """The pages of both chains: those of a new database, with other first pages in the roots' chain."""
    front, _, case = text.rpartition(b"\n")
    found = schema_of(front + b"\n")
    if found is None:
        return "no schema"
    firsts = [int(word) for word in case.decode().split(",")]
    if len(firsts) != len(stores(found)):
        return "other stores"
    pages = new_database(found)[: -len(firsts)]
    roots = [page for page in pages if page[0] == 5]
    entries = b"".join(number.to_bytes(4, "big") + first.to_bytes(4, "big") for number, first in zip(stores(found), firsts))
    size = SIZE - 16
    for place, root in enumerate(roots):
        piece = entries[place * size : (place + 1) * size]
        pages[pages.index(root)] = root[:16] + piece + bytes(size - len(piece))
    return " ".join(f"{number}:{page.rstrip(bytes(1)).hex()}" for number, page in enumerate(pages))


def serial_answer(text):
    """What is read of a last serial that was set: the first page is got and put, and got again."""
    front, _, case = text.rpartition(b"\n")
    edits, _, given = case.decode().partition(";")
    store, first, key, width, serial = map(int, given.split())
    if store >= PAGES or first >= PAGES or not 1 <= key <= min(207, width) or width > 1000:
        return "no place"
    pages, failing = edited(pages_of(front + b"\n"), edits.split(","))
    memory = MemoryPages(pages, failing)
    if memory.fails():
        return "disk fault"
    page = memory.image(first)
    place = first_wrong(Wanted(["chain", store, key, width]), page)
    if place is not None:
        return f"bad {first} {place}"
    put = memory.put(first, page[:12] + serial.to_bytes(4, "big") + page[16:])
    if put != "ok" or memory.fails():
        return "disk fault"
    return str(int.from_bytes(memory.image(first)[12:16], "big"))


TABLES = {
    "databases.txt": database_answer,
    "first_pages.txt": page_answer,
    "memory.txt": memory_answer,
    "roots.txt": roots_answer,
    "serials.txt": serial_answer,
}


def main():
    parser = argparse.ArgumentParser(description="Judges the tables of `st_database_tables` by the model.")
    parser.add_argument("--table", type=pathlib.Path, default=FOLDER, help="the folder of the program")
    return 0 if judge(parser.parse_args().table, TABLES) else 1


if __name__ == "__main__":
    sys.exit(main())

#!/usr/bin/env python3
"""Judges the tables of `st_tables` by the model: what `try` answers to inputs, and whether texts are schemas.

    checks/tables.py [FOLDER]

FOLDER is the program of cases, with `data/` and `stdout`; crates/st_tables if it isn't given. Prints each answer
that the model gives otherwise. The status is 0 where it gives all of them.
"""

import argparse
import pathlib
import sys

from cases import judge
from texts import Reader, SchemaFault, schema
from trying import try_

FOLDER = pathlib.Path(__file__).resolve().parent.parent / "crates" / "st_tables"


def tried(text):
    """What `try` answers: lines stand below a status of 0 and 1, and a fault behind its status."""
    status, output, _ = try_(text)
    lines = output.split("\n")[:-1]
    if status < 2:
        return "\n  ".join([str(status), *lines])
    return " ".join([str(status), *lines])


def read(text):
    """Whether a text is a schema, or the number and the fields of its fault."""
    try:
        schema(Reader(text).forms())
    except SchemaFault as fault:
        return " ".join(map(str, fault.args))
    return "ok"


TRIED = "texts faults programs statements queries refusals transactions".split()
TABLES = {f"{name}.txt": tried for name in TRIED} | {"schemas.txt": read}


def main():
    parser = argparse.ArgumentParser(description="Judges the tables of `st_tables` by the model.")
    parser.add_argument("folder", type=pathlib.Path, nargs="?", default=FOLDER, help="the folder of the program")
    return 0 if judge(parser.parse_args().folder, TABLES) else 1


if __name__ == "__main__":
    sys.exit(main())

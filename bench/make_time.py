#!/usr/bin/env python3
"""Times how long `statice` takes to make 2,047 and 4,095 entities of eight cells each, in one transaction.

    python3 bench/make_time.py                  the program of this copy of the repository
    python3 bench/make_time.py OTHER/bin/statice    that program, and another one beside it

Each make has integer and text cells of attributes of its own type, as an import would give them. Prints both times, the
least of five runs each, and how many times longer the second takes: near 2 where each new entity's cells go to the ends of
their lists.
"""

import pathlib
import subprocess
import sys
import time

PROGRAM = pathlib.Path(__file__).resolve().parent.parent / "bin" / "statice"
RUNS = 5
CELLS = ("given-name", "family-name", "room", "badge", "born", "grade", "phone", "floor")
KINDS = ("string", "string", "string", "integer", "integer", "integer", "integer", "integer")


def input_of(count):
    """A schema of one type with eight attributes, and a transaction that makes so many entities."""
    attributes = " ".join(f"({name} {kind})" for name, kind in zip(CELLS, KINDS))
    lines = ["(define-schema staff)", f"(define-entity-type person () ({attributes}))", "(with-transaction"]
    for n in range(count):
        values = (f'"Ada {n}"', f'"Byron {n % 97}"', f'"room {n % 50}"', n, 19000101 + n, n % 7, 4000 + n, n % 9)
        cells = " ".join(f"({name} {value})" for name, value in zip(CELLS, values))
        lines.append(f"(make p person {cells})")
    return ("\n".join(lines) + ")\n").encode()


def least_time(program, count):
    """The least time of some runs, in seconds."""
    given = input_of(count)
    times = []
    for _ in range(RUNS):
        began = time.perf_counter()
        ran = subprocess.run([program, "x.st", "try"], input=given, stdout=subprocess.PIPE, check=False)
        times.append(time.perf_counter() - began)
        assert (ran.returncode, ran.stdout) == (0, f"{count + 1} 1.1 commit 1\n".encode()), (ran.returncode, ran.stdout[:200])
    return min(times)


def main():
    for program in (PROGRAM, *map(pathlib.Path, sys.argv[1:])):
        subprocess.run([program, "x.st", "try"], input=input_of(1), stdout=subprocess.PIPE, check=True)  # it may be built first
        half, whole = least_time(program, 2047), least_time(program, 4095)
        print(f"{program}: 2,047 makes in {half:.4f} s, 4,095 in {whole:.4f} s, ratio {whole / half:.2f}")


if __name__ == "__main__":
    main()

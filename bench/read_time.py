#!/usr/bin/env python3
"""Times how long `statice` takes to read an input of 1/2 MiB and one of 1 MiB, and the largest schema.

The first two are text forms up to their last byte, with more statements than a transaction may have, so
that all forms are read and no statement is. Prints both times, the least of five runs each, and how many
times longer the second takes: near 2 where reading is linear in the input.

The schema has 64 types, each with the two before it as its parents, and 256 attributes, all of which the
last type has. Its time is that of reading and checking it, and of one empty transaction.
"""

import pathlib
import subprocess
import time

PROGRAM = pathlib.Path(__file__).resolve().parent.parent / "bin" / "statice"
MEBIBYTE = 1 << 20
RUNS = 5
SCHEMA = b"(define-schema tiny)\n(define-entity-type person () ((name string) (age integer)))\n"
STATEMENT = b'(make p person (name "J. \\"D\\" Doe") (age -1234567)) ; one of many\n(print (person.name p) p 7)\n'


def input_of(size):
    """Text forms of so many bytes, filled with blanks."""
    front, end = SCHEMA + b"(with-transaction\n", b")"
    count = (size - len(front) - len(end)) // len(STATEMENT)
    text = front + STATEMENT * count
    return text + b" " * (size - len(text) - len(end)) + end


def largest_schema():
    """A schema of 64 types and 256 attributes, and a transaction."""
    lines = ["(define-schema large)"]
    for ty in range(64):
        parents = " ".join(f"type-{parent}" for parent in range(max(0, ty - 2), ty))
        attributes = " ".join(f"(attribute-{4 * ty + n} boolean)" for n in range(4))
        lines.append(f"(define-entity-type type-{ty} ({parents}) ({attributes}))")
    lines.append("(with-transaction)")
    return "\n".join(lines).encode()


def run(given):
    """The time of one run in seconds, and its status and output."""
    began = time.perf_counter()
    ran = subprocess.run([PROGRAM, "x.st", "try"], input=given, stdout=subprocess.PIPE, check=False)
    return time.perf_counter() - began, ran.returncode, ran.stdout


def least_time(name, given, answer):
    """The least time of some runs over an input with this status and output, in seconds."""
    times = []
    for _ in range(RUNS):
        seconds, status, output = run(given)
        assert (status, output) == answer, (status, output[:200])
        times.append(seconds)
    print(f"{name}: {min(times):.4f} s")
    return min(times)


def least_time_of(size):
    """The least time of some runs over an input of so many bytes, in seconds."""
    given = input_of(size)
    assert len(given) == size
    statements = 2 * given.count(STATEMENT)
    return least_time(f"{size:>9} bytes", given, (3, f"fault script 2 {statements}\n".encode()))


def main():
    run(SCHEMA)  # the first run may build the program
    half, whole = least_time_of(MEBIBYTE // 2), least_time_of(MEBIBYTE)
    print(f"ratio: {whole / half:.2f}")
    least_time("64 types, 256 attributes", largest_schema(), (0, b"1 1.1 commit 1\n"))


if __name__ == "__main__":
    main()

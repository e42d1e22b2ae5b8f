#!/usr/bin/env python3
"""Times `try` over inputs of 1/2 MiB and 1 MiB of transactions with one `make` each, and of such that are refused.

    python3 bench/script_time.py                    the program of this copy of the repository
    python3 bench/script_time.py OTHER/bin/statice  another program

Prints the least times of five runs each, and how many times longer the second takes: near 2 where neither a commit nor the
way back copies the whole. Then how long an input of 1 MiB is read whose script is out of form in its last form, beside the
time of its text forms alone (the same bytes with a stray `)` as the last one).
"""

import pathlib
import subprocess
import sys
import time

PROGRAM = pathlib.Path(sys.argv[1] if len(sys.argv) > 1 else pathlib.Path(__file__).resolve().parent.parent / "bin" / "statice")
MEBIBYTE = 1 << 20
RUNS = 5
SCHEMA = b"(define-schema staff)\n(define-entity-type person () ((name string) (age integer)))\n"
MAKE = b'(with-transaction (make p person (name "Ada Byron") (age 36)))\n'
REFUSED = b'(with-transaction (make p person (name "Ada Byron") (age "x")))\n'
BACK = b'(with-transaction (make p person (name "Ada Byron")) (abort))\n'


def input_of(size, front, transaction, end=b""):
    """So many bytes: a front, as many transactions as go in, blanks, and an end."""
    count = (size - len(front) - len(end)) // len(transaction)
    text = front + transaction * count
    return text + b" " * (size - len(text) - len(end)) + end, count


def least(given, is_right):
    times = []
    for _ in range(RUNS):
        began = time.perf_counter()
        ran = subprocess.run([PROGRAM, "x.st", "try"], input=given, stdout=subprocess.PIPE, check=False)
        times.append(time.perf_counter() - began)
        assert is_right(ran.returncode, ran.stdout), (ran.returncode, ran.stdout[-200:])
    return min(times)


def two_sizes(name, front, transaction, status, last):
    """Times both sizes; `last` gives the last line by the number of transactions."""
    seconds = []
    for size in (MEBIBYTE // 2, MEBIBYTE):
        given, count = input_of(size, front, transaction)
        seconds.append(least(given, lambda code, output: code == status and output.endswith(last(count))))
    print(f"{name}: {seconds[0]:.4f} s, {seconds[1]:.4f} s, ratio {seconds[1] / seconds[0]:.2f}")


def main():
    subprocess.run([PROGRAM, "x.st", "try"], input=SCHEMA, stdout=subprocess.PIPE, check=True)  # it may be built first
    two_sizes("one make each", SCHEMA, MAKE, 0, lambda n: f"{2 * n} 1.{n} commit {n}\n".encode())
    two_sizes("refused by its check", SCHEMA, REFUSED, 1, lambda n: f"{n} 1.{n} refused 0 2\n".encode())
    people = b"(with-transaction\n" + b'(make p person (name "Ada Byron") (age 36))\n' * 4000 + b")\n"
    two_sizes("refused behind a make, over 4,000 people", SCHEMA + people, BACK, 1, lambda n: f"{4001 + 2 * n} 1.{n + 1} refused 1 10\n".encode())
    script = least(input_of(MEBIBYTE, SCHEMA, MAKE, b"(x)")[0], lambda code, output: (code, output) == (3, b"fault script 1 %d\n" % (MEBIBYTE - 3)))
    forms = least(input_of(MEBIBYTE, SCHEMA, MAKE, b")")[0], lambda code, output: (code, output) == (3, b"fault text 2 %d\n" % (MEBIBYTE - 1)))
    print(f"1 MiB out of form in its last form: {script:.4f} s; its text forms alone {forms:.4f} s; {script / forms:.2f} times as long")


if __name__ == "__main__":
    main()
